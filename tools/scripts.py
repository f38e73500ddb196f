#!/usr/bin/env python3
"""python3 tools/scripts.py    checks the form of shell scripts; `make documents` calls it

Lines of share/ have at most 100 columns. shellcheck finds nothing in any shell script; where it is not installed, this
says that it was skipped. A directive that disables one of its checks says why:

    # shellcheck disable=SC2086 # the numbers are separate arguments

What is wrong ends with status 1.
"""

import re
import shutil
import subprocess
import sys
from pathlib import Path

TOP = Path(__file__).resolve().parent.parent
MOST_COLUMNS = 100
# Where shell scripts are. The files that are read there have no suffix, or one of these.
FOLDERS = ["bench", "bindings", "examples", "python", "share", "tests", "tools"]
SUFFIXES = ["", ".1", ".bash", ".pc", ".sh", ".zsh"]
# How a script begins that shellcheck can read. It knows no zsh.
IS_SHELL = re.compile(r"#!.*\b(sh|bash)\n|# shellcheck shell=")
DISABLES = re.compile(r"\s*# shellcheck .*\bdisable=")
SAYS_WHY = re.compile(r"\s*# shellcheck [^#]*# \w")


def read_files():
    """The texts of scripts, and of what else is in share/, by their names."""
    listed = subprocess.run(["git", "ls-files", "-z", *FOLDERS], cwd=TOP, capture_output=True, text=True, check=True)
    paths = [TOP / name for name in listed.stdout.split("\0")[:-1]]
    return {str(path.relative_to(TOP)): path.read_text() for path in paths
            if path.suffix in SUFFIXES and path.is_file()}


def is_shell(name, text):
    return name.endswith((".bash", ".sh")) or IS_SHELL.match(text) is not None


def long_lines(name, text):
    """What is wrong with the columns of a file of share/."""
    for number, line in enumerate(text.splitlines(), 1):
        if len(line) > MOST_COLUMNS:
            yield f"{name}:{number}: {len(line)} columns, and at most {MOST_COLUMNS} are allowed"


def unexplained(name, text):
    """The directives that disable a check and don't say why."""
    for number, line in enumerate(text.splitlines(), 1):
        if DISABLES.match(line) and not SAYS_WHY.match(line):
            yield f"{name}:{number}: say why, after a second #: {line.strip()}"


def shellcheck(names):
    """What shellcheck finds in scripts, if it is installed."""
    if not shutil.which("shellcheck"):
        print("scripts: shellcheck is skipped: it is not installed")
        return ""
    return subprocess.run(["shellcheck", "--", *names], cwd=TOP, capture_output=True, text=True).stdout


def main():
    files = read_files()
    scripts = {name: text for name, text in files.items() if is_shell(name, text)}
    wrong = []
    for name, text in files.items():
        if name.startswith("share/"):
            wrong += long_lines(name, text)
    for name, text in scripts.items():
        wrong += unexplained(name, text)
    found = shellcheck(scripts)
    if wrong or found:
        sys.exit("".join(f"scripts: {line}\n" for line in wrong) + found.strip())
    print(f"scripts: {len(scripts)} shell scripts are in form")


main()
