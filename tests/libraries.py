#!/usr/bin/env python3
"""python3 tests/libraries.py [ARCHIVE]    a crate of one's own over packed libraries

It runs the lines of docs/CALLING.md over the program there, in an empty folder: they unpack the archive, by default
build/libraries.tar.zst, and check and run the program. It runs with no proof, too. What fails ends with status 1, wrong
arguments end with 2, and a missing archive, which `make libraries` builds, with 3.
"""

import os
import re
import subprocess
import sys
import tempfile
import time
from pathlib import Path
from typing import NamedTuple

sys.path.insert(0, str(Path(__file__).resolve().parents[1] / "tools"))
from script import TOP, fail


class Page(NamedTuple):
    """What docs/CALLING.md says of a program."""

    # Its line of crates.txt.
    line: str
    # The commands that unpack the libraries, make a repository, and check and run the program there.
    commands: list
    # The texts of its files by their paths.
    files: dict
    # What it prints.
    printed: str


def read_page():
    """Reads docs/CALLING.md. The input of the program is one of the files."""
    text = (TOP / "docs/CALLING.md").read_text().split("\n## A program\n")[1].split("\n## ")[0]
    line, *commands = re.findall(r"^    (.*)$", text.split("\n`crates/callers/")[0], re.M)
    files = dict(re.findall(r"^`crates/callers/([^`]+)`:\n\n```\w+\n(.*?)^```$", text, re.M | re.S))
    example = re.search(r"^With the lines (.*?) in `stdin` it prints\s`(.*?)`\.$", text, re.M | re.S)
    files["stdin"] = "".join(f"{numbers}\n" for numbers in re.findall(r"`(.*?)`", example[1]))
    return Page(line, commands, files, example[2])


def write_program(page, folder):
    """Writes the program as a crate of one's own, with the crate's name in the place of `callers`."""
    name = page.line.split(":")[0]
    for file, text in page.files.items():
        path = folder / "crates" / name / file
        path.parent.mkdir(parents=True, exist_ok=True)
        path.write_text(text.replace("Rattle.callers", f"Rattle.{name}"))
    (folder / "crates.txt").write_text(page.line + "\n")


def run_commands(page, program, work):
    """Runs the commands in an empty folder, and the last one with no proof, too."""
    # The second command makes the repository that the files go to.
    script = [*page.commands[:2], f"cp -r {program}/. .", *page.commands[2:]]
    script.append(page.commands[-1].replace(" run ", " try "))
    return subprocess.run(["bash", "-euc", "\n".join(script)], cwd=work / "one's own", capture_output=True, text=True,
                          env={**os.environ, "XDG_CACHE_HOME": f"{work}/cache"})


def main():
    if len(sys.argv) > 2:
        fail(f"usage: {__doc__.partition('    ')[0]}", 2)
    archive = Path(sys.argv[1] if len(sys.argv) == 2 else TOP / "build/libraries.tar.zst").resolve()
    if not archive.is_file():
        fail(f"{archive} is not there: make libraries builds the default one", 3)
    page = read_page()
    begun = time.monotonic()
    with tempfile.TemporaryDirectory() as folder:
        work = Path(folder)
        (work / "one's own/build").mkdir(parents=True)
        (work / "one's own/build/libraries.tar.zst").symlink_to(archive)
        write_program(page, work / "files")
        ran = run_commands(page, work / "files", work)
    is_checked_once = ran.stdout.count("statements=trusted") == 1
    is_run_twice = ran.stdout.split("\n").count(page.printed) == 2
    if ran.returncode or not is_checked_once or not is_run_twice:
        print(f"{ran.stdout}{ran.stderr}", end="", file=sys.stderr)
        fail(f"the lines of docs/CALLING.md end with {ran.returncode}")
    print(f"libraries: the program of docs/CALLING.md is proved and runs, in {time.monotonic() - begun:.0f} s")


main()
