"""Runs scripts of share/ inside this process, each anew over files of its own: to begin Python, or a fork of it, takes
longer than most of what they do. A script that a script starts runs inside, too. openssl runs as it does."""

import os
import subprocess
import sys
import traceback
from functools import cache
from pathlib import Path

run_program = subprocess.run
STANDARD = range(3)


@cache
def compiled(path):
    return compile(Path(path).read_bytes(), path, "exec")


def contents(file):
    os.lseek(file, 0, os.SEEK_SET)
    found = b""
    while piece := os.read(file, 1 << 20):
        found += piece
    return found


def run_either(words, **settings):
    """What subprocess.run is for a script: scripts run inside, and other programs as they do."""
    if words[0] != sys.executable:
        return run_program(words, **settings)
    _, _, path, *words = words
    return subprocess.CompletedProcess(words, *run_inside(path, words, settings["input"]))


def run_inside(path, words, data):
    """The status, what the script prints, and what it says."""
    files = [os.memfd_create("inside") for _ in STANDARD]
    os.write(files[0], data)
    os.lseek(files[0], 0, os.SEEK_SET)
    kept = [os.dup(file) for file in STANDARD]
    ours = sys.argv, sys.stdin, sys.stdout, sys.stderr, subprocess.run
    for stream in sys.stdout, sys.stderr:
        stream.flush()
    try:
        for file in STANDARD:
            os.dup2(files[file], file)
        sys.argv = [os.fsdecode(word) for word in (path, *words)]
        sys.stdin, sys.stdout = open(0, closefd=False), open(1, "w", closefd=False)
        sys.stderr = open(2, "w", errors="backslashreplace", closefd=False)
        subprocess.run = run_either
        status = status_of(str(path))
        for stream in sys.stdout, sys.stderr:
            stream.flush()
    finally:
        sys.argv, sys.stdin, sys.stdout, sys.stderr, subprocess.run = ours
        for file in STANDARD:
            os.dup2(kept[file], file)
    printed = [contents(file) for file in files[1:]]
    for file in (*files, *kept):
        os.close(file)
    return status, *printed


def status_of(path):
    """Runs a script to its end, in names of its own."""
    try:
        exec(compiled(path), {"__name__": "__main__", "__file__": path})
    except SystemExit as ended:
        return ended.code or 0
    except Exception:
        traceback.print_exc()
        return 1
    return 0


def open_files():
    """How many files this process has open."""
    return len(os.listdir("/proc/self/fd"))
