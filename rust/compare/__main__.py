#!/usr/bin/env python3
"""python3 rust/compare UPSTREAM COUNT SEED    p3-merkle-tree 0.8.0 and fohlazu-p3 beside each other, in one process
python3 rust/compare tests UPSTREAM    the original's own tests over fohlazu-p3
python3 rust/compare program UPSTREAM    a user's program over both
python3 rust/compare bench UPSTREAM [PART..]    how long both take
python3 rust/compare threads UPSTREAM [PART..]    how long both take to commit on all processors
python3 rust/compare self UPSTREAM    the tests of this program

UPSTREAM is a folder with the original's files: its Cargo package, its sources alone, or flat files, in whose names `--`
stands for `/` and to whose ends `.txt` may be added. A package is compiled where it is, if its Cargo.toml names no
other folder; all else is copied to a temporary folder first, and nothing is ever copied to the repository.

- With COUNT and SEED, random operations are asked of both, COUNT or a few more. Known differences are counted, any
  other one is printed with its smallest case, and the status is 1.
- `tests` runs the original's own tests that touch no private part of it, and names the others.
- `program` runs the example `both_schemes` of fohlazu-p3 over both, and compares what it prints.
- `bench` times both, line by line, of all parts or of those that are named. The status is 1 if a line takes more than it
  may.
- `threads` does so for commits with the feature `parallel` of both, by rayon as Debian's librust-rayon-dev installs it.

It needs Cargo, and takes the stand-ins of rust/stand-ins for the crates that the original imports. The status is 1 if
something is wrong, 2 if the words are, 3 if Cargo is missing.
"""

import os
import shutil
import subprocess
import sys
import tempfile
from pathlib import Path

sys.path.insert(0, str(Path(__file__).resolve().parents[2] / "tools"))
from script import TOP, fail  # first: without it Python would write the modules below as bytecode

import own_tests
import program
import upstream

HERE = TOP / "rust/compare"
# Where Debian installs crates: rayon and what it needs.
CRATES = Path("/usr/share/cargo/registry")


def cargo(*words, output=None):
    """Runs Cargo here, where its configuration names the stand-ins. Output goes where it goes, or is returned."""
    settings = {"CARGO_TERM_COLOR": "never", "CARGO_TARGET_DIR": os.environ.get("CARGO_TARGET_DIR", HERE / "target")}
    return subprocess.run(["cargo", *words], cwd=HERE, stdin=subprocess.DEVNULL, stdout=output, text=True, check=False,
                          stderr=subprocess.STDOUT if output else None, env=os.environ | settings)


def over(folder, original):
    """The words of Cargo by which this package takes the original, which is laid out in a folder if it has to be."""
    package = original.package_in(folder)
    return "--offline", "--quiet", "--config", f'patch.crates-io.p3-merkle-tree.path="{package}"'


def compare(folder, original, count, seed):
    """Random operations by both."""
    return cargo("run", *over(folder, original), "--release", "--", count, seed).returncode


def timed(folder, original, parts, *words):
    """How long both take, compiled by these words of Cargo."""
    # The C library keeps what is freed: else it depends on earlier lines whether a commit waits for pages of the system.
    os.environ.setdefault("GLIBC_TUNABLES",
                          "glibc.malloc.trim_threshold=1073741824:glibc.malloc.mmap_threshold=33554432")
    words = [*over(folder, original), *words, "--bin", "bench", "--profile", "bench"]
    return cargo("run", *words, "--", *parts).returncode


def bench(folder, original, *parts):
    """How long both take."""
    return timed(folder, original, parts)


def threads(folder, original, *parts):
    """How long both take to commit on all processors."""
    found = sorted(CRATES.glob("rayon-1.*"))
    if not found:
        fail(f"{CRATES} has no rayon", 3)
    settings = f'patch.crates-io.rayon.path="{found[-1]}"', f'source.crates.directory="{CRATES}"', \
        'source.crates-io.replace-with="crates"'
    words = [word for setting in settings for word in ("--config", setting)]
    return timed(folder, original, parts, *words, "--features", "parallel")


def test_this(folder, original):
    """The tests of this program."""
    return cargo("test", *over(folder, original)).returncode


def run_tests(folder, original):
    """The original's own tests over fohlazu-p3."""
    def test(*words):
        done = cargo("test", "--offline", *words, output=subprocess.PIPE)
        return done.returncode, done.stdout

    return own_tests.run(folder, original, test)


def run_program(folder, original):
    """A user's program over both."""
    def run(*words):
        done = subprocess.run(["cargo", "run", "--offline", "--quiet", *words], cwd=HERE, stdin=subprocess.DEVNULL,
                              capture_output=True, text=True, check=False)
        return done.returncode, done.stdout if done.returncode == 0 else done.stdout + done.stderr

    return program.run(folder, original.package_in(folder / "package"), run)


def main():
    words = sys.argv[1:]
    match words:
        case ["tests", where]:
            task, rest = run_tests, []
        case ["self", where]:
            task, rest = test_this, []
        case ["program", where]:
            task, rest = run_program, []
        case ["bench", where, *rest]:
            task = bench
        case ["threads", where, *rest]:
            task = threads
        case [where, *rest] if len(rest) == 2 and all(word.isascii() and word.isdecimal() for word in rest):
            task = compare
        case _:
            fail("usage: python3 rust/compare UPSTREAM COUNT SEED, or rust/compare tests UPSTREAM, "
                 "or rust/compare program UPSTREAM, or rust/compare bench UPSTREAM [PART..], "
                 "or rust/compare threads UPSTREAM [PART..], or rust/compare self UPSTREAM", 2)
    if not Path(where).is_dir():
        fail(f"{where} is no folder", 2)
    try:
        original = upstream.read(where)
    except upstream.NoSources as why:
        fail(why, 2)
    if not shutil.which("cargo"):
        fail("cargo is not installed", 3)
    with tempfile.TemporaryDirectory() as folder:
        sys.exit(task(Path(folder), original, *rest))


main()
