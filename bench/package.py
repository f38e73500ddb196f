#!/usr/bin/env python3
"""python3 bench/package.py [quick | again] [TURNS] [PART ..]    times the Cargo package beside the proved build

Both programs do the same work in parts of one name (bench/src, rust/fohlazu/benches/times): `short`, `batches`,
`openings`, `logs`; with no part named, all four. Each is built for x86-64-v3, and for the processor that its compiler
takes by itself: x86-64-v2 is Rattle's, x86-64 Rust's. Pinned to one processor they run in turn, three times if TURNS is
not given. Each row is printed with the least time of the proved build, in microseconds, and how much longer the package
takes, for both targets; then how many rows are above 1.3, and the median. It writes bench/out/package.csv.

With `quick` the proved build is replaced by one with no proof, which tests indices and sums as the package does. With
`again` the programs of the last run are timed once more: they are kept in bench/out/programs.

The package is compiled as a user's release build, by Cargo's own settings. SHA2=DIR takes the crate `sha2` from that
folder in place of the stand-in, and the crates that it needs from the folder above. It ends with status 2 where its
words are wrong, with 3 where it can't run.
"""

import csv
import json
import os
import shutil
import statistics
import subprocess
import sys
import tempfile
from pathlib import Path

sys.dont_write_bytecode = True
sys.path.insert(0, str(Path(__file__).resolve().parent))
from inputs import OUT, TOP, fail  # noqa: E402
from program import TUNABLES, built  # noqa: E402

PARTS = ("short", "batches", "openings", "logs")
# The processors of a row: those that are named, and those that the compilers take by themselves.
CPUS = {"v3": ("x86-64-v3", "x86-64-v3"), "default": ("x86-64-v2", "x86-64")}
KEY = ("part", "work", "functions", "form", "arity", "digest_words", "rows", "width", "matrices", "queries")
# Where the programs of the last run are.
KEPT = OUT / "programs"
# What no call of the package should take more of.
MOST = 1.3


def build(is_proved):
    """Builds all programs anew, and keeps them."""
    shutil.rmtree(KEPT, ignore_errors=True)
    KEPT.mkdir(parents=True)
    with tempfile.TemporaryDirectory() as work:
        folder = Path(work)
        proved = built(folder, [cpu for cpu, _ in CPUS.values()] if is_proved else [])
        # With no proof there is one program, for the compiler's own processor.
        for program, (name, (_, cpu)) in zip(proved if is_proved else proved * len(CPUS), CPUS.items()):
            shutil.copy(program, KEPT / f"proved-{name}")
            shutil.copy(package(folder / "package", cpu), KEPT / f"package-{name}")


def package(folder, cpu):
    """The package's program for a processor."""
    words = ["cargo", "bench", "--no-run", "--bench", "times", "--message-format", "json", "--target-dir", folder / cpu]
    for setting in real_sha2():
        words += ["--config", setting]
    ran = subprocess.run(words, cwd=TOP / "rust", env={**os.environ, "RUSTFLAGS": f"-C target-cpu={cpu}"},
                         stdin=subprocess.DEVNULL, capture_output=True, text=True)
    made = [json.loads(line) for line in ran.stdout.splitlines() if '"name":"times"' in line]
    if ran.returncode or not made:
        fail(f"the package's program is not built\n{ran.stderr}", 3)
    return made[-1]["executable"]


def real_sha2():
    """The settings of cargo that take the crate `sha2` from a folder, and what it needs from the folder above."""
    if "SHA2" not in os.environ:
        return []
    path = Path(os.environ["SHA2"]).resolve()
    return [f'patch.crates-io.sha2.path="{path}"', 'source.crates-io.replace-with="folder"',
            f'source.folder.directory="{path.parent}"']


def least(program, parts, times):
    """Runs a program, and lowers the least time of each row to what it took."""
    ran = subprocess.run([program, *parts], stdout=subprocess.PIPE, text=True, check=True,
                         env={**os.environ, "GLIBC_TUNABLES": TUNABLES})
    for line in csv.DictReader(ran.stdout.splitlines()):
        key = tuple(line[name] for name in KEY)
        times[key] = min(times.get(key, float("inf")), float(line["least_us"]))


def table(times):
    """A row for each that both programs have, under every target."""
    first = times["v3"][0]
    keys = [key for key in first if all(key in side for sides in times.values() for side in sides)]
    rows = []
    for key in keys:
        cells = [f"{side:.3f}" for target in times for side in (times[target][0][key], ratio(times[target], key))]
        rows.append([*key, *cells])
    heads = [*KEY, *(word for target in times for word in (f"{target} us", f"{target} ratio"))]
    with (OUT / "package.csv").open("w", newline="") as file:
        csv.writer(file).writerows([heads, *rows])
    widths = [max(map(len, column)) for column in zip(heads, *rows)]
    for row in [heads, *rows]:
        print("  ".join(cell.ljust(width) for cell, width in zip(row, widths)).rstrip())
    for target, sides in times.items():
        for name, chosen in (("singly", one_message), ("all rows", lambda _: True)):
            ratios = [ratio(sides, key) for key in keys if chosen(key)]
            above = sum(one > MOST for one in ratios)
            print(f"{target}, {name}: {len(ratios)} rows, {above} above {MOST}, "
                  f"median {statistics.median(ratios):.2f}, most {max(ratios):.2f}")


def one_message(key):
    """Whether a row is of the fold functions, or of SHA-256 one message a call."""
    line = dict(zip(KEY, key))
    return line["functions"] == "fold" or line["form"] in ("scalar", "salted")


def ratio(sides, key):
    """How much longer the package takes than the proved build."""
    return sides[1][key] / sides[0][key]


def main():
    words = sys.argv[1:]
    how = words.pop(0) if words[:1] in (["quick"], ["again"]) else "proved"
    turns = int(words.pop(0)) if words and words[0].isdecimal() else 3
    if not set(words) <= set(PARTS):
        fail(f"usage: python3 bench/package.py [quick | again] [TURNS] [{'|'.join(PARTS)} ..]", 2)
    if how != "again":
        for tool in "rt", "cargo":
            shutil.which(tool) or fail(f"{tool} is not on the PATH", 3)
        build(how == "proved")
    os.sched_setaffinity(0, {max(os.sched_getaffinity(0))})
    times = {name: ({}, {}) for name in CPUS}
    for turn in range(turns):
        print(f"bench/package.py: turn {turn + 1} of {turns}", file=sys.stderr)
        for name, sides in times.items():
            for side, program in zip(sides, ("proved", "package")):
                least(KEPT / f"{program}-{name}", words or PARTS, side)
    table(times)


main()
