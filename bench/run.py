#!/usr/bin/env python3
"""python3 bench/run.py [quick] [PART ..]: measures the library, and prints a table

sizes     commits to one matrix of 2^10 to 2^20 rows and of width 1, 8, 64 or 1000
short     the same up to 2^14 rows
batches   commits to eight heights, to 256 short matrices beside a tall one, and to four matrices
openings  64 and 1024 openings, by a proof each and by one together, their verification, and restored paths
logs      roots of 10^6 entries, beside `openssl dgst -sha256`, and of 10^7 leaf hashes, beside a commit; verification
          of proofs of inclusion, beside Go's golang.org/x/mod/sumdb

With no part named it measures all but `short`. It proves and builds bench/src for x86-64-v3, as a crate of a copy of
the repository; with `quick` it builds alone. Pinned to one processor, each form of a scheme is timed: scalar (row by
row and node by node), packed (in lanes), batched (eight messages a call), salted. The last column is the ratio to the
first form on the same batch. docs/PERFORMANCE.md says what the table shows. It writes bench/out/times.csv. It ends with
status 2 where its words are wrong, with 3 where it can't run.
"""

import csv
import os
import shutil
import subprocess
import sys
import tempfile
from pathlib import Path

sys.dont_write_bytecode = True
sys.path.insert(0, str(Path(__file__).resolve().parent))
from inputs import OUT, TOP, bytes_of, fail, make, measured  # noqa: E402
from program import TUNABLES, built  # noqa: E402

sys.path.insert(0, str(TOP / "tests/bindings"))
import golang  # noqa: E402

PARTS = ("sizes", "batches", "openings", "logs")
# What other forms of the same work are compared with.
BASES = ("scalar", "openssl", "commit", "go")
SHOWN = ("part", "work", "functions", "form", "arity", "digest_words", "rows", "width", "matrices", "queries")


def openssl_line(line):
    """The line of openssl, over random bytes that are as many: without the start of its process."""
    path = make("entries", int(line["words"]), bytes_of)
    times = [measured(["openssl", "dgst", "-sha256", path])[0] for _ in range(int(line["repetitions"]))]
    start = min(measured(["openssl", "dgst", "-sha256", os.devnull])[0] for _ in times)
    return {**line, "form": "openssl", "least_us": 1e6 * (min(times) - start), "most_us": 1e6 * (max(times) - start)}


def go_line(line):
    """The line of Go's verifier, over as many proofs."""
    ran = subprocess.run(["go", "run", TOP / "bench/logs.go"], stdout=subprocess.PIPE, text=True, check=True,
                         env={**os.environ, **golang.ENVIRONMENT})
    times = [int(word) / 1000 for word in ran.stdout.split()]
    return {**line, "form": "go", "least_us": min(times), "most_us": max(times)}


def cells(line, bases):
    """What is measured, the least time, how much longer the longest is, the time a word, and the ratio."""
    least = float(line["least_us"])
    most = float(line["most_us"])
    words = int(line["words"])
    base = bases.get(batch(line))
    return [
        *(line[name] for name in SHOWN),
        f"{least:.2f}",
        f"{100 * (most - least) / least:.0f}",
        "" if int(line["queries"]) else f"{1000 * least / words:.3f}",
        f"{least / base:.2f}" if base else "",
    ]


def batch(line):
    return tuple(line[name] for name in SHOWN if name != "form")


def table(lines):
    bases = {batch(line): float(line["least_us"]) for line in lines if line["form"] in BASES}
    rows = [[*SHOWN[:4], "N", "D", *SHOWN[6:], "least us", "spread %", "ns a word", "ratio"]]
    rows += [cells(line, bases) for line in lines]
    widths = [max(map(len, column)) for column in zip(*rows)]
    for row in rows:
        names = [cell.ljust(width) for cell, width in zip(row[:4], widths)]
        print("  ".join(names + [cell.rjust(width) for cell, width in zip(row[4:], widths[4:])]))


def main():
    words = sys.argv[1:]
    is_proved = words[:1] != ["quick"]
    parts = words if is_proved else words[1:]
    if not set(parts) <= {"short", *PARTS}:
        fail(f"usage: python3 bench/run.py [quick] [short|{'|'.join(PARTS)} ..]", 2)
    shutil.which("rt") or fail("the Rattle toolchain is needed: its command rt is not on the PATH", 3)
    OUT.mkdir(exist_ok=True)
    with tempfile.TemporaryDirectory() as folder:
        program, = built(Path(folder), ["x86-64-v3"] if is_proved else [])
        print(f"bench/run.py: measuring {' '.join(parts or PARTS)}", file=sys.stderr)
        os.sched_setaffinity(0, {max(os.sched_getaffinity(0))})
        ran = subprocess.run([program, *(parts or PARTS)], stdout=subprocess.PIPE, text=True, check=True,
                             env={**os.environ, "GLIBC_TUNABLES": TUNABLES})
    (OUT / "times.csv").write_text(ran.stdout)
    lines = list(csv.DictReader(ran.stdout.splitlines()))
    if shutil.which("openssl"):
        lines += [openssl_line(line) for line in lines if line["work"] == "root of entries"]
    if not golang.skipped():
        lines += [go_line(line) for line in lines if line["work"] == "inclusion"]
    table(lines)


main()
