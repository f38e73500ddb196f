#!/usr/bin/env python3
"""python3 bench/files.py [quick] [BYTES LINES]: the time and memory of `fohlazu`, beside other tools

In bench/out it makes a file of BYTES random bytes (1 GiB), one of LINES lines of 64 bytes with their ends (10^7), one
of a tenth as many lines of 20 bytes, and one of a fifth as many of mixed lengths from 60 to 250 bytes, as logs have
them. Pinned to one processor, with the files in memory, it seals each, the first in blocks of 4096, beside `openssl
dgst -sha256` and `sha256sum`, and takes the least processor time of some rounds. Then it seals four times BYTES of
zeros in blocks, and runs `prove` and `verify` of 20000, 64 and one of the lines, and last the verifiers with the start
of their process. Memory is that which is held at most, and shows from 8 MiB on. With the word `quick` the program has
no proof. FOHLAZU names another program. It ends with status 2 where its words are wrong, with 3 where it can't run.
"""

import os
import random
import shutil
import subprocess
import sys
import time
from pathlib import Path

sys.dont_write_bytecode = True
sys.path.insert(0, str(Path(__file__).resolve().parent))
from inputs import OUT, built, bytes_of, fail, lines_of, make, measured  # noqa: E402

MIB = 1 << 20
ROUNDS = 5
STARTS = 50
OTHERS = {"openssl": ["dgst", "-sha256"], "sha256sum": []}
# how many entries are proved
COUNTS = (20000, 64, 1)
BLOCKS = ["--blocks", "4096"]


def show(name, seconds, held, more=""):
    print(f"{name:34}{seconds:9.3f} s{held / MIB:9.1f} MiB{more}", flush=True)


def seal(program, kind, path, options):
    """Seals a file, beside other tools; all run in turn, and a first round brings the file to memory."""
    commands = {"fohlazu seal": [program, "seal", *options, path]}
    commands |= {name: [name, *words, path] for name, words in OTHERS.items() if shutil.which(name)}
    rounds = [{name: measured(words) for name, words in commands.items()} for _ in range(ROUNDS + 1)][1:]
    least = {name: min(ran[name][0] for ran in rounds) for name in commands}
    for name, seconds in least.items():
        ratio = f"   ratio {least['fohlazu seal'] / seconds:.2f}" if name in OTHERS else ""
        show(f"{name}, {kind}", seconds, max(ran[name][1] for ran in rounds), ratio)


def prove_and_verify(program, path, count):
    """Proves and verifies some of the lines, and growth from the first half."""
    checkpoint, proof, head, old, growth = (OUT / name for name in ("checkpoint", "proof", "head", "old", "growth"))
    measured([program, "seal", "--origin", "lines", path], checkpoint)
    for some in COUNTS:
        numbers = sorted(random.Random(1).sample(range(1, count + 1), min(some, count)))
        ran = measured([program, "prove", checkpoint, path, *map(str, numbers)], proof)
        show(f"fohlazu prove, {some} of the lines", *ran, f", prints {proof.stat().st_size / MIB:.1f} MiB")
        show(f"fohlazu verify, {some} of the lines", *measured([program, "verify", checkpoint, proof]))
    with path.open("rb") as lines:
        head.write_bytes(lines.read(64 * (count // 2)))
    measured([program, "seal", "--origin", "lines", head], old)
    measured([program, "prove-consistency", old, checkpoint, path], growth)
    for name, words in {"verify": [checkpoint, proof], "verify-consistency": [old, growth]}.items():
        print(f"fohlazu {name}, from the start: {started([program, name, *words]):.2f} ms")


def started(words):
    """The least time by the clock that a command takes with the start of its process, in milliseconds."""
    found = []
    for _ in range(STARTS):
        begun = time.perf_counter()
        subprocess.run(words, **dict.fromkeys(("stdin", "stdout", "stderr"), subprocess.DEVNULL), check=True)
        found.append(1000 * (time.perf_counter() - begun))
    return min(found)


def main():
    words = sys.argv[1:]
    is_quick = words[:1] == ["quick"]
    words = words[1:] if is_quick else words
    if len(words) not in (0, 2) or not all(word.isascii() and word.isdecimal() and int(word) for word in words):
        fail("usage: python3 bench/files.py [quick] [BYTES LINES]", 2)
    size, count = map(int, words or (1 << 30, 10**7))
    program = built(is_quick)
    OUT.mkdir(exist_ok=True)
    os.sched_setaffinity(0, {max(os.sched_getaffinity(0))})
    seal(program, "blocks", make("blocks", size, bytes_of), BLOCKS)
    lines = make("lines", 64 * count, lines_of(64, 64))
    seal(program, "lines", lines, [])
    seal(program, "short lines", make("short", 2 * count, lines_of(20, 20)), [])
    seal(program, "mixed lines", make("mixed", 156 * (count // 5), lines_of(60, 250)), ["--partial"])
    zeros = OUT / "zeros"
    zeros.touch()
    os.truncate(zeros, 4 * size)
    show("fohlazu seal, zeros", *measured([program, "seal", *BLOCKS, zeros]))
    prove_and_verify(program, lines, count)


main()
