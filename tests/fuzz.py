#!/usr/bin/env python3
"""python3 tests/fuzz.py [quick] library|mmcs|fohlazu SECONDS SEED: random cases, each answer compared with the model's.

- library: random batches at arities 2, 4 and 8, plain and salted, through every call and builder, their openings whole
  and damaged. A damaged one that is accepted has to yield a collision, whose inputs are hashed again.
- mmcs: random matrices, bytes and words through the engine and the program; some of them with an input or an output
  that fails at each place in turn.
- fohlazu: random files sealed, proved, verified, grown and joined, and each text damaged, within 64 MiB of memory.

Before these comes what is not random: the stored cases by the model, large inputs, and for fohlazu files that can't be
read or written, come slowly or change. The first round of random cases has every kind, and rounds follow until SECONDS
are over. A seed has the same cases in the same order: the time says how many of them are tried.

`make` builds the programs where they are not built, with `quick` with no proof, and large inputs are a part as large.
FOHLAZU names another program. At a wrong answer it prints the case and the smallest of its kind that goes wrong. The
status is 1 then, 2 for wrong words, 3 where a program can't be built.
"""

import os
import random
import resource
import subprocess
import sys
import tempfile
import time
from collections import Counter
from functools import partial
from itertools import chain, count
from pathlib import Path
from typing import NamedTuple

sys.dont_write_bytecode = True
TOP = Path(__file__).resolve().parent.parent
sys.path.insert(0, str(TOP / "tests/model"))
import huge  # noqa: E402
import mmcs as model  # noqa: E402
import odd  # noqa: E402
import random_batches  # noqa: E402
import random_files  # noqa: E402
import random_mmcs  # noqa: E402
import stored  # noqa: E402
from running import Program, faults  # noqa: E402

USAGE = "usage: python3 tests/fuzz.py [quick] library|mmcs|fohlazu SECONDS SEED"
# Bytes that a run may ask for, and one of `fohlazu` on random files and damaged texts.
ROOM, LIMIT = 8 << 30, 64 << 20
# The kinds of cases of `mmcs`: few whose input or output fails at each place in turn, since each is many runs.
STREAMS = 8 * [model.WHOLE] + [model.UNREAD, model.UNWRITTEN]
# The sizes of the first round, and of the search for the smallest case, which has so many seconds for each.
FIRST, SIZES, SEARCH = 6, (1, 2, 3, 4, 5, 7, 9, 16), 10


class Tried(NamedTuple):
    """What a case is counted as, the case, to be tried by hand, and what is wrong about its answer, in lines."""

    kind: str
    shown: str
    wrong: list


def tried(path, kinds, lines):
    """Cases that a test program has answered."""
    wrong = stored.wrong_answers(path, lines)
    for place, (kind, line) in enumerate(zip(kinds, lines)):
        yield Tried(kind, line, wrong.get(place, []))


def library(built, is_quick, _):
    """What is not random, and the kinds of random cases: each takes a source and a size, or none for any."""
    program = built("test_merkle")

    def batches(is_salted, source, size):
        found = list(chain.from_iterable(random_batches.cases_of(source, size, is_salted) for _ in range(15)))
        return tried(program, [": ".join(kinds) for _, _, kinds in found],
                     [f"{line} | {answer}" for line, answer, _ in found])

    fixed = chain(stored.tests("test_merkle", is_quick), stored.tests("test_rust", is_quick))
    return fixed, {"plain": partial(batches, False), "salted": partial(batches, True)}


def mmcs(built, is_quick, folder):
    engine, program = built("test_merkle"), Program(built("mmcs"), folder)

    def by_engine(source, size):
        found = [run for _ in range(40) for run in random_mmcs.runs(source, size)]
        cases = [source.choice(STREAMS) for _ in found]
        kinds = [f"engine, {case}: {random_mmcs.counted(kind, model.output(words, data))}"
                 for case, (words, data, kind) in zip(cases, found)]
        lines = [model.line_of(words, data, case) for case, (words, data, _) in zip(cases, found)]
        return tried(engine, kinds, [" | ".join(line) for line in lines])

    def by_program(source, size):
        for words, data, kind in chain.from_iterable(random_mmcs.runs(source, size) for _ in range(12)):
            wrong = [*faults(program.run(words, {"-": data}), *model.expected(words, data))]
            kind = random_mmcs.counted(kind, model.output(words, data))
            yield Tried(f"program: {kind}", f"{words} < {data!r}", wrong)

    return huge.table_tests(program, 20 if is_quick else 1), {"engine": by_engine, "program": by_program}


def fohlazu(built, is_quick, folder):
    program = Program(built("fohlazu"), folder)
    limited = Program(program.path, folder, LIMIT)

    def exchanges(command, source, size):
        for case in random_files.cases(command, source, size):
            answer = case.answer()
            yield Tried(f"{command}: {case.kind}: {answer.counted()}", case.shown(), case.wrongs(limited, answer))

    fixed = chain(stored.tests("test_log", is_quick), odd.tests(program),
                  huge.log_tests(program, 100 if is_quick else 1))
    return fixed, {command: partial(exchanges, command) for command in random_files.CASES}


SUBJECTS = {"library": library, "mmcs": mmcs, "fohlazu": fohlazu}


def fail(text, status):
    print(f"fuzz: {text}", file=sys.stderr)
    sys.exit(status)


def built(is_quick, name):
    """The path of a program, which is built where it is not."""
    if name == "fohlazu" and os.environ.get("FOHLAZU"):
        return str(Path(os.environ["FOHLAZU"]).resolve())
    path = f"build/quick/{name}" if is_quick else f"build/{name}"
    if subprocess.run(["make", "-s", path], cwd=TOP, stdin=subprocess.DEVNULL).returncode != 0:
        fail(f"{path} can't be built", 3)
    return str(TOP / path)


def rounds(kinds, seconds, seed):
    """Tries cases, a few of each kind in turn, until the time is over: each with the function that makes its like."""
    sources = {name: random.Random(f"{seed} {name}") for name in kinds}
    until = time.monotonic() + seconds
    for number in count():
        for name, make in kinds.items():
            for case in make(sources[name], None if number else FIRST):
                yield case, make
                if number and time.monotonic() > until:
                    return
        if time.monotonic() > until:
            return


def smallest(make, kind):
    """The smallest case of a kind that goes wrong, from the smallest size upward; none where none is found."""
    for size in SIZES:
        source, until, wrong = random.Random(size), time.monotonic() + SEARCH, []
        while time.monotonic() < until and len(wrong) < 10:
            wrong += [case for case in make(source, size) if case.wrong and case.kind == kind]
        if wrong:
            return min(wrong, key=lambda case: len(case.shown))
    return None


def try_all(kinds, seconds, seed, counts):
    """Tries random cases up to the first that goes wrong; whether there is none."""
    for case, make in rounds(kinds, seconds, seed):
        counts[case.kind] += 1
        if case.wrong:
            found = {"wrong": case, "the smallest": smallest(make, case.kind)}
            for head, one in found.items():
                print("\n  ".join([f"{head}: {one.kind}", one.shown, *one.wrong]) if one else f"{head}: none is found")
            return False
    return True


def main():
    words = sys.argv[1:]
    is_quick = words[:1] == ["quick"]
    words = words[is_quick:]
    if len(words) != 3 or words[0] not in SUBJECTS or not all(map(str.isdecimal, words[1:])):
        fail(USAGE, 2)
    subject, seconds, seed = words
    counts = Counter()
    with tempfile.TemporaryDirectory() as folder:
        fixed, kinds = SUBJECTS[subject](partial(built, is_quick), is_quick, folder)
        resource.setrlimit(resource.RLIMIT_AS, (ROOM, ROOM))
        others, wrong = stored.report(fixed)
        try:
            wrong += not try_all(kinds, int(seconds), seed, counts)
        except AssertionError as fault:
            fail(f"seed {seed}: {fault}", 1)
    for kind, many in sorted(counts.items()):
        print(f"{many:9} {kind}")
    print(f"{subject}, seed {seed}: {counts.total()} random cases and {others.total()} others, {wrong} wrong")
    sys.exit(1 if wrong else 0)


main()
