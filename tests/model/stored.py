#!/usr/bin/env python3
"""tests/model/stored.py: answers the stored cases of the test programs by the model. It names each line that says
otherwise, with the model's answer."""

import re
import subprocess
import sys
from collections import Counter
from pathlib import Path

sys.dont_write_bytecode = True
import cases  # noqa: E402
import log_answers  # noqa: E402
import mmcs  # noqa: E402
import replayed  # noqa: E402
import salts  # noqa: E402

CRATES = Path(__file__).resolve().parent.parent.parent / "crates"
# Cases that take the model seconds, of a minute that all take.
SLOW = re.compile("100000")
# Seconds that a program may take for some lines.
LONGEST = 300


def of_library(line):
    """What a case is answered, and what the model answers: the same, where one of its answers is."""
    if line.startswith("mmcs"):
        return mmcs.case_of(line)
    found, expected = cases.answers(line)
    return expected, next((answer for answer in found if answer != expected), expected)


def of_rust(line):
    """The last field is what is answered here."""
    case, *answers = line.split(" | ")
    return answers[-1], replayed.answer(case)


def of_logs(line):
    """The same of a case about logs."""
    question, _, expected = line.partition(" |")
    return expected.strip(), log_answers.answer(question)


# What answers the cases of each crate.
ANSWERS = {"test_merkle": of_library, "test_rust": of_rust, "test_log": of_logs}


def lines_of(crate):
    """The stored lines of a crate."""
    folder = CRATES / crate
    if crate == "test_rust":
        return [line for path in sorted((folder / "data").iterdir()) for line in path.read_text().split("\n")]
    return (folder / "stdin").read_text().split("\n")


def tests(crate, is_quick):
    """Each case of a crate with its faults; the quick ones, or all."""
    for number, line in enumerate(lines_of(crate), 1):
        if line.strip() and not line.startswith("#") and not (is_quick and SLOW.search(line)):
            expected, answer = ANSWERS[crate](line)
            kind = re.match("[a-z_0-9]+", line)[0] if crate in ("test_merkle", "test_log") else "a case"
            yield f"{crate}: {kind}", [] if answer == expected else [f"line {number}: {line[:400]}",
                                                                     f"the model answers: {answer[:400]}"]
    if crate == "test_merkle":
        yield "the block of ChaCha20 in RFC 8439", [] if salts.has_block() else ["the model has another"]


def wrong_answers(path, lines):
    """What a test program answers otherwise, by the places of its lines; if it stops, the first at which it does."""
    try:
        ran = subprocess.run([path], input="\n".join([*lines, ""]), capture_output=True, text=True, timeout=LONGEST)
        said = f"status {ran.returncode}: {ran.stdout[-300:]} {ran.stderr[-300:]}"
        printed = ran.stdout.split("\n")
    except subprocess.TimeoutExpired:
        said, printed = f"no answer in {LONGEST} seconds", []
    found = {int(line.split(":")[0][5:]) - 1: [after] for line, after in zip(printed, printed[1:])
             if re.match("line [0-9]+:", line)}
    if f"{len(lines)} cases, {len(found)} wrong" in printed:
        return found
    if len(lines) == 1:
        return {0: [said]}
    half = len(lines) // 2
    first = wrong_answers(path, lines[:half])
    return first or {half + place: faults for place, faults in wrong_answers(path, lines[half:]).items()}


def report(tests):
    """Prints what goes wrong. How many tests there are of each name, and how many go wrong."""
    kinds, wrong = Counter(), 0
    for name, faults in tests:
        faults = list(faults)
        kinds[name] += 1
        if faults:
            wrong += 1
            print("\n  ".join([name, *faults]))
    return kinds, wrong


def main():
    kinds, wrong = report(test for crate in ANSWERS for test in tests(crate, False))
    print(", ".join(f"{kind} {number}" for kind, number in sorted(kinds.items())))
    print(f"{kinds.total()} cases, {wrong} wrong")
    sys.exit(1 if wrong else 0)


if __name__ == "__main__":
    main()
