"""What tests/memory runs with requests refused: the lines of commands.txt, and stored cases."""

import random
import re
from collections import defaultdict
from dataclasses import dataclass
from pathlib import Path

import calls as made

# Three matrices, of four, two and one rows.
ROWS = b"1 2\n3 4\n5 6\n7 8\n\n9\n10\n\n11 12 13\n"
# Five lines, one of them empty and one of two blocks of SHA-256: all, with the last partial, other ones, and in parts;
# seventeen blocks, all and in parts.
LINES = b"one\ntwo\n\n" + 100 * b"x" + b"\nlast\n"
BLOCKS = bytes(range(133))
FILES = {
    "lines": LINES, "partial": LINES[:-1], "others": LINES[:-1].upper(), "none": b"",
    "lines.1": LINES[:8], "lines.2": LINES[8:110], "lines.3": LINES[110:],
    "blocks": BLOCKS, "blocks.1": BLOCKS[:64], "blocks.2": BLOCKS[64:128], "blocks.3": BLOCKS[128:],
}
# The kinds of cases that build nothing: they check openings, heights and indices, and extract collisions.
CHECKS = re.compile(r"(salted_)?(verify|extract)(_pruned)?|restore|pruned_len|replay|schedule|authenticated")

# Matrices of cases that the gate takes, or the roots and dimensions of these.
NAMED = re.compile(r"\| 2 \| 0 \| (1, 2; 5|31843 \| 1x2 1x1|1 31, 3 4|32772 \| 2x2) \|"
                   r"|\| 2 \| 0 \| (1, 2, 3, 4, 5, 6, 7, 8|1056801 \| 1x8) \||\| 4 \| 0 \| (1, 2|986051 \| 1x2) \|"
                   r"|\| [24] \| 0 \| 2x17 2x9 2x5 2x3 \|")


@dataclass(frozen=True)
class Trial:
    """A run of a program: its arguments, its input, its status, and the file that keeps what it prints, if any. For a
    call also its answers: that with ample memory, then those that it may give after it ran out of memory."""

    program: str
    kind: str
    words: tuple[str, ...] = ()
    data: bytes = b""
    status: int = 0
    kept: str = ""
    answers: tuple[str, ...] = ()


def commands() -> list[Trial]:
    trials = []
    for line in (Path(__file__).parent / "commands.txt").read_text().splitlines():
        if not line.startswith("#"):
            command, _, kept = line.partition(" > ")
            command, _, question = command.partition(" << ")
            status, program, *words = command.split()
            kind = {"mmcs": words[3:4], "fohlazu": words[:1]}.get(program, [])
            data = question.encode() + b"\n" if question else ROWS
            trials.append(Trial(program, "".join(kind), tuple(words), data, int(status), kept))
    return trials


def calls(crate: Path, program: str) -> list[Trial]:
    """The lines of a crate's stored run, whose answers stand after them in its output, and more by each builder."""
    lines, printed = ((crate / name).read_text().splitlines() for name in ("stdin", "stdout"))
    if printed[::2] != lines:
        raise ValueError(f"{crate.name}/stdout does not have each line of stdin and its answer")
    answers = dict(zip(lines, printed[1::2]))
    return [Trial(program, made.kind(line), (), line.encode() + b"\n",
                  answers=(answers.get(line) or made.answer(line), *made.answers_again(line)))
            for line in [*lines, *made.of_builders()]]


def stored(cases: Path, program: str) -> list[Trial]:
    """The stored cases, but for those of heights and of mmcs, which may be answered by `out of memory`."""
    lines = [line for line in cases.read_text().splitlines() if line and not line.startswith("#")]
    trials = [Trial(program, line.split(" ")[0], (), line.encode() + b"\n") for line in lines]
    return [trial for trial in trials if not trial.kind.startswith(("heights", "mmcs"))]


def named(trials: list[Trial]) -> list[Trial]:
    """The cases over the matrices whose worked answers test_memory has, and over its four heights."""
    return [trial for trial in trials if NAMED.search(trial.data.decode())]


def shape(trial: Trial) -> tuple[str, ...]:
    """The keyword of a case, its arity, the rule of its cap, and the first words of its answer."""
    fields = [field.strip() for field in trial.data.decode().split("|")]
    arity = fields[1] if fields[1] in ("2", "4", "8", "16") else ""
    rule = re.fullmatch(r"\d+([lf])", fields[2])
    answer = re.match(r"[a-z]+( \w+)?", fields[-1])
    return trial.kind, arity, rule[1] if rule else "", answer[0] if answer else ""


def choices(trials: list[Trial], seed: int) -> list[list[Trial]]:
    """The cases of each shape, in random order."""
    shapes = defaultdict(list)
    for trial in trials:
        shapes[shape(trial)].append(trial)
    generator = random.Random(seed)
    return [generator.sample(cases, len(cases)) for cases in shapes.values()]


def items(trial: Trial) -> int:
    """How many numbers and rows a case has, with those that are written once for many."""
    total = 0
    for part in re.split(r"[|/]", trial.data.decode()):
        part, _, sets = part.partition(" sets ")
        count = 0
        for row in part.split(";"):
            row, _, times = row.partition(" times ")
            words = [re.fullmatch(r"(?:.*\*|(\d+)\.\.)(\d+)", word) for word in row.split()]
            numbers = sum(int(word[2]) - int(word[1] or 0) if word else 1 for word in words)
            count += max(numbers, 1) * int(times or 1)
        total += count * int(sets or 1)
    return total
