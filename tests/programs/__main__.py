"""python3 tests/programs [quick]    runs the commands of mmcs.txt and fohlazu.txt by the programs of the gate

Each file has commands of the program that it is named after. Lines after a command say what it reads and how it ends.
In a text `\\n`, `\\r` and `\\t` stand for a line feed, a carriage return and a tab.

    $ COMMAND       a command
    @ NAME TEXT     ahead of commands: a file in the folder where this command and all later ones run
    < TEXT          standard input; without it an open pipe to which nobody writes, so that a command that reads hangs
    <@ PATH         standard input is this file
    > TEXT          standard output
    >@ PATH         standard output is this file
    ! TEXT          standard error
    ~ TEXT          a part of standard error
    = STATUS        the exit status, if it is not 0

The programs are those in crates/*/out, where `rt ci` leaves them, or with `quick` those in build/quick. A wrong outcome
ends with status 1, wrong words with 2, a missing program with 3. The last line counts commands.
"""

import os
import subprocess
import sys
import tempfile
from contextlib import ExitStack
from dataclasses import dataclass, field
from pathlib import Path

TOP = Path(__file__).resolve().parents[2]
ESCAPES = {"\\n": "\n", "\\r": "\r", "\\t": "\t"}
# Seconds that a command may take: those that wait for a pipe never end.
LONGEST = 20


@dataclass
class Command:
    """A command, the files that it needs, and what it reads, prints and ends with."""

    words: list[str]
    files: dict[str, bytes]
    lines: dict[str, str] = field(default_factory=dict)

    def text(self, mark: str) -> bytes:
        return plain(self.lines.get(mark, "")).encode()


def plain(text: str) -> str:
    """A text without escapes."""
    for escape, character in ESCAPES.items():
        text = text.replace(escape, character)
    return text


def commands(path: Path) -> list[Command]:
    """The commands of a file."""
    found, files = [], {}
    for line in path.read_text().splitlines():
        mark, _, text = line.partition(" ")
        if mark == "@":
            name, _, text = text.partition(" ")
            files = {**files, name: plain(text).encode()}
        elif mark == "$":
            found.append(Command(text.split(), files))
        elif mark in ("<", "<@", ">", ">@", "!", "~", "=") and mark not in found[-1].lines:
            found[-1].lines[mark] = text
        elif line and not line.startswith("#"):
            sys.exit(f"programs: {path.name}: {line}: is no line of a command")
    return found


def run(command: Command, program: Path, folder: str) -> tuple[int, bytes, bytes]:
    """Runs a command: its status, and what it prints and says."""
    for name, data in command.files.items():
        Path(folder, name).write_bytes(data)
    with ExitStack() as opened:
        reading, writing = (opened.enter_context(open(end, mode)) for end, mode in zip(os.pipe(), ("rb", "wb")))
        source, output = reading, subprocess.PIPE
        if "<@" in command.lines:
            source = os.open(Path(folder, command.lines["<@"]), os.O_RDONLY)
            opened.callback(os.close, source)
        if ">@" in command.lines:
            output = opened.enter_context(open(command.lines[">@"], "wb"))
        given = {"input": command.text("<")} if "<" in command.lines else {"stdin": source}
        done = subprocess.run([program, *command.words[1:]], cwd=folder, stdout=output, stderr=subprocess.PIPE,
                              timeout=LONGEST, **given)
    return done.returncode, done.stdout or b"", done.stderr


def is_right(command: Command, status: int, printed: bytes, said: bytes) -> bool:
    """Whether a command ended as its lines say."""
    is_said = command.text("~") in said if "~" in command.lines else said == command.text("!")
    return status == int(command.lines.get("=", "0")) and printed == command.text(">") and is_said


def failures(path: Path, program: Path) -> tuple[int, int]:
    """How many commands a file has, and how many of them end otherwise. These are printed."""
    found, wrong = commands(path), 0
    for command in found:
        with tempfile.TemporaryDirectory() as folder:
            try:
                outcome = run(command, program, folder)
            except subprocess.TimeoutExpired:
                outcome = (-1, b"", b"it does not end: it may read what it should not")
        if not is_right(command, *outcome):
            wrong += 1
            print(f"programs: {' '.join(command.words)}: ends with {outcome}, and not with {command.lines}")
    return len(found), wrong


def main() -> int:
    if sys.argv[1:] not in ([], ["quick"]):
        print("usage: python3 tests/programs [quick]", file=sys.stderr)
        return 2
    total, wrong = 0, 0
    for path in sorted(TOP.glob("tests/programs/*.txt")):
        name = path.stem
        program = TOP / "build/quick" / name if sys.argv[1:] else TOP / "crates" / name / "out" / name
        if not program.exists():
            print(f"programs: {program.relative_to(TOP)} is missing", file=sys.stderr)
            return 3
        count, bad = failures(path, program)
        total, wrong = total + count, wrong + bad
        print(f"programs: {name}: {count} commands, {bad} wrong", flush=True)
    print(f"{total - wrong} passed, {wrong} failed")
    return 1 if wrong else 0


if __name__ == "__main__":
    sys.exit(main())
