"""python3 tests/mutated.py [quick] [COUNT SEED]    mutated texts, read within 64 MiB of memory; 10000 1 without numbers

COUNT times a checkpoint, a part, a consistency proof or a proof of entries, of random files, is mutated in up to three
ways: a byte or a line is dropped, changed, put in, moved or repeated, a number becomes another one, the text is cut or
joined to another one, or it is made as long as it may be, or longer. `fohlazu` has the model's answer each time.

So do the scripts of share/, for a 50th of COUNT: a log's proof is mutated, and half of these are signed again. What the
model accepts, and the log signed, is stored by fohlazu-follow, and nothing else; each refusal is one line. What
fohlazu-sign signs, fohlazu-open opens, and fohlazu reads if it is a checkpoint.
"""

import os
import re
import resource
import subprocess
import sys
import tempfile
from collections import Counter
from functools import partial
from pathlib import Path
from random import Random

sys.path.insert(0, str(Path(__file__).resolve().parents[1] / "tools"))
from script import TOP, arguments, built, check, run_script  # first: it makes those below known

import fohlazu_commands
import log_texts
import logs
import random_files
from keys import Key
from running import Program

ROOM = 64 << 20
# Of the program's texts and the scripts' ones.
OF_SCRIPTS = 50
LONGEST = 2 * log_texts.MOST_BYTES
# One in so many mutants is made long.
LONG = 20
NUMBERS = ["0", "1", "2", "00", "01", "-1", "+1", "1e9", "63", "64", "100", "101", "65537", "100000000", "100000001",
           *(str((1 << power) + more) for power in (31, 32, 62, 63, 64) for more in (-1, 0, 1)), "9" * 40, "9" * 5000]
BYTES = [b"\n", b"\r", b" ", b"\t", b"\0", b"\x7f", b"=", b"+", b"/", b"A", b"0", b"\xc2\x9b", b"\xe2\x80\xae", b"\xff",
         b"\xef\xbb\xbf", b"\xed\xa0\x80", b"\xf4\x90\x80\x80", b"\xe2\x80\x94 ", b"\n\n"]
MORE_LINES = [b"extension\n", b" \n", "\u009b\u202e \u3000\n".encode(), b"old 9\n", b"x" * 9999 + b"\n"]
LIMITS = [log_texts.MOST_BYTES, log_texts.MOST_CONSISTENCY_BYTES, LONGEST]


# ---- Mutants


def of_bytes(source, text, others):
    """A byte is dropped or changed, or something is put in."""
    at, piece = source.randrange(len(text) + 1), source.choice([*BYTES, source.randbytes(1)])
    kind = source.randrange(3)
    return text[:at] + (b"" if kind == 0 else piece) + text[at + (kind < 2):]


def of_lines(source, text, others):
    """A line is dropped, repeated, moved, or taken from another text."""
    lines = text.splitlines(True) or [b"\n"]
    at, to = (source.randrange(len(lines)) for _ in range(2))
    kind = source.randrange(4)
    line = source.choice(source.choice(others).splitlines(True) or [b"\n"]) if kind == 3 else lines[at]
    if kind in (0, 2):
        del lines[at]
    if kind:
        lines[to:to] = [line] * source.choice([1, 1, 1, 2, 64, 101])
    return b"".join(lines)


def of_numbers(source, text, others):
    """A number becomes another one."""
    found = [*re.finditer(rb"\b[0-9]+\b", text)]
    if not found:
        return of_bytes(source, text, others)
    at = source.choice(found)
    return text[:at.start()] + source.choice(NUMBERS).encode() + text[at.end():]


def of_texts(source, text, others):
    """A text is cut, or joined to another one."""
    at, other = source.randrange(len(text) + 1), source.choice([text, *others])
    return source.choice([text[:at], text[at:], text + other, text + b"\n" + other, other + text, text[:at] + other])


def of_length(source, text, others):
    """A text has as many bytes as it may have, or others: of a letter, of lines, or of its own lines."""
    length = source.choice(LIMITS) + source.choice([-1, 0, 0, 1, 1, 2, 9])
    lines = text.splitlines(True) or [b"\n"]
    at = source.randrange(len(lines) + 1)
    piece = source.choice([b"x", b"x\n", b"\n", b"\xe2\x80\x94 w MTIzNDU2Nzg5\n", *lines])
    more = max(0, length - len(text))
    filler = (piece * (more // len(piece) + 1))[:more]
    if source.randrange(2) and filler:
        filler = filler[:-1] + b"\n"
    return b"".join([*lines[:at], filler, *lines[at:]])


def mutant(source, text, others):
    """A text that is mutated once or a few times, and now and then made long."""
    for _ in range(source.choice([1, 1, 1, 2, 3])):
        text = source.choice([of_bytes, of_lines, of_numbers, of_texts])(source, text, others)
    if source.randrange(LONG) == 0:
        text = of_length(source, text, others)
    return text


# ---- The program


def wholes(source):
    """Whole exchanges of each command that reads texts, without end: the words, the texts and the files."""
    while True:
        for command in "prove", "verify", "join", "prove-consistency", "verify-consistency":
            size = source.choice([1, 3, 9, 33])
            yield next(case for case in random_files.CASES[command](source, size, 1) if case.kind.endswith("whole"))


def try_program(program, source, count):
    counts = Counter()
    for case, _ in zip(wholes(source), range(count)):
        texts = {name: text for name, text in case.contents.items() if name != "log"}
        name = source.choice(sorted(texts))
        text = mutant(source, texts[name], [*texts.values()])
        case = case._replace(kind=f"{case.words[0]}, mutated", contents={**case.contents, name: text})
        answer = case.answer()
        wrong = case.wrongs(program, answer)
        check(not wrong, case.words, f"{name}: {len(text)} bytes, {text[:2000]!r}", *wrong)
        kind = "above its limit" if answer.refused and "more than" in answer.refused.line else answer.counted()
        counts[kind] += 1
        counts["longest"] = max(counts["longest"], len(text))
    return counts


# ---- The scripts


class Follower:
    """A log that grew, a customer who has its first checkpoint, and runs of scripts with little memory."""

    def __init__(self, folder, program, source):
        self.folder, self.source = folder, source
        self.program = Program(program, folder, ROOM)
        self.environment = {**os.environ, "FOHLAZU": str(program)}
        self.key = Key(folder / "key", "ledger.example", source.randbytes(32))
        log = logs.Log([b"%d" % number for number in range(40)])
        self.old, new = (log_texts.checkpoint_text(b"ledger.example", size, log.root(0, size)) for size in (9, 40))
        self.head = log_texts.consistency_text(9, log.consistency(9, 40), b"")
        self.new = self.signed(new)
        self.kept = folder / "kept"
        self.kept.mkdir()

    def signed(self, text):
        return text + b"\n" + self.key.line(text)

    def run(self, name, *words, data):
        limit = partial(resource.setrlimit, resource.RLIMIT_AS, (ROOM, ROOM))
        words = [sys.executable, "-S", TOP / "share" / name, *words]
        ran = subprocess.run(words, input=data, capture_output=True, env=self.environment, preexec_fn=limit)
        lines = ran.stderr.splitlines()
        check(ran.returncode in (0, 1, 2) and len(lines) == bool(ran.returncode), name, data[:2000], ran)
        check(all(line.startswith(f"{name}: ".encode()) for line in lines), name, data[:2000], ran)
        return ran

    def try_one(self):
        """The proof or its checkpoint is mutated, and perhaps signed again."""
        text, _, _ = self.new.partition(b"\n\n")
        is_signed_again = self.source.randrange(2) == 1
        if is_signed_again:
            others = [self.old, self.head]
            more = b"".join(self.source.choice(MORE_LINES) for _ in range(self.source.randrange(4)))
            text = text + b"\n" + more if self.source.randrange(2) == 0 else mutant(self.source, text + b"\n", others)
            note = self.signed(text)
            proof = self.head + note
            self.sign(text)
        else:
            proof = mutant(self.source, self.head + self.new, [self.old, self.head, self.new])
            note = proof.partition(b"\n\n")[2]
        stored = self.signed(self.old)
        (self.kept / "checkpoint").write_bytes(stored)
        answer = fohlazu_commands.answer(["verify-consistency", "old", "proof"], {"old": stored, "proof": proof}.get)
        # The model knows no signatures. A text that is not signed again has none, or its own.
        is_true = answer.status == 0 and (is_signed_again or note == self.new)
        opened = self.run("fohlazu-open", self.key.vkey, data=note)
        followed = self.run("fohlazu-follow", self.kept, self.key.vkey, "-", data=proof)
        kept = (self.kept / "checkpoint").read_bytes()
        check(opened.returncode == 0 or not is_true, "is not opened", note[:2000], opened)
        check(followed.returncode == 0 or not is_true, "is not followed", proof[:2000], followed)
        check(kept == stored or kept == answer.printed and opened.returncode == 0, "is kept", kept[:2000])
        return "followed" if kept != stored else "not followed"


    def sign(self, text):
        """What fohlazu-sign signs is opened, and read by fohlazu if the model takes it for a checkpoint."""
        ran = self.run("fohlazu-sign", self.key.path, data=text)
        if ran.returncode:
            return
        name = text.partition(b"\n")[0].decode()
        vkey = self.run("fohlazu-sign", "-p", self.key.path, name, data=b"").stdout.decode().strip()
        opened = self.run("fohlazu-open", vkey, data=ran.stdout)
        check(opened.returncode == 0, "is signed, and not opened", text[:2000], opened)
        try:
            _, size, _ = log_texts.checkpoint(text)
        except log_texts.Wrong:
            return
        proof = log_texts.consistency_text(size, [], ran.stdout)
        read = self.program.run(["verify-consistency", "note", "proof"], {"note": ran.stdout, "proof": proof})
        check(read.status == 0 and read.printed == ran.stdout, "is signed, and not read", text[:2000], read)


def try_scripts(folder, program, source, count):
    follower = Follower(folder, program, source)
    return Counter(follower.try_one() for _ in range(count))


def main():
    is_quick, numbers = arguments(lambda numbers: len(numbers) in (0, 2))
    count, seed = numbers or (10_000, 1)
    path = built(is_quick)
    with tempfile.TemporaryDirectory() as folder:
        (Path(folder) / "scripts").mkdir()
        counts = try_program(Program(path, folder, ROOM), Random(seed), count)
        print("mutated: by fohlazu:", ", ".join(f"{many} {name}" for name, many in sorted(counts.items())), flush=True)
        counts = try_scripts(Path(folder) / "scripts", path, Random(seed), count // OF_SCRIPTS)
        print("mutated: by scripts:", ", ".join(f"{many} {name}" for name, many in sorted(counts.items())))


run_script(main)
