"""Go's golang.org/x/mod/sumdb, by sumdb.go, and signed notes of Go's, whole and damaged."""

import os
import subprocess
from base64 import b64decode, b64encode
from itertools import count
from pathlib import Path

import golang
import log_texts
from keys import Key

SOURCE = Path(__file__).resolve().parent / "sumdb.go"
# Letters of names and of lines, with those that a shell or a regular expression could take for something else.
NAME = "abcdefghijklmnopqrstuvwxyz0123456789.-_/\\*?[]$`'\"(){}<>|&;~#%^=@!:,é—\u3001\U0001f600\ufffd\x7f"
LINE = NAME + "    ++\u00a0\u3000"
# What a note is damaged by: bytes of UTF-8 and others, spaces of Unicode, and what base64 and lines are made of.
TEXTS = ["", "\n", "\n\n", " ", "\t", "\r", "\0", "\x7f", "+", "=", "A", "B", "— ", "é", "\u0085", "\u00a0", "\u1680",
         "\u2007", "\u2028", "\u202f", "\u205f", "\u3000", "\ufffd"]
PIECES = [*map(str.encode, TEXTS), b"\xff", b"\xc0\x80", b"\xed\xa0\x80", b"\xf4\x90\x80\x80", b"\xe2\x80"]


def build(folder):
    """Builds the program in Go."""
    environment = {**os.environ, **golang.ENVIRONMENT, "GOCACHE": f"{folder}/cache"}
    subprocess.run(["go", "build", "-o", folder / "sumdb", SOURCE], cwd=folder, env=environment, check=True)
    return folder / "sumdb"


class Sumdb:
    """A process of the program in Go."""

    def __init__(self, program):
        self._process = subprocess.Popen([program], stdin=subprocess.PIPE, stdout=subprocess.PIPE)

    def ask(self, *words):
        """The answer to a question, or None where Go refuses. A proof is a list."""
        words = [b"".join(word) if isinstance(word, list) else word for word in words]
        words = [word if isinstance(word, bytes) else str(word).encode() for word in words]
        self._process.stdin.write(b" ".join(map(b64encode, words)) + b"\n")
        self._process.stdin.flush()
        answer = self._process.stdout.readline()
        if not answer:
            raise ValueError(f"Go answers nothing to {words}")
        return None if answer == b"-\n" else b64decode(answer)


class Notes:
    """Random keys and notes. A key's file is in a folder."""

    def __init__(self, rng, go, folder):
        self.rng = rng
        self.go = go
        self._folder = folder
        self._numbers = count()

    def letters(self, among=NAME):
        return "".join(self.rng.choices(among, k=self.rng.randint(1, 40)))

    def key(self, name=None):
        seed = self.rng.randbytes(32)
        path = self._folder / f"key {next(self._numbers)}"
        return Key(path, name or self.letters(), seed, public=self.go.ask("public", seed))

    def text(self, name):
        """A checkpoint of a name, perhaps with extension lines."""
        text = log_texts.checkpoint_text(name.encode(), self.rng.randrange(1 << 63), self.rng.randbytes(32))
        return text + "".join(self.letters(LINE) + "\n" for _ in range(self.rng.randrange(4))).encode()

    def note(self, most):
        """The verifier key of one of up to so many keys, and a note that they sign."""
        keys = [self.key() for _ in range(self.rng.randint(1, most))]
        text = self.text(self.rng.choice([keys[0].name, self.letters()]))
        if self.rng.randrange(4) == 0:
            text = b"\n" + text + b"\n\n" + self.letters(LINE).encode() + b"\n"
        return self.rng.choice(keys).vkey.encode(), self.go.ask("sign", text, *(key.skey for key in keys))

    def changed(self, text, at):
        """A text with another byte at a place, and no NUL, which no argument has."""
        byte = self.rng.choice([byte for byte in range(1, 256) if byte != text[at]])
        return text[:at] + bytes([byte]) + text[at + 1:]

    def damaged(self, vkey, note):
        """A note with a piece put in or in place of a byte, or with a line dropped, repeated or moved, a signature of
        another length, or about as many as are allowed."""
        at, kind = self.rng.randrange(len(note)), self.rng.randrange(7)
        lines = note.splitlines(True)
        line, other = (self.rng.randrange(len(lines)) for _ in range(2))
        if kind == 0:
            lines.pop(line)
        elif kind == 1:
            lines.insert(other, lines[line])
        elif kind == 2:
            lines[line], lines[other] = lines[other], lines[line]
        elif kind == 3:
            name, key_id, _ = vkey.split(b"+", 2)
            raw = bytes.fromhex(key_id.decode()) + bytes(self.rng.randrange(66))
            lines.insert(-1, b"\xe2\x80\x94 %s %s\n" % (name, b64encode(raw)))
        elif kind == 4:
            lines.append(lines[-1] * self.rng.randint(97, 100))
        else:
            return note[:at] + self.rng.choice(PIECES) + note[at + self.rng.randrange(2):]
        return b"".join(lines)

    def cases(self, many, bytewise, changes):
        """Notes with verifier keys, each with what was done to it: so many whole, then with another key; so many with
        each byte changed, of the note and of the key; and so many damaged."""
        notes = [self.note(4) for _ in range(many)]
        for vkey, note in notes:
            yield "whole", vkey, note
            yield "another key", self.key(vkey.split(b"+")[0].decode()).vkey.encode(), note
            yield "another note", vkey, self.rng.choice(notes)[1]
        for vkey, note in (self.note(1) for _ in range(bytewise)):
            yield from (("a byte changed", vkey, self.changed(note, at)) for at in range(len(note)))
            yield from (("a byte of the key changed", self.changed(vkey, at), note) for at in range(len(vkey)))
        for _ in range(changes):
            vkey, note = self.rng.choice(notes)
            yield "damaged", vkey, self.damaged(vkey, note)
