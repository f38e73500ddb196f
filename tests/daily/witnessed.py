"""Runs of fohlazu-daily with two witnesses, which are killed ahead of each step, or fail there: one witness is that of
tests/follow/witness.py, the other one of another hand, which keeps what it cosigned. Witnesses may be out of reach in
the killed run, and the log may grow ahead of the next one.

After each kill what is published is signed and of the log. After the next run each published checkpoint has both
cosignatures, its proof has them too, and no witness knows another count than the last one's."""

import contextlib
import os
import random
import subprocess
import sys
from base64 import b64decode
from collections import Counter

from script import TOP, Wrong, check

import log_texts
import logs
from keys import is_signature
from served import Another, Served
from witness import Witness

ORIGIN = "ledger.example"
LEAST_STEPS = 30


class Witnessed:
    """An operator with two witnesses."""

    def __init__(self, folder, program, seed):
        self.folder = folder
        self.random = random.Random(f"witnessed {seed}")
        self.log, self.dir, self.key, self.count = (folder / name for name in ("log", "dir", "key", "steps"))
        self.environment = {**os.environ, "FOHLAZU": program, "DISK": str(folder), "COUNT": str(self.count),
                            "DAY": "2026-03-01", "NO_PROXY": "*"}
        subprocess.run(["openssl", "genpkey", "-algorithm", "ed25519", "-out", self.key], check=True)
        words = [sys.executable, "-S", TOP / "share/fohlazu-sign", "-p", self.key, ORIGIN]
        self.vkey = subprocess.run(words, capture_output=True, text=True, check=True).stdout.strip()
        (folder / "first").mkdir()
        seed = self.random.randbytes(32)
        self.witnesses = [Served(Witness(folder / "first", "witness.example", seed, {ORIGIN: self.vkey})),
                          Another(folder / "second", self.vkey)]
        self.lines, self.counts = [], Counter()

    def grow(self):
        self.lines += [b"%d" % self.random.randrange(10**6) for _ in range(self.random.randint(1, 5))]
        self.log.write_bytes(b"".join(line + b"\n" for line in self.lines))

    def run(self, at=0, how=""):
        """A run, which may be stopped at a step. The number of steps, or none if it is killed."""
        words = [word for witness in self.witnesses for word in ("-w", f"http://127.0.0.1:{witness.port}")]
        words = [self.log, self.dir, "-k", self.key, "--origin", ORIGIN, *words]
        self.count.unlink(missing_ok=True)
        ran = subprocess.run([sys.executable, "-SB", TOP / "tests/daily/steps.py", TOP / "share/fohlazu-daily", *words],
                             stdin=subprocess.DEVNULL, capture_output=True, start_new_session=True,
                             env={**self.environment, "AT": str(at), "HOW": how})
        return ran, int(self.count.read_text()) if self.count.exists() else None

    # ---- What is published

    def signed_by(self, note, vkey):
        """How many signatures by this key, of a log or a witness, a note has that are true."""
        text, _, lines = note.partition(b"\n\n")
        name, key_id, key = vkey.encode().split(b"+", 2)
        true = 0
        for words in (line.split(b" ") for line in lines.splitlines()):
            raw = b64decode(words[2])
            if (words[1], raw[:4].hex().encode()) == (name, key_id):
                message = text + b"\n"
                if len(raw) == 76:
                    message = b"cosignature/v1\ntime %d\n" % int.from_bytes(raw[4:12], "big") + message
                true += is_signature(self.folder, b64decode(key)[1:], message, raw[-64:])
        return true

    def look(self, cosigned):
        """Each stored checkpoint is signed and of the log; after a good run it and its proof are cosigned."""
        stored = sorted(self.dir.glob("*-*-*-*.checkpoint"))
        for path in stored:
            note = path.read_bytes()
            size = int(path.stem[-12:])
            root = logs.Log(self.lines[:size]).root(0, size)
            check(note.startswith(log_texts.checkpoint_text(ORIGIN.encode(), size, root) + b"\n"), path, note)
            check(self.signed_by(note, self.vkey) == 1, path, "is not signed once", note)
            if cosigned and path in stored[-3:]:
                found = [self.signed_by(note, witness.vkey) for witness in self.witnesses]
                check(found == [1, 1], path, "has not both cosignatures", note)
                check(path.with_suffix(".growth").read_bytes().endswith(b"\n\n" + note), path, "differs from its proof")
        return stored

    def go_on(self, *after):
        """A run that goes well."""
        ran, _ = self.run()
        last = b"%d entries, signed, " % len(self.lines)
        is_new = last in ran.stdout or b"no new lines after the %d " % len(self.lines) in ran.stdout
        said = ran.stdout.splitlines()
        check(ran.returncode == 0 and is_new and said[-1].endswith(b", cosigned by 2 of 2"), *after, ran)
        stored = self.look(True)
        check(stored[-1].read_bytes() == (self.dir / "checkpoint").read_bytes(), *after, "the link")
        left = [path.name for path in self.dir.iterdir() if path.name.startswith(".")]
        check(not left, *after, "left", left)
        first = self.witnesses[0].witness.last[ORIGIN.encode()][0]
        [second] = (self.folder / "second").glob("log ????????")
        known = first, int(second.read_bytes().split()[0])
        check(known == (len(self.lines),) * 2, *after, "the witnesses know", known, "of", len(self.lines))

    def stop(self, at, how):
        """A run that is stopped at a step, if it comes to so many, perhaps without one of the witnesses; and the next."""
        self.grow()
        away = self.random.choice([None, None, *self.witnesses])
        if away:
            away.stop()
        ran, steps = self.run(at, how)
        if away:
            away.start()
        is_stopped = steps is None or steps >= at
        # A step that fails may be one whose failure does not matter.
        check(not is_stopped or ran.returncode in ([-9] if how == "kill" else [0, 2]), at, how, ran)
        self.look(False)
        self.counts[f"{how}ed runs with witnesses"] += is_stopped
        if self.random.randrange(3) == 0:
            self.grow()
        self.go_on(at, how, "without one" if away else "with both")
        return is_stopped

    def play(self, every):
        """Each step of a run, or some: killed, and for a third of them failing."""
        self.grow()
        self.go_on("the first run")
        at = self.random.randrange(every) + 1
        while self.stop(at, "kill"):
            if at % 3 == 0:
                self.stop(at, "fail")
            at += every
        check(at > LEAST_STEPS, "a run has only", at, "steps")
        self.counts["checkpoints with two cosignatures"] = len(self.look(True))
        return self.counts


def witnessed(folder, program, seed, every):
    """What was counted in a play."""
    folder.mkdir()
    operator = None
    try:
        operator = Witnessed(folder, program, seed)
        return operator.play(every)
    except Wrong as wrong:
        raise Wrong(f"runs with witnesses, seed {seed}: {wrong}") from wrong
    finally:
        for witness in operator.witnesses if operator else []:
            with contextlib.suppress(Exception):
                witness.stop()
