"""Machines that roll back. An operator publishes a log by fohlazu-daily; then copies of the log, the folder and the
record beside the key are put back, in some order, with a run between them or none, and other lines are appended. A
second folder with the same key is such a machine. Two customers follow what is published.

A run signs only if the log begins with the lines of all that the machine can know: what is in the folder and in the
record; with -u what is published; with -w what a witness cosigned. Else it has status 1 and signs nothing. So no two
signed checkpoints contradict each other, unless the record was put back too and nobody else was asked."""

import os
import random
import shutil
import subprocess
import sys
from collections import Counter
from itertools import permutations

from script import TOP, Wrong, check

import log_texts
import logs
from witness import Witness

ORIGIN = "ledger.example"
DAYS = 4
ORDERS = [order for count in (1, 2, 3) for order in permutations(["log", "folder", "record"], count)]


def text_of(lines) -> bytes:
    return log_texts.checkpoint_text(ORIGIN.encode(), len(lines), logs.Log(lines).root(0, len(lines)))


class Rollback:
    """A machine, what it signed, by texts, with the lines that its log then had, and what is published."""

    def __init__(self, folder, program: str, seed: int):
        self.folder = folder
        self.random = random.Random(f"rollback {seed}")
        self.order = ORDERS[seed % len(ORDERS)]
        self.asks = ("nobody", "url", "witness")[(seed // len(ORDERS) + seed) % 3]
        self.has_second_folder = seed % 7 == 3
        self.log, self.dir, self.key, self.site = (folder / name for name in ("log", "dir", "key", "site"))
        self.signed, self.answered = folder / "signed", {}
        self.lines, self.histories, self.counts = [], {}, Counter()
        shims = folder / "shims"
        shims.mkdir()
        shutil.copy(TOP / "tests/daily/openssl.sh", shims / "openssl")
        (shims / "openssl").chmod(0o755)
        self.environment = {**os.environ, "PATH": f"{shims}:{os.environ['PATH']}", "SIGNED": str(self.signed),
                            "FOHLAZU": program}
        subprocess.run(["openssl", "genpkey", "-algorithm", "ed25519", "-out", self.key], check=True)
        self.vkey = self.script("fohlazu-sign", "-p", self.key, ORIGIN).stdout.decode().strip()
        self.record = folder / f"key.{self.vkey.split('+')[1]}.signed"
        self.customers = [folder / name for name in ("each day", "some days")]
        for customer in self.customers:
            customer.mkdir()
        self.held = []

    def script(self, name: str, *words) -> subprocess.CompletedProcess:
        words = [sys.executable, "-S", TOP / "share" / name, *words]
        return subprocess.run(words, stdin=subprocess.DEVNULL, capture_output=True, env=self.environment)

    # ---- The machine

    def grow(self) -> None:
        self.lines = [*self.lines, *[self.random.randbytes(6).hex().encode() for _ in range(self.random.randint(1, 5))]]
        self.log.write_bytes(b"".join(line + b"\n" for line in self.lines))

    def texts(self, directory) -> set:
        """The texts of all that the machine can know to be signed, but for what a witness cosigned."""
        notes = [path.read_bytes() for path in directory.glob("*.checkpoint")] if directory.exists() else []
        if self.record.exists():
            notes.append(self.record.read_bytes())
        if self.asks in ("url", "both") and (self.site / "checkpoint").exists():
            notes.append((self.site / "checkpoint").read_bytes())
        return {note.partition(b"\n\n")[0] + b"\n" for note in notes}

    def is_extended(self, texts) -> bool:
        """Whether the log begins with the lines of these checkpoints."""
        counts = [int(text.split(b"\n")[1]) for text in texts]
        return all(count <= len(self.lines) and text == text_of(self.lines[:count])
                   for text, count in zip(texts, counts))

    def signed_texts(self) -> list:
        """What is signed, but for the checkpoint of no entries, which is of each log."""
        found = self.signed.read_bytes().split(b"\n\n") if self.signed.exists() else []
        return [text + b"\n" for text in found if text and text.split(b"\n")[1] != b"0"]

    def run(self, directory=None) -> int:
        """A run, whose status has to be the right one."""
        directory = directory or self.dir
        words = [] if (directory / "checkpoint").exists() else ["--origin", ORIGIN]
        if self.asks in ("url", "both"):
            words += ["-u", self.site.as_uri()]
        if self.asks in ("witness", "both"):
            words += ["-w", self.url]
        known = self.texts(directory)
        counts = [int(text.split(b"\n")[1]) for text in known]
        cosigned = 0, b""
        if self.asks in ("witness", "both"):
            cosigned = self.witness.last.get(ORIGIN.encode(), cosigned)
        witnessed = {log_texts.checkpoint_text(ORIGIN.encode(), *cosigned)} if cosigned[0] else set()
        is_good = self.is_extended(known | witnessed) and cosigned[0] <= max([0, *counts])
        before = self.signed_texts()
        ran = self.script("fohlazu-daily", self.log, directory, "-k", self.key, *words)
        check(ran.returncode == (0 if is_good else 1), self.order, self.asks, "not the right status", ran, known)
        if ran.returncode:
            self.check_said(ran.stderr.decode(), max([0, *counts]), cosigned[0])
        new = self.signed_texts()[len(before):]
        check(is_good or not new, self.order, self.asks, "signs", new)
        for text in new:
            check(self.is_extended([text]), text, "is not of the log")
            self.histories.setdefault(text, self.lines)
        self.counts["runs" if is_good else "refused"] += 1
        return ran.returncode

    def check_said(self, said, known, cosigned) -> None:
        """A refusal is a line that names what the log contradicts, and says what may have happened and what to do."""
        sources = [f"of {self.record}, which", "/checkpoint, so", f"of {self.site.as_uri()}/checkpoint, which"]
        if self.asks in ("witness", "both"):
            sources.append(f"{self.url} knows " + ("other lines than" if cosigned <= known else f"{cosigned} entries"))
        check(said.count("\n") == 1 and any(source in said for source in sources), self.order, self.asks, said)
        check("nothing is signed: " in said and "put " in said and " old lines back" in said, said)
        is_of_folder = "/checkpoint, so" in said
        check(is_of_folder or "restored or rewritten, or another folder has this KEY" in said, said)
        self.counts["refusals that say what to do"] += 1

    # ---- What is published, and the customers

    def publish(self) -> None:
        """Copies the folder to where customers read it. Newer files there stay."""
        self.site.mkdir(exist_ok=True)
        for path in self.dir.iterdir():
            copied = self.site / path.name
            copied.unlink(missing_ok=True)
            shutil.copy(path, copied, follow_symlinks=False)

    def follow(self, customer) -> None:
        """A customer takes the proofs from their own count on, as docs/USES.md says."""
        while True:
            path = customer / "checkpoint"
            count = int(path.read_bytes().split(b"\n")[1]) if path.exists() else 0
            growth = self.site / f"from-{count}.growth"
            if not growth.exists():
                return
            ran = self.script("fohlazu-follow", customer, self.vkey, growth)
            if ran.returncode:
                self.counts["proofs refused by customers"] += 1
                return
            self.held.append(path.read_bytes().partition(b"\n\n")[0] + b"\n")

    def contradictions(self, texts) -> list:
        """Pairs of signed checkpoints of which the lines of one are not the beginning of the other's."""
        counted = [(int(text.split(b"\n")[1]), text) for text in texts]
        return [(old, new) for count, old in counted for other, new in counted
                if (count, old) < (other, new) and old != text_of(self.histories[new][:count])]

    # ---- A play

    def day(self, number: int) -> None:
        self.grow()
        check(self.run() == 0, "a good day is refused")
        self.publish()
        self.follow(self.customers[0])
        if number % 2:
            self.follow(self.customers[1])

    def copy(self, to) -> None:
        to.mkdir()
        shutil.copy(self.log, to / "log")
        shutil.copytree(self.dir, to / "folder", symlinks=True)
        shutil.copy(self.record, to / "record")

    def put_back(self, copy, what: str) -> None:
        if what == "log":
            shutil.copy(copy / "log", self.log)
            self.lines = self.log.read_bytes().splitlines()
        elif what == "folder":
            shutil.rmtree(self.dir)
            shutil.copytree(copy / "folder", self.dir, symlinks=True)
        else:
            shutil.copy(copy / "record", self.record)

    def roll_back(self, copy, true_lines) -> None:
        """Puts copies back in an order, perhaps with a run after each, and goes on with other lines."""
        is_run_between = self.random.randrange(2)
        for what in self.order:
            self.put_back(copy, what)
            if is_run_between:
                self.run()
        self.grow()
        if self.run() == 0:
            self.publish()
        for customer in self.customers:
            self.follow(customer)
        may_contradict = "record" in self.order and self.asks == "nobody"
        found = self.contradictions(self.histories)
        check(not found or may_contradict, self.order, self.asks, "two histories are signed:", found)
        if found:
            self.counts["two histories signed, since the record was put back too"] += 1
            self.counts["two histories held by customers, since it was"] += bool(self.contradictions(set(self.held)))
        elif self.is_extended([text_of(true_lines)]):
            self.counts["nothing was lost"] += 1
        elif self.asks != "witness" or "record" not in self.order:
            self.lines = true_lines
            self.grow()
            check(self.run() == 0, self.order, self.asks, "the true lines are refused")
            self.counts["the true lines came back"] += 1
        else:
            # The witness may know more than the machine. What is published tells the rest.
            self.lines = true_lines
            self.grow()
            self.asks = "both" if self.run() else "witness"
            check(self.run() == 0, self.order, "the true lines are refused with -u and -w")
            self.counts[f"the true lines came back{' by -u and -w' * (self.asks == 'both')}"] += 1

    def second_folder(self) -> None:
        """Another log in a folder of its own, under the same key and name. The key may be given by a link."""
        kept, other = self.lines, self.folder / "other"
        if self.random.randrange(2):
            (self.folder / "link").symlink_to(self.key)
            self.key = self.folder / "link"
        self.lines = []
        self.grow()
        is_known = self.random.randrange(2)
        if is_known:
            self.lines = [*kept, *self.lines]
            self.log.write_bytes(b"".join(line + b"\n" for line in self.lines))
        status = self.run(other)
        check(status == (0 if is_known else 1), "a second folder with one key has status", status)
        self.counts["second folders"] += 1

    def play(self) -> Counter:
        self.folder.joinpath("witness").mkdir()
        self.witness = Witness(self.folder / "witness", "witness.example", self.random.randbytes(32),
                               {ORIGIN: self.vkey})
        server = self.witness.serve()
        self.url = f"http://127.0.0.1:{server.server_port}"
        try:
            copied = self.random.randrange(DAYS - 1)
            for number in range(DAYS):
                self.day(number)
                if number == copied:
                    self.copy(self.folder / "copy")
            if self.has_second_folder:
                self.second_folder()
            else:
                self.roll_back(self.folder / "copy", self.lines)
        finally:
            server.shutdown()
            server.server_close()
        return self.counts


def rolled_back(folder, program: str, seed: int) -> Counter:
    """What was counted in a play."""
    folder.mkdir()
    try:
        counts = Rollback(folder, program, seed).play()
    except (Wrong, OSError, subprocess.SubprocessError) as wrong:
        raise Wrong(f"machine {seed} that rolls back: {wrong}") from wrong
    shutil.rmtree(folder)
    return counts
