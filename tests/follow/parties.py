"""The operator of a log, who publishes it by fohlazu-daily, and forges proofs by the model; and a customer."""

import os
import shutil
import subprocess
import sys
from collections import Counter

import log_texts
import logs
from keys import Key
from script import TOP, check

SHARE = TOP / "share"
ORIGIN = "ledger.example"
SECONDS = 120
BLOCK = 4096
PAGE = b"<html>\n\n<h1>404</h1>\n\n\xe2\x80\x94 not found\n"
# What fohlazu-follow says of forgeries.
REFUSED = b" is refused: "
NOT_WHOLE = b" is no growth proof, or not whole: fetch it again ("
BEGINS = b" begins at "
USAGE = b"fohlazu-follow DIR KEYS PROOF "


def run(*words, data=b"", **settings):
    return subprocess.run([*map(str, words)], input=data, capture_output=True, timeout=SECONDS, **settings)


def script(name, *words, **settings):
    return run(sys.executable, "-S", SHARE / name, *words, **settings)


def printed(ran):
    """What a run printed that has to go well."""
    check(ran.returncode == 0, ran)
    return ran.stdout


def contents(folder):
    """Each file of a folder, with its bytes, but for what a killed run was at work with."""
    return {str(path.relative_to(folder)): path.read_bytes() for path in folder.rglob("*")
            if path.is_file() and path.relative_to(folder).parts[0] != ".next"}


def count_of(checkpoint):
    """The number of entries of a checkpoint, or none without one."""
    return int(checkpoint.splitlines()[1]) if checkpoint else 0


class Operator:
    """A log in a folder, and its key."""

    def __init__(self, folder, source):
        self.folder = folder
        self.source = source
        self.lines = []
        self.log = logs.Log([])
        self.key, self.other = (Key(folder / name, ORIGIN, source.randbytes(32)) for name in ("log's key", "other key"))
        self.vkey = self.key.vkey

    def signed(self, size, root, key=None, origin=ORIGIN):
        """A checkpoint of the model's, signed."""
        return printed(script("fohlazu-sign", (key or self.key).path,
                              data=log_texts.checkpoint_text(origin.encode(), size, root)))

    def day(self):
        """Publishes a day by fohlazu-daily: the checkpoint and the proof from the one before."""
        published = self.folder / "published"
        words = [] if published.exists() else ["--origin", ORIGIN]
        self.lines += [b"%d" % self.source.randrange(10**6) for _ in range(self.source.randint(2, 40))]
        self.log = logs.Log(self.lines)
        (self.folder / "log").write_bytes(b"\n".join(self.lines) + b"\n")
        printed(script("fohlazu-daily", self.folder / "log", published, "-k", self.key.path, *words))
        checkpoint = (published / "checkpoint").resolve()
        text = log_texts.checkpoint_text(ORIGIN.encode(), len(self.lines), self.log.root(0, len(self.lines)))
        check(checkpoint.read_bytes().startswith(text + b"\n"), checkpoint, "is not the model's")
        return checkpoint.read_bytes(), checkpoint.with_suffix(".growth").read_bytes()

    def proof_from(self, checkpoint):
        """A proof from a stored checkpoint to the last one, for a customer or a witness."""
        old = self.folder / "old"
        old.write_bytes(checkpoint)
        words = [old, self.folder / "published/checkpoint", self.folder / "log"]
        return printed(run(os.environ["FOHLAZU"], "prove-consistency", *words))

    def forged(self, old):
        """What is refused after a checkpoint of so many entries: why, what a witness answers, what is said, a proof."""
        size = len(self.lines)
        text = log_texts.consistency_text
        source = self.source
        root, other = self.log.root(0, size), source.randbytes(32)
        rewritten = logs.Log([*self.lines[: old - 1], b"other", *self.lines[old:]])
        digests, new = self.log.consistency(old, size), self.signed(size, root)
        unsigned, false = (log_texts.checkpoint_text(ORIGIN.encode(), size, value) for value in (root, other))
        at, place = source.randrange(len(digests)), source.randrange(len(new) - 90, len(new) - 10)
        changed = new[:place] + (b"B" if new[place:place + 1] == b"A" else b"A") + new[place + 1:]
        elsewhere, smaller = self.signed(size, root, origin="other.example"), self.log.root(0, old - 1)
        true, with_another = text(old, digests, new), [*digests[:at], other, *digests[at + 1:]]
        return [
            ("another key", 403, REFUSED, text(old, digests, self.signed(size, root, self.other))),
            ("another name", 404, REFUSED, text(old, digests, elsewhere)),
            ("not signed", 403, NOT_WHOLE, text(old, digests, unsigned)),
            ("another signature", 403, REFUSED, text(old, digests, changed)),
            ("another root than the signed one", 403, REFUSED, text(old, digests, new.replace(unsigned, false))),
            ("a root of no log", 422, REFUSED, text(old, digests, self.signed(size, other))),
            ("another digest", 422, REFUSED, text(old, with_another, new)),
            ("a digest less", 422, REFUSED, text(old, digests[:at] + digests[at + 1:], new)),
            ("a digest more", 422, REFUSED, text(old, [*digests, other], new)),
            ("another old count", 409, BEGINS, text(old + 1, digests, new)),
            ("a smaller log", 400, REFUSED, text(old, [], self.signed(old - 1, smaller))),
            ("a rewritten log", 422, REFUSED, text(old, rewritten.consistency(old, size),
                                                   self.signed(size, rewritten.root(0, size)))),
            ("a cut proof", 400, NOT_WHOLE, true[: -source.randint(1, 100)]),
            ("nothing", 400, NOT_WHOLE, b""),
            ("a page", 400, NOT_WHOLE, PAGE),
            ("a carriage return", 400, NOT_WHOLE, true.replace(b"\n", b"\r\n")),
        ]

    def histories(self, old):
        """A signed checkpoint of so many entries with another root, in two proofs, a true one and another."""
        other = logs.Log([*self.lines[: old - 1], b"other"])
        forked = self.signed(old, other.root(0, old))
        for digests, count in ([], old), (other.consistency(old - 1, old), old - 1):
            yield log_texts.consistency_text(count, digests, forked), forked


class Customer:
    """Whoever follows a log in a folder."""

    def __init__(self, folder, vkey):
        self.folder = folder
        self.vkey = vkey
        self.path = folder / "checkpoint"
        self.counts = Counter()
        folder.mkdir()

    def last(self):
        """The last checkpoint, or nothing."""
        return self.path.read_bytes() if self.path.exists() else b""

    def step(self, proof, words=None, **settings):
        return script("fohlazu-follow", *(words or [self.folder, self.vkey, "-"]), data=proof, **settings)

    def follows(self, proof, checkpoint):
        printed(self.step(proof))
        found = contents(self.folder)
        check(found == {"checkpoint": checkpoint} and not (self.folder / ".next").exists(), found, "not", checkpoint)
        self.counts["followed"] += 1

    def has(self, proof):
        """A proof, or another's checkpoint, of the entries and the root that are stored already."""
        before, ran = contents(self.folder), self.step(proof)
        check(b"the same root: nothing is new" in printed(ran) and contents(self.folder) == before, ran)
        self.counts["nothing new"] += 1

    def survives(self, proof, checkpoint, seconds):
        """A run that is killed leaves the checkpoint that was there, or the new one. Whether it is the new one."""
        before, words = self.last(), [sys.executable, SHARE / "fohlazu-follow", self.folder, self.vkey, "-"]
        run("timeout", "-s", "KILL", seconds, *words, data=proof, start_new_session=True)
        # What its last command was at, such as a sync, may take a while to end, and holds the lock.
        printed(run("flock", "-w", SECONDS // 2, self.folder, "true"))
        check(self.last() in (before, checkpoint), "killed after", seconds, "seconds:", self.last())
        self.counts["killed"] += 1
        return self.last() == checkpoint

    def refuses(self, why, status, proof=b"", words=None, said=b"", **settings):
        """A refusal prints nothing, says why, and leaves the folder as it was."""
        before, ran = contents(self.folder), self.step(proof, words, **settings)
        lines = [line for line in ran.stderr.splitlines() if not line.startswith(b"cat: ")]
        is_said = len(lines) == 1 and lines[0].startswith(b"fohlazu-follow: ") and said in lines[0]
        is_said |= ran.stderr.startswith(USAGE) and words is not None and len(words) != 3
        is_same = contents(self.folder) == before
        check(ran.returncode == status and not ran.stdout and is_said and is_same, why, ran, proof)
        self.counts["refused"] += 1

    def begins(self, count):
        """What is said of a proof from another count."""
        have = count_of(self.last())
        when = "first" if count > have else "next"
        return (f"fohlazu-follow: standard input begins at {count} entries, and {self.path} has {have}: "
                f"take from-{have}.growth {when}, or ask for prove-consistency").encode()

    def has_other(self, count):
        """What is said of a checkpoint with another count."""
        have = count_of(self.last())
        advice = f"take from-{have}.growth, or ask for prove-consistency"
        if count < have:
            advice = "to compare them, ask for prove-consistency from the smaller one, whose owner follows it"
        return f"fohlazu-follow: standard input has {count} entries, and {self.path} has {have}: {advice}".encode()

    def finds(self, proof, forked, is_full=False):
        """Two histories are announced, then stored and named, if there is room; no other file changes."""
        path = self.folder.parent / "their proof"
        path.write_bytes(proof)
        before, ran = contents(self.folder), self.step(b"", [self.folder, self.vkey, path])
        both, files = f"{path} and {self.path}", [] if is_full else [*self.folder.glob("two-histories-*")]
        end = "".join(f"keep {found}/old and {found}/new as evidence\n" for found in files)
        if is_full:
            end = f"no copies (No space left on device): keep {both} as evidence\n"
        said = f"fohlazu-follow: two histories of one log: {both}, both signed\nfohlazu-follow: {end}".encode()
        new = {f"{found.name}/{name}": text for found in files for name, text in
               (("old", before["checkpoint"]), ("new", forked))}
        is_so = (ran.returncode, ran.stdout, ran.stderr, contents(self.folder)) == (3, b"", said, before | new)
        check(is_so, "two histories:", ran, contents(self.folder))
        for found in files:
            shutil.rmtree(found)
        self.counts["two histories"] += 1

    def fills_its_disk(self, operator, days):
        """Two histories are announced on a full disk too. It needs a disk that can be mounted."""
        [(first, _), (last, growth)] = days[-2:]
        mount = ["mount", "-t", "tmpfs", "-o", f"size={2 * BLOCK},mode=700", "tmpfs", self.folder]
        if run(*mount).returncode:
            print("follow: a full disk: skipped, none can be mounted")
            return
        try:
            self.path.write_bytes(first)
            (self.folder / "filler").write_bytes(bytes(BLOCK))
            for proof, forked in operator.histories(count_of(first)):
                self.finds(proof, forked, is_full=True)
            self.refuses("a full disk", 2, growth, said=b" cannot be written: No space left on device")
            self.has(first)
            (self.folder / "filler").unlink()
            self.follows(growth, last)
        finally:
            printed(run("umount", self.folder))
