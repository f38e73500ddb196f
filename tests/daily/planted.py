"""Runs that have to be refused. Whoever can write the published folder, or copies an older one over it, has nothing
signed by it that the log does not have, or that does not follow the last stored checkpoint."""

import fcntl
import os
import subprocess
import sys

from script import TOP, check

# The log, its text, the record, the note, the proof and the checkpoint.
LEAST_CHANGES = 6


def await_lock(folder) -> None:
    """Waits until the processes of a killed run, which hold its lock, are gone."""
    if folder.exists():
        held = os.open(folder, os.O_RDONLY)
        fcntl.flock(held, fcntl.LOCK_EX)
        os.close(held)


def refuse(play, why: str, status: int, said: bytes) -> None:
    """A run that says so, and stores and signs nothing."""
    before = play.stored()
    signed = play.signed.read_bytes()
    ran = play.run()
    check((ran.returncode, ran.stdout) == (status, b"") and said in ran.stderr, why, ran)
    check(ran.stderr.count(b"\n") == 1 and b".work" not in ran.stderr, why, ran)
    check((play.stored(), play.signed.read_bytes()) == (before, signed), why, "is stored or signed")
    play.counts["planted or restored files refused"] += 1


def finish(play, count: int) -> None:
    """A run that finishes so many begun checkpoints."""
    ran = play.run()
    check(ran.returncode == 0 and ran.stdout.count(b"finished what a stopped run began: ") == count, ran)
    play.go_on("begun checkpoints")
    play.counts["begun checkpoints finished"] += count


def plant(play) -> None:
    """Files of a checkpoint that a stopped run began, of the last checkpoint, and older links, logs and folders."""
    play.go_on("a day")
    known, last = len(play.lines), play.last()
    stored = sorted(play.dir.glob("*-*.checkpoint"), key=lambda path: path.stem[-12:])
    play.grow()
    size = len(play.lines)
    text = play.expected
    lines = play.lines
    rewritten = [b"rewritten", *lines[1:]]
    key = play.folder / "another key"
    link = play.dir / "checkpoint"
    subprocess.run(["openssl", "genpkey", "-algorithm", "ed25519", "-out", key], check=True)

    def begun(count):
        return play.dir / f".{play.day}-{count:012}.begun"

    kept = play.dir / f"{play.day}-{size:012}.checkpoint"
    signed = subprocess.run([sys.executable, TOP / "share/fohlazu-sign", key], input=text(size), capture_output=True, check=True)
    for why, path, planted, status, said in [
        ("a forged log", begun(size), text(size, rewritten), 1, b"put them back"),
        ("a smaller log", begun(known - 1), text(known - 1, rewritten), 1, b"put them back"),
        ("the log's old lines", begun(known - 1), text(known - 1), 1, b"put them back"),
        ("another root of the last count", begun(known), text(known, rewritten), 1, b"put them back"),
        ("more lines than the log's", begun(size + 9), text(size + 9, [*lines, *[b"forged"] * 9]), 1, b"put them back"),
        ("another origin", begun(size), text(size, lines, "victim.example"), 2, b"remove it"),
        ("another count", begun(size + 1), text(size), 2, b"remove it"),
        ("no checkpoint", begun(size), b"old 0\n\n", 2, b"remove it"),
        ("no text", begun(size), b"", 2, b"remove it"),
        ("a last one that is not signed", kept, text(size), 2, b"damaged or not signed"),
        ("a last one of a rewritten log", kept, text(size, rewritten), 2, b"damaged or not signed"),
        ("a last one of another key", kept, signed.stdout, 2, b"is not the key that signed"),
        ("a changed last one", kept, text(size) + last.partition(b"\n\n")[2].join([b"\n", b""]), 2, b"damaged or not"),
        ("a last one of another count", kept, last, 2, b"is damaged"),
        ("an empty last one", kept, b"", 2, b"is damaged"),
    ]:
        path.write_bytes(planted)
        refuse(play, why, status, said)
        path.unlink()
    # The record beside the key.
    record = play.record.read_bytes()
    rewrote = subprocess.run([sys.executable, TOP / "share/fohlazu-sign", play.key], input=text(size, rewritten),
                             capture_output=True, check=True)
    for why, planted, status, said in [
        ("an empty record", b"", 2, b"is damaged, or of another key: put it back"),
        ("a cut record", record[:-9], 2, b"is damaged, or of another key: put it back"),
        ("a record that is not signed", text(known), 2, b"is damaged, or of another key: put it back"),
        ("a record of another key", signed.stdout, 2, b"is damaged, or of another key: put it back"),
        ("a record of a rewritten log", rewrote.stdout, 1, b"which the key signed, so nothing is signed: LOG and DIR"),
    ]:
        play.record.write_bytes(planted)
        refuse(play, why, status, said)
    play.record.write_bytes(record)
    # The last checkpoint is lost, and its proof shows it.
    stored[-1].unlink()
    for contents in lines, rewritten, [*lines[:known - 1], b"other"]:
        play.write(contents)
        refuse(play, "a log whose last checkpoint is lost", 2, b"put it back")
    stored[-1].write_bytes(last)
    play.write(lines, play.tail)
    # A log is restored after a kill, and put right.
    begun(size).write_bytes(text(size))
    play.write(lines[:known])
    refuse(play, "a log that was restored after a kill", 1, b"put them back")
    play.write(lines, play.tail)
    begun(size).write_bytes(text(size) + b"the log owes me a fortune\n")
    begun(known + 1).write_bytes(text(known + 1))
    finish(play, 1 if known + 1 == size else 2)
    # The link is to a rewritten log, which is there.
    play.write(rewritten)
    link.unlink()
    link.write_bytes(text(size, rewritten))
    refuse(play, "a link to a rewritten log", 1, b"put its old lines back")
    # Log and folder are copied back, the newer files stay, and the log grows to as many lines, fewer or more.
    old = int(stored[-1].stem[-12:])
    for count in size - 1, size, size + 5:
        play.write([*lines[:old], *[b"other"] * (count - old)])
        for kind in "growth", "checkpoint":
            (play.dir / kind).unlink()
            (play.dir / kind).symlink_to(stored[-1].with_suffix(f".{kind}").name)
        refuse(play, "a restored log and folder", 1, b"put its old lines back")
        check(link.read_bytes().startswith(text(size) + b"\n"), "the link is to", link.resolve())
    link.unlink()
    play.grow()
    # The record cannot be written, so nothing is published.
    beside = play.record.with_name(play.record.name + ".next")
    beside.mkdir()
    before, ran = play.stored(), play.run()
    check(ran.returncode == 2 and b"cannot be written (Is a directory); --record names another file" in ran.stderr, ran)
    check(play.stored() == before, "is published without a record", ran)
    beside.rmdir()
    play.go_on("a log that was put right")


def lose(play) -> None:
    """The record is on a disk that is not there, or lost, which a run says. A log is read in two ways."""
    play.go_on("a day")
    play.record.unlink()
    play.record.symlink_to(play.folder / "no disk" / "record")
    play.grow()
    refuse(play, "a record that cannot be read", 2, b"cannot be read: No such file")
    play.record.unlink()
    ran = play.run()
    said = f"; there was no record, and {play.record} is a new one\n".encode()
    check(ran.returncode == 0 and ran.stdout.endswith(said) and play.record.read_bytes() == play.last(), ran)
    play.grow()
    program, misread = play.program, play.folder / "misread"
    misread.write_text(f"#!/bin/sh\nif [ \"$1\" = seal ]; then\n  '{program}' \"$@\" | sed '3{{s/^A/B/;t;s/^./A/}}'\n"
                       f"else\n  exec '{program}' \"$@\"\nfi\n")
    misread.chmod(0o755)
    play.program = str(misread)
    refuse(play, "a log that is read in two ways", 1, b"so nothing is signed")
    words = [play.log, play.folder / "first", "-k", play.key, "--origin", "other", "--record", play.folder / "other"]
    signed, ran = play.signed.read_bytes(), play.script("fohlazu-daily", *words)
    is_left = (play.folder / "first").exists() or signed != play.signed.read_bytes()
    check(ran.returncode == 1 and b"changed meanwhile, so nothing is signed" in ran.stderr and not is_left, ran)
    play.program = program
    play.counts["logs read in two ways"] += 2
    play.go_on("a log that was read in two ways")


def change(play) -> None:
    """The disk changes what was synced, each file in turn: the log that was sealed, what is begun, the record, and what
    is published. Nothing false is signed or published, and the next run goes on."""
    play.go_on("a day")
    at = noticed = 0
    while at == noticed:
        at += 1
        play.grow()
        # A change after the last line feed would not matter.
        play.tail = b""
        play.write(play.lines)
        log = play.log.read_bytes()
        ran = play.script("fohlazu-daily", play.log, play.dir, "-k", play.key, at=at, how="change")
        is_log, is_changed = play.log.read_bytes() != log, play.commands >= at
        said = b"nothing is signed" if is_log else b"the disk changed what was written to "
        check(ran.returncode == (0 if not is_changed else 1 if is_log else 2), "file", at, ran)
        check(said in ran.stderr or not is_changed, "file", at, ran)
        play.log.write_bytes(log)
        play.go_on("the disk changed file", at)
        noticed += is_changed
    check(noticed >= LEAST_CHANGES, "the disk changes only", noticed, "files")
    play.counts["files that the disk changed"] = noticed


def lock(play) -> None:
    play.grow()
    held = os.open(play.dir, os.O_RDONLY)
    fcntl.flock(held, fcntl.LOCK_EX)
    work = play.dir / ".work"
    work.mkdir()
    ran = play.script("fohlazu-daily", play.log, play.dir, "-k", play.key)
    check(ran.returncode == 2 and b"another run" in ran.stderr and work.exists(), ran)
    os.close(held)
    held = os.open(play.key, os.O_RDONLY)
    fcntl.flock(held, fcntl.LOCK_EX)
    ran = play.script("fohlazu-daily", play.log, play.dir, "-k", play.key)
    check(ran.returncode == 2 and b"another run signs by this key" in ran.stderr, ran)
    os.close(held)
    for words, said in ([], b"give -k KEY"), (["-k", play.key, "--origin", "other"], b"have another origin"):
        ran = play.run(words=words)
        check(ran.returncode == 2 and said in ran.stderr, ran)


def forge(play) -> None:
    """A note with another text is never opened, whichever command fails."""
    forged = play.expected(1) + b"\n" + play.last().partition(b"\n\n")[2]
    at = 0
    commands = 0
    while at <= commands:
        ran = play.script("fohlazu-open", play.vkey, data=forged, at=at, how="fail")
        check(ran.returncode in (1, 2) and not ran.stdout, ran)
        at, commands = at + 1, max(commands, play.commands)
    play.counts["forged notes"] = at
