"""python3 tests/follow [quick] [SEED]    share/fohlazu-follow: an operator and a customer, seven days from a seed, or 1

- The operator's fohlazu-daily publishes checkpoints and proofs, which have the roots of tests/model/logs.py. A customer
  who takes each proof has the operator's checkpoint each day; one who missed days needs a proof of its own.
- What is refused leaves the customer's folder as it was, byte for byte: false signatures, keys and proofs, a rewritten
  log, a smaller one, another name, a page, a full disk, missing files and programs, another run at work.
- A killed run leaves the old checkpoint or the new one. A proof that was taken, or another's checkpoint with the same
  root, is nothing new. Two signed histories of the log are announced, stored and named; a full disk is no hindrance.
- A policy opens what has enough cosignatures, each witness counted once. fohlazu-daily asks three witnesses, of which
  some are out of reach for days, or broken; customers with policies take what has enough. A customer who missed days
  catches up by the loop of docs/USES.md, and notices by it an older folder, another history, a rewritten log, a page,
  nothing, and one proof that is given again and again. What never ends is no input.
- The witness of witness.py, on loopback, takes the proofs by curl, and answers 200, 400, 403, 404, 409 and 422. Its
  cosignatures are opened by fohlazu-open, and fohlazu and fohlazu-follow read past them. So does a witness of another
  hand, which shares no line with the tests or the scripts. They are skipped without curl.
- What the scripts print of names and origins has no character on a terminal that it might obey.
"""

import fcntl
import os
import shutil
import subprocess
import sys
import tempfile
from collections import Counter
from pathlib import Path
from random import Random

sys.path.insert(0, str(Path(__file__).resolve().parents[2] / "tools"))
from script import TOP, arguments, built, check, counted, run_script  # first: it makes those below known

import log_texts
from catching_up import catch_up, notice
from endless import try_endless
from parties import ORIGIN, SHARE, Customer, Operator, contents, count_of, printed, run, script
from policies import try_policies
from served import Another, Served
from terminals import try_terminals
from witness import Witness

DAYS, KILLED = 7, 3


def try_mistakes(operator, customer):
    """Arguments, files and programs that are wrong, each with status 2."""
    name, vkey = customer.folder, customer.vkey
    for why, words in [
        ("no proof", [name, vkey]), ("a word more", [name, vkey, "-", "-"]), ("a folder alone", [name]),
        ("no folder", [name / "none", vkey, "-"]), ("a file for a key", [name, "vkey", "-"]),
        ("a missing proof", [name, vkey, name / "none"]), ("a malformed key", [name, vkey[:-1], "-"]),
        ("no key", [name, "", "-"]), ("a file for a folder", [operator.folder / "log", vkey, "-"]),
        ("a folder without a checkpoint", [operator.folder, vkey, name.parent / "growth"]),
    ]:
        customer.refuses(why, 2, b"", words)
    customer.refuses("no program", 2, env={**os.environ, "FOHLAZU": str(name / "none")})
    lock = os.open(name, os.O_RDONLY)
    fcntl.flock(lock, fcntl.LOCK_EX)
    customer.refuses("another run", 2)
    os.close(lock)


def try_stored(customer, growth):
    """A stored checkpoint that is not signed by this key, or not whole."""
    stored = customer.last()
    unsigned = stored.partition(b"\n\n")[0] + b"\n"
    for text in stored[:-1], unsigned, stored.replace(b"\n", b"\n1", 1), b"":
        customer.path.write_bytes(text)
        customer.refuses("a stored checkpoint that is not signed", 2, growth)
    customer.path.write_bytes(stored)


def try_customer(operator, folder, source):
    """A customer who takes each day's proof, and one who misses some. What the days' files are."""
    each, some, late, full = customers = [
        Customer(folder / name, operator.vkey) for name in ("each day", "some days", "late", "a full disk")]
    days = []
    for day in range(DAYS):
        checkpoint, growth = operator.day()
        (folder / "growth").write_bytes(growth)
        old = count_of(days[-1][0]) if days else 0
        if day:
            for why, _, said, proof in operator.forged(old):
                each.refuses(why, 1, proof, said=said)
            for proof, forked in operator.histories(old):
                each.finds(proof, forked)
                each.finds(forked, forked)
        if day in (1, DAYS - 1):
            try_mistakes(operator, each)
            try_stored(each, growth)
        if not any(each.survives(growth, checkpoint, source.random() / 4) for _ in range(KILLED)):
            each.follows(growth, checkpoint)
        each.has(growth)
        each.has(checkpoint)
        if day:
            each.refuses("another's checkpoint of fewer entries", 1, days[-1][0], said=each.has_other(old))
        days.append((checkpoint, growth))
        if day == 0 or source.randrange(2):
            proof = operator.proof_from(some.last()) if day else growth
            if day and some.last() != days[-2][0]:
                some.refuses("a proof after days that were missed", 1, growth, said=some.begins(old))
                some.refuses("a checkpoint of more entries", 1, checkpoint, said=some.has_other(count_of(checkpoint)))
            some.follows(proof, checkpoint)
    # Whoever puts a signed checkpoint there begins at it; one that begins with a later proof has nothing to compare.
    late.refuses("a proof that is not from no entries", 1, days[-1][1], said=b" is empty: take from-0.growth first, or ")
    late.path.write_bytes(days[-2][0])
    late.follows(days[-1][1], days[-1][0])
    full.fills_its_disk(operator, days)
    return days, counted(sum((customer.counts for customer in customers), Counter()))


def try_witnesses(operator, folder, days, source):
    """The tests' witness, and the one of another hand."""
    if not shutil.which("curl"):
        return "skipped, they need Debian's curl"
    (folder / "witness").mkdir()
    witness = Witness(folder / "witness", "witness.example", source.randbytes(32), {ORIGIN: operator.vkey})
    of_tests = try_witness(operator, folder / "with a witness", days, Served(witness), {})
    # It takes a checkpoint without signatures for a malformed request.
    another = Another(folder / "another", operator.vkey)
    return f"{of_tests}; another: {try_witness(operator, folder / 'with another', days, another, {'not signed': 400})}"


def try_witness(operator, folder, days, witness, other_answers):
    """A witness that takes the days' proofs by curl, misses one, and is sent what it refuses."""
    counts = Counter()
    customer, size = Customer(folder, operator.vkey), 0
    answer = folder.with_suffix(".answer")
    url = f"http://127.0.0.1:{witness.port}/add-checkpoint"

    def send(proof, status):
        words = ["-sS", "--max-time", "20", "-o", answer, "-w", "%{http_code} %{content_type}", "--data-binary"]
        found = printed(run("curl", *words, "@-", url, data=proof)).decode()
        kind, text = ("text/x.tlog.size", b"%d\n" % size) if status == 409 else ("text/plain", answer.read_bytes())
        is_right = found.startswith(f"{status} {kind}") and answer.read_bytes() == text
        check(is_right, proof, "the witness answers", found, "not", status)
        counts[str(status)] += 1

    try:
        for number, (checkpoint, growth) in enumerate(days):
            if number == DAYS - 2:
                continue  # the witness misses this day
            if number == DAYS - 1:
                for why, status, _, proof in operator.forged(size):
                    send(proof, other_answers.get(why, status))
                for proof in growth, *(proof for proof, _ in operator.histories(size)):
                    send(proof, 409)
                growth = operator.proof_from(days[-3][0])
            send(growth, 200)
            line, size = answer.read_bytes(), count_of(checkpoint)
            cosigned, text = checkpoint + line, checkpoint.partition(b"\n\n")[0] + b"\n"
            for vkey in operator.vkey, witness.vkey:
                check(printed(script("fohlazu-open", vkey, data=cosigned)) == text, cosigned, vkey)
            damaged = script("fohlazu-open", witness.vkey, data=cosigned[:-8] + b"AAAAAAA\n")
            check(damaged.returncode == 1, "a changed cosignature:", damaged)
            customer.follows(growth.partition(b"\n\n")[0] + b"\n\n" + cosigned, cosigned)
            if number == 1:
                witness.stop()
                witness.start()
    finally:
        witness.stop()
    return counted(counts)


def try_older(operator, folder):
    """A folder whose proofs were stored under dates alone gets links by the old counts, and a record."""
    older, record = folder / "older", folder / "its record"
    shutil.copytree(operator.folder / "published", older, symlinks=True)
    for path in older.glob("*-*-*-*.growth"):
        stored = older / os.readlink(path)
        path.unlink()
        stored.rename(path)
    words = [operator.folder / "log", older, "-k", operator.key.path, "--record", record]
    check(b"no new lines" in printed(script("fohlazu-daily", *words)), older)
    check(contents(older) == contents(operator.folder / "published"), contents(older))
    check(record.read_bytes() == (older / "checkpoint").read_bytes(), record)


def try_inputs(operator, folder, days):
    """What never ends, what is too long, two proofs in one file, and what a first day says."""
    customer = Customer(folder / "inputs", operator.vkey)
    proofs = [growth for _, growth in days]
    customer.path.write_bytes(days[-1][0])
    customer.refuses("an older proof", 1, proofs[1], said=customer.begins(count_of(days[0][0])))
    customer.path.unlink()
    customer.refuses("two proofs", 1, proofs[0] + proofs[1], said=b" has several growth proofs: follow each from a ")
    customer.refuses("an endless proof", 1, words=[customer.folder, customer.vkey, "/dev/zero"], said=b" has more than ")
    long = b"old 0\n\n" + b"x" * 2_000_000
    customer.refuses("a long proof", 1, long, said=b" has more than 1002860 bytes")
    with open("/dev/zero", "rb") as endless:
        words = [sys.executable, SHARE / "fohlazu-open", operator.vkey]
        ran = subprocess.run(words, stdin=endless, capture_output=True, timeout=60)
    check(ran.returncode == 1 and b"the note has more than 1000000 bytes" in ran.stderr, ran)
    # A log that is no file, on each of two days, and one without lines.
    os.mkfifo(folder / "pipe")
    for log in folder / "pipe", "/dev/zero", folder:
        words = [log, folder / "days", "-k", operator.key.path, "--origin", ORIGIN, "--record", folder / "record"]
        ran = script("fohlazu-daily", *words)
        check((ran.returncode, ran.stderr) == (2, f"fohlazu-daily: {log} is no regular file\n".encode()), ran)
    words[0] = folder / "empty"
    words[0].write_bytes(b"half")
    said = printed(script("fohlazu-daily", *words))
    check(said == b"fohlazu-daily: %s: no lines yet, so nothing is stored, and a half line waits\n" % ORIGIN.encode(), said)
    # A begun checkpoint of a first day names no other one.
    (folder / "days").mkdir(exist_ok=True)
    (folder / "days/.2026-01-01-000000000009.begun").write_bytes(log_texts.checkpoint_text(ORIGIN.encode(), 9, bytes(32)))
    ran = script("fohlazu-daily", *words)
    check(ran.returncode == 1 and b" after the " not in ran.stderr and b"put them back" in ran.stderr, ran)
    # Nothing is written to TMPDIR, and help is printed.
    for name in "fohlazu-daily", "fohlazu-follow", "fohlazu-open", "fohlazu-sign":
        check(printed(script(name, "--help")).startswith(name.encode()), name)
    full = {**os.environ, "TMPDIR": "/dev/full"}
    printed(script("fohlazu-open", operator.vkey, data=days[0][0], env=full))
    printed(script("fohlazu-sign", "-p", operator.key.path, ORIGIN, env=full))
    printed(script("fohlazu-follow", customer.folder, operator.vkey, "-", data=proofs[0], env=full))
    words = [operator.folder / "log", operator.folder / "published", "-k", operator.key.path]
    printed(script("fohlazu-daily", *words, env=full))
    try_older(operator, folder)
    if not shutil.which("curl"):
        return "but for missed days, which need Debian's curl"
    (folder / "missed").mkdir()
    said = printed(script("fohlazu-daily", *words, "-u", (folder / "nowhere").as_uri()))
    check(b"/nowhere/checkpoint is not there yet: copy " in said, said)
    published = operator.folder / "published"
    loop = catch_up(folder / "missed", os.environ["FOHLAZU"], published, operator.vkey, days[0][0])
    return f"all; {notice(loop, operator, days)} others are published in the place of a day"


def main():
    is_quick, seeds = arguments(lambda numbers: len(numbers) < 2)
    if not shutil.which("openssl"):
        print("follow: skipped, it needs openssl")
        return
    os.environ["FOHLAZU"] = str(built(is_quick))
    source = Random(seeds[0] if seeds else 1)
    with tempfile.TemporaryDirectory(prefix="a log's days ") as work:
        folder = Path(work)
        (folder / "operator").mkdir()
        operator = Operator(folder / "operator", source)
        days, counts = try_customer(operator, folder, source)
        print(f"follow: {counts}", flush=True)
        print(f"follow: the witness: {try_witnesses(operator, folder, days, source)}", flush=True)
        (folder / "policies").mkdir()
        print(f"follow: policies: {try_policies(folder / 'policies', source)}", flush=True)
        print(f"follow: inputs: {try_inputs(operator, folder, days)}", flush=True)
        (folder / "endless").mkdir()
        print(f"follow: without end: {try_endless(folder / 'endless', operator, *days[-1])}", flush=True)
        (folder / "terminals").mkdir()
        print(f"follow: terminals: {try_terminals(folder / 'terminals', source)}")


run_script(main)
