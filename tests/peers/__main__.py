"""python3 tests/peers [quick] [notes] [proofs] [both] [COUNT SEED]    logs beside tests/model/logs.py and Go's packages

COUNT is 100000, and SEED 1, if they are not given. The packages are note and tlog of golang.org/x/mod/sumdb. A process
for each processor tries what takes long.

- Verdicts on COUNT random questions of the model beside Go, which has no bound and accepts nothing from size 0.
  tests/python has the library's beside the model.
- Some COUNT roots and proofs of crates/test_log, of all sizes to 300 at most, of ten to 3000 and some to 10^6, beside
  Go; to 3000 beside the model.
- Go has the checkpoints of fohlazu, and takes its proofs, from COUNT / 50 files; fohlazu takes them signed by Go. Both
  refuse the same damaged ones. `proofs` tries this part alone, with COUNT / 2 files, each with two proofs.
- The lines of sh of docs/FILES.md on stored answers of a certificate log, certificates.txt, as they are and with a
  value changed, beside the model; Go accepts the proofs. It needs Debian's jq, and is skipped without it.
- Signed notes: share/fohlazu-sign signs 220 texts as note.Sign does, and share/fohlazu-open opens 220 notes of Go's;
  each byte of three notes and their keys is changed, and 620 notes are damaged; it opens 20 cosignatures. `notes` tries
  this part alone, with COUNT further texts and notes, and COUNT / 10 damaged ones. All but the first 20 of each run
  inside processes that are there, without a Python of their own.

Go is Debian's golang-go and golang-golang-x-mod-dev; without these, a second writing of its packages in Python takes its
place (reference.py), and the first line says so. `both` asks the two, which have to answer alike. Notes need openssl,
and are skipped without it.
"""

import json
import math
import os
import re
import shutil
import subprocess
import sys
import tempfile
from base64 import b64decode, b64encode
from collections import Counter
from concurrent.futures import ProcessPoolExecutor, ThreadPoolExecutor
from pathlib import Path
from random import Random

sys.path.insert(0, str(Path(__file__).resolve().parents[2] / "tools"))
from script import TOP, arguments, built, check, counted, run_script  # first: it makes those below known

import golang
import log_texts
import random_logs
import logs
from inside import open_files, run_inside
from keys import COSIGNED, Key
from notes import Notes, Sumdb, build
from reference import Reference
from running import Program

CERTIFICATES = TOP / "tests/peers/certificates.txt"
# Sizes of logs: all up to WHOLE, or fewer, and SIZES up to SMALL, which the model has. Of up to MOST there are SIZES too
# for 100,000 answers, and fewer for fewer.
WHOLE = 300
MOST = 10**6
SMALL = 3000
SIZES = 10
# How many notes are signed and opened, are changed byte by byte, are damaged, and are cosigned: these are tried by
# scripts that begin anew, with as many of the others.
SIGNED = 200
BYTEWISE = 3
DAMAGED = 600
COSIGNATURES = 20
# A process tries so many files, or further notes.
CHUNK = 50
ORIGIN = "go.sum database tree"
# Words of the command line.
PARTS = "notes", "proofs", "both"


class Both:
    """Go and its second writing, which have to answer alike."""

    def __init__(self, program, folder):
        self._go, self._reference = Sumdb(program), Reference(folder)

    def ask(self, *words):
        found, expected = self._reference.ask(*words), self._go.ask(*words)
        check(found == expected, words, "reference.py:", found, "Go:", expected)
        return expected


def peer(folder, program, is_both):
    """Who answers: Go's program, its second writing if there is none, or both."""
    if not program:
        return Reference(folder)
    return Both(program, folder) if is_both else Sumdb(program)


def is_for_go(kind, first, size, *_):
    """Whether Go has the standard's answer."""
    return max(first, size) <= logs.MOST and (kind == "inclusion" or first > 0)


def is_accepted_by_model(kind, *question):
    return logs.VERDICTS[kind](*question) == logs.ACCEPTED


def compare_verdicts(rng, go, count):
    counts = Counter()
    for _, question in zip(range(count), filter(lambda question: is_for_go(*question), random_logs.questions(rng))):
        is_accepted, found = is_accepted_by_model(*question), go.ask(*question) is not None
        check(found == is_accepted, question, "Go:", found, "the model:", is_accepted)
        counts[question[0], "accepted" if is_accepted else "refused"] += 1
    return counts


def by_model(log, kind, number, size):
    """A root or a proof, as one word."""
    if kind == "root":
        return log.root(0, size)
    return b"".join(log.inclusion([number], size) if kind == "inclusion" else log.consistency(number, size))


def compare_answers(rng, program, go, count):
    """Roots and proofs, by Go, which has others of no entries, and for small logs by the model."""
    log, cases = logs.Log([b"%d" % number for number in range(1, SMALL + 1)]), []

    def ask(*question):
        kind, number, size = question
        found = {by_model(log, *question)} if size <= SMALL else set()
        found |= {go.ask("prove", *question)} if size else set()
        check(len(found) == 1, question, "the model and Go:", found)
        [digests] = found
        asked = [kind, size] if kind == "root" else [kind, size, number]
        parts = [digests[at:at + 32].hex() for at in range(0, len(digests), 32)]
        cases.append(" ".join(map(str, [*asked, "|", *parts])))

    # A size has two proofs of each entry.
    whole = min(WHOLE, math.isqrt(count))
    larger = [rng.randint(WHOLE, most) for most in [SMALL] * SIZES + [MOST] * max(1, SIZES * count // 100000)]
    for size in [*range(whole + 1), *larger]:
        ask("root", 0, size)
        for index in range(size) if size <= whole else [rng.randrange(size), rng.randrange(size), size - 1]:
            ask("inclusion", index, size)
            ask("consistency", index + 1, size)
    # The last cases take long: each processor gets some of them.
    parts = [cases[start::os.cpu_count()] for start in range(os.cpu_count())]
    with ThreadPoolExecutor() as pool:
        for part, ran in zip(parts, pool.map(lambda part: answered(program, part), parts)):
            check(f"{len(part)} cases, 0 wrong" in ran.stdout.splitlines(), ran.stdout[-300:], ran.stderr)
    return {"roots and proofs": len(cases)}


def answered(program, cases):
    return subprocess.run([program], input="\n".join([*cases, ""]), capture_output=True, text=True)


def in_chunks(rng, call, count, *words):
    """The counts of a call for so many, by a process for each processor. A chunk of them has a seed and a folder of its
    own."""
    chunks = [min(CHUNK, count - start) for start in range(0, count, CHUNK)]
    seeds = [rng.randbytes(8) for _ in chunks]
    with ProcessPoolExecutor() as pool:
        return sum(pool.map(in_folder, *([word] * len(chunks) for word in (call, words)), seeds, chunks), Counter())


def in_folder(call, words, seed, count):
    with tempfile.TemporaryDirectory() as folder:
        return call(Random(seed), Path(folder), count, *words)


def exchange(rng, folder, count, path, *peers):
    """fohlazu and Go take each other's checkpoints and proofs. A signed checkpoint with a byte dropped, changed or put
    in is malformed to both or to neither."""
    go, program = peer(folder, *peers), Program(path, folder)
    counts = Counter()
    names = ["sum.golang.org", "witness.example"]
    signers = [Key(folder / name, name, rng.randbytes(32)).skey for name in names]
    lines = [b"%d" % number for number in range(1, 5001)]
    log, files = logs.Log(lines), {"log": b"\n".join(lines) + b"\n"}

    def printed(*words, **contents):
        ran = program.run(words, {**files, **contents})
        check(ran.status == 0, words, contents, ran)
        return ran.printed

    for _ in range(count):
        size = rng.randint(1, len(lines))
        old, index = rng.randint(1, size), rng.randrange(size)
        roots = [log.root(0, old), log.root(0, size)]
        for name, number, root in zip(("old", "new"), (old, size), roots):
            sealed = printed("seal", "--origin", ORIGIN, "part", part=b"\n".join(lines[:number]) + b"\n")
            check(sealed == go.ask("checkpoint", number, root), "Go has another checkpoint than", sealed)
            files[name] = go.ask("sign", sealed, *signers[:rng.randint(1, 2)])
        proof = printed("prove", "new", "log", str(index + 1))
        growth = printed("prove-consistency", "old", "new", "log")
        [(_, entry)], digests = log_texts.entries(proof)
        for question in [("inclusion", index, size, logs.leaf_hash(entry), digests, roots[1]),
                         ("consistency", old, size, log_texts.consistency(growth)[1], *roots)]:
            check(go.ask(*question) is not None, "Go refuses", question)
        check(printed("verify", "new", "proof", str(index + 1), proof=proof) == entry + b"\n", proof)
        check(printed("verify-consistency", "old", "growth", growth=growth) == files["new"], growth)
        counts["files"] += 1

        text, byte = files["new"], rng.choice([b"", b"\n", b" ", b"=", b"0", b"A", b"\0", b"\r", b"\x7f", b"\xff"])
        at = rng.randrange(len(ORIGIN) + 1, len(text))
        text = text[:at] + byte + text[at + rng.randrange(2):]
        if b"\n\n" in text:  # else Go finds no signatures, and fohlazu takes them for extensions
            # It is consistent with itself, or refused with status 1 if it has no entries and a root of some.
            tree = go.ask("tree", text)
            growth = b"old %s\n\n%s" % (tree.split()[0] if tree else b"0", text)
            ran = program.run(["verify-consistency", "old", "growth"], {"old": text, "growth": growth})
            is_right = ran.status < 2 if tree else ran.status == 2
            check(is_right and ran.printed == (b"" if ran.status else text), text, ran, "Go:", tree)
            counts["damaged checkpoints", "read" if tree else "refused"] += 1
    return counts


def certificate_cases():
    """The answers in the files of docs/FILES.md: each entry of each new size, with each old size."""
    rows = [line.split("\t") for line in CERTIFICATES.read_text().splitlines()[2:]]
    answers = {tuple(request.split()): json.loads(text) for request, text in rows}
    for old, new in [request[1:] for request in answers if request[0] == "get-sth-consistency"]:
        for index in map(str, range(int(new))):
            yield {"old": answers["get-sth", old], "new": answers["get-sth", new],
                   "growth": answers["get-sth-consistency", old, new], "entries": answers["get-entries", index],
                   "path": answers["get-proof-by-hash", index, new]}


def changed(rng, case):
    """The same answers, with a value changed; a damaged proof may be as it was."""
    case = json.loads(json.dumps(case))
    other = b64encode(rng.randbytes(32)).decode()
    record, key = rng.choice([(case["old"], "tree_size"), (case["new"], "tree_size"), (case["path"], "leaf_index"),
                              (case["old"], "sha256_root_hash"), (case["new"], "sha256_root_hash"),
                              (case["entries"]["entries"][0], "leaf_input"), (case["growth"], "consistency"),
                              (case["path"], "audit_path")])
    if isinstance(record[key], list):
        record[key] = random_logs.damaged(rng, record[key], [other, case["new"]["sha256_root_hash"]])
    else:
        record[key] = record[key] + 1 if isinstance(record[key], int) else other
    return case


def compare_certificates(rng, go, path, work):
    if not shutil.which("jq"):
        return "skipped, it needs Debian's jq"
    section = (TOP / "docs/FILES.md").read_text().split("## Answers of certificate logs\n")[1].split("\n## ")[0]
    lines = "".join(re.findall(r"^    (.*\n)", section, re.M))
    (work / "fohlazu").symlink_to(path)
    environment, counts = {**os.environ, "PATH": f"{work}:{os.environ['PATH']}"}, Counter()
    for whole in certificate_cases():
        for case in whole, changed(rng, whole):
            for name, answer in case.items():
                (work / f"{name}.json").write_text(json.dumps(answer))
            ran = subprocess.run(["sh", "-euc", lines], cwd=work, env=environment, capture_output=True, text=True)
            found = None if ran.returncode else ((work / "next").read_bytes(), (work / "verified").read_bytes())
            old, new, growth, entries, proof = case.values()
            entry = b64decode(entries["entries"][0]["leaf_input"])
            sizes = [head["tree_size"] for head in (old, new)]
            roots = [b64decode(head["sha256_root_hash"]) for head in (old, new)]
            growth, digests = ([*map(b64decode, found)] for found in (growth["consistency"], proof["audit_path"]))
            questions = [("consistency", *sizes, growth, *roots),
                         ("inclusion", proof["leaf_index"], sizes[1], logs.leaf_hash(entry), digests, roots[1])]
            is_accepted = all(is_accepted_by_model(*question) for question in questions)
            expected = (log_texts.checkpoint_text(b"log.example", sizes[1], roots[1]), entry) if is_accepted else None
            check(found == expected and ran.returncode < 2 and (is_accepted or case is not whole), case, ran, found)
            if case is whole:
                check(None not in [go.ask(*question) for question in questions], "Go refuses", case)
            counts["accepted" if expected else "refused"] += 1
    return counts


class Scripts:
    """fohlazu-sign and fohlazu-open beside note.Sign and note.Open."""

    def __init__(self, rng, go, folder):
        self.rng = rng
        self.go = go
        self.folder = folder
        self.notes = Notes(rng, go, folder)
        self.is_inside = False
        self.counts = Counter()

    def run(self, name, *words, data=b""):
        """The status, what a script prints, and what it says: a refusal is one line on standard error."""
        if self.is_inside:
            status, printed, said = run_inside(TOP / "share" / name, words, data)
        else:
            ran = subprocess.run([sys.executable, TOP / "share" / name, *words], input=data, capture_output=True)
            status, printed, said = ran.returncode, ran.stdout, ran.stderr
        is_line = said.startswith(f"{name}: ".encode()) and said.find(b"\n") == len(said) - 1
        check(is_line or not status, name, words, data, "says", said)
        return status, printed, said

    def try_signing(self):
        """A text is signed, with the signatures that are there; one by the same key is replaced."""
        key = self.notes.key()
        found = self.run("fohlazu-sign", "-p", key.path, key.name)
        check(found == (0, f"{key.vkey}\n".encode(), b""), found, key.vkey)
        others = [key, self.notes.key(key.name), self.notes.key()]
        signers = [other.skey for other in self.rng.sample(others, self.rng.randrange(4))]
        text = self.notes.text(key.name)
        note = self.go.ask("sign", text, *signers) if signers else text
        found, expected = self.run("fohlazu-sign", key.path, data=note), self.go.ask("sign", note, key.skey)
        check(found == (0, expected, b"") and self.go.ask("open", key.vkey, expected) == text, note, found, expected)
        found = self.run("fohlazu-sign", key.path, data=b"\xef\xbb\xbf" + text)
        check(found[:2] == (1, b"") and b"byte order mark" in found[2], "a byte order mark is signed", found)
        self.counts["signed"] += 1

    def compare(self, what, vkey, note):
        """A note is opened if Go opens it."""
        text, found = self.go.ask("open", vkey, note), self.run("fohlazu-open", vkey, data=note)
        is_right = found[0] > 0 and found[1] == b"" if text is None else found[:2] == (0, text)
        is_known = {"whole": text is not None}.get(what, text is None or not what.startswith("a byte"))
        check(is_right and is_known, what, vkey, note, found, "Go:", text)
        self.counts[what, "refused" if text is None else "opened"] += 1

    def try_cosigned(self):
        """A witness's cosignature is opened, and none with a changed byte."""
        time, name = self.rng.getrandbits(self.rng.randint(1, 63)), self.notes.letters()
        key = Key(self.folder / "witness", name, self.rng.randbytes(32), COSIGNED)
        text = self.notes.text(self.notes.letters())
        note = text + b"\n" + key.line(text, time)
        found = self.run("fohlazu-open", key.vkey, data=note)
        check(found == (0, text, b"fohlazu-open: time %d\n" % time), note, key.vkey, found)
        for at in self.rng.sample(range(len(note)), 10):
            found = self.run("fohlazu-open", key.vkey, data=self.notes.changed(note, at))
            check(found[:2] == (1, b""), "byte", at, "does not matter in", note)
        self.counts["cosigned"] += 1


def further_notes(rng, folder, count, *peers):
    """So many further texts and notes."""
    scripts = Scripts(rng, peer(folder, *peers), folder)
    scripts.is_inside, before = True, open_files()
    for _ in range(count):
        scripts.try_signing()
    for case in scripts.notes.cases(count, 0, count // 10):
        scripts.compare(*case)
    check(open_files() == before, "the scripts leave files open")
    return scripts.counts


def compare_notes(rng, go, folder, more, peers):
    if not shutil.which("openssl"):
        return "skipped, it needs openssl"
    scripts = Scripts(rng, go, folder)
    for _ in range(COSIGNATURES):
        scripts.try_signing()
        scripts.try_cosigned()
    for case in scripts.notes.cases(COSIGNATURES, 0, COSIGNATURES):
        scripts.compare(*case)
    scripts.is_inside = True
    for _ in range(SIGNED):
        scripts.try_signing()
    for case in scripts.notes.cases(SIGNED, BYTEWISE, DAMAGED):
        scripts.compare(*case)
    return scripts.counts + in_chunks(rng, further_notes, more, *peers)


def main():
    has_notes, has_proofs, is_both = (word in sys.argv[1:] for word in PARTS)
    is_all = has_notes == has_proofs
    sys.argv[1:] = [word for word in sys.argv[1:] if word not in PARTS]
    is_quick, numbers = arguments(lambda numbers: len(numbers) in (0, 2))
    count, seed = numbers or (100000, 1)
    missing = golang.skipped()
    with tempfile.TemporaryDirectory() as folder:
        folder = Path(folder)
        peers = None if missing else build(folder), is_both
        go = peer(folder, *peers)
        if missing:
            print(f"peers: Go is {missing}: reference.py takes its place")

        def part(name, call, *words):
            found = call(Random(f"{seed} {name}"), *words)
            print(f"peers: {name}: {found if isinstance(found, str) else counted(found)}", flush=True)

        if is_all:
            part("verdicts", compare_verdicts, go, count)
            part("answers", compare_answers, built(is_quick, "test_log"), go, count)
        if has_proofs or is_all:
            part("fohlazu", in_chunks, exchange, count // (50 if is_all else 2), built(is_quick), *peers)
        if is_all:
            part("certificates", compare_certificates, go, built(is_quick), folder)
        if has_notes or is_all:
            part("notes", compare_notes, go, folder, 0 if is_all else count, peers)


run_script(main)
