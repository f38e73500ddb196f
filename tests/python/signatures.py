"""Signed notes: `verify_note` and `--key` of python/fohlazu.py beside Go's note.Open and `openssl pkeyutl -verify`."""

import base64
import importlib.util
import shutil
import subprocess
import sys
from collections import Counter

import fohlazu
import golang
from keys import Key, is_signature
from notes import Notes, Sumdb, build
from reference import Reference
from script import check, counted

BY_OPENSSL = 60


def opened(vkey, note):
    """The text of a note, or None if it is refused."""
    try:
        return fohlazu.verify_note(note, vkey)
    except fohlazu.Refused:
        return None


def compare_openssl(rng, work):
    """Texts and signatures, as they are or with one bit changed."""
    for number in range(BY_OPENSSL):
        key, text = Key(work / "key", "log.example", rng.randbytes(32)), b"log.example\n%d\n" % rng.getrandbits(99)
        text, signature = bytearray(text), bytearray(key.signature(text))
        if number % 2:
            place = rng.choice([text, signature])
            place[rng.randrange(len(place) - 1)] ^= 1 << rng.randrange(5)
        is_signed = is_signature(work, key.public, text, signature)
        line = f"\n\u2014 log.example {base64.b64encode(key.id + signature).decode()}\n".encode()
        found = opened(key.vkey, bytes(text) + line)
        check(is_signed == (number % 2 == 0) and found == (text if is_signed else None), text, line, found, is_signed)
    return f"{BY_OPENSSL} as openssl"


def compare_go(rng, work):
    """Notes, whole and damaged. Where Go is not installed, its second writing in Python takes its place."""
    beside = "beside reference.py" if golang.skipped() else "beside Go"
    go, counts = Reference(work) if golang.skipped() else Sumdb(build(work)), Counter()
    for what, vkey, note in Notes(rng, go, work).cases(200, 2, 2000):
        expected, found = go.ask("open", vkey, note), opened(vkey.decode(errors="surrogateescape"), note)
        check(found == expected and (found or what != "whole"), what, vkey, note, found, "Go:", expected)
        counts[beside, "refused" if found is None else "opened"] += 1
    return counted(counts)


def compare_commands(rng, work, program, texts, answer_of):
    """`--key` of both commands: what they print without it, if each key signed the checkpoint."""
    keys = [Key(work / name, name, rng.randbytes(32)) for name in ("a", "w")]
    lines, (vkey, second) = [key.line(texts["c"]) for key in keys], [key.vkey for key in keys]
    note, both = (b"\n".join([texts["c"], line]) for line in (lines[0], lines[0] + lines[1]))
    old, new = texts["g"].split(b"\n\n", 1)[0], b"\n\n"
    for signed, keys, status in [
        (note, [vkey], 0), (both, [vkey], 0), (both, [vkey, second], 0), (note, [vkey, second], 1),
        (note, [second], 1), (texts["c"], [vkey], 1), (note.replace("\u2014".encode(), b"-"), [vkey], 1),
        (note[:-4] + b"AA==\n", [vkey], 1), (note, ["a"], 2), (note, [vkey + "A"], 2), (note, [vkey[:-2]], 2),
    ]:
        options = [word for key in keys for word in ("--key", key)]
        for words, contents in [
            (["verify", "c", "p", "1"], {"c": signed, "p": texts["p"]}),
            (["verify-consistency", "c", "g"], {"c": texts["c"], "g": old + new + signed}),
        ]:
            expected, found = program.run(words, contents), answer_of([words[0], *options, *words[1:]])
            printed = b"" if status else expected.printed
            is_right = found.status == max(status, expected.status) and found.printed == printed
            check(is_right and bool(found.said) == (status > 0), options, words, contents, found, expected)
    return "--key of both commands"


def compare_signatures(rng, work, path, program, texts, answer_of):
    for command in "verify", "verify-consistency":  # -S leaves out what is installed
        ran = subprocess.run([sys.executable, "-I", "-S", path, command, "--key", "x", "c", "p"], capture_output=True)
        said = b"fohlazu: `--key` needs the package `cryptography`, which is not installed\n"
        check((ran.returncode, ran.stdout, ran.stderr) == (2, b"", said), "without the package", ran)
    if not importlib.util.find_spec("cryptography") or not shutil.which("openssl"):
        return "skipped, they need Debian's python3-cryptography and openssl"
    commands = compare_commands(rng, work, program, texts, answer_of)
    return f"{compare_openssl(rng, work)}; {compare_go(rng, work)}; {commands}"
