"""What the scripts show on a terminal of names that have C1 and bidirectional controls in them: these as \\u{9b} and so
on, in outputs and in refusals. In a file a note has its bytes."""

import os
import pty
import re
import subprocess
import sys
from collections import Counter

import log_texts
import logs
from keys import COSIGNED, Key
from parties import SECONDS, SHARE
from script import check, counted

# U+0085 is a space of Unicode, which no name has.
CONTROLS = [*range(0x80, 0x85), *range(0x86, 0xa0), *range(0x202a, 0x202f), *range(0x2066, 0x206a)]
NAME = "ledger." + "".join(map(chr, CONTROLS))
OBEYED = re.compile("[\0-\x09\x0b\x0c\x0e-\x1f\x7f-\x9f\u202a-\u202e\u2066-\u2069]")


def on_terminal(name, *words, data=b""):
    """The status of a script, and what a terminal gets that is its standard output and standard error."""
    ours, theirs = pty.openpty()
    with subprocess.Popen([sys.executable, "-S", SHARE / name, *map(str, words)], stdin=subprocess.PIPE, stdout=theirs,
                          stderr=theirs) as process:
        os.close(theirs)
        process.stdin.write(data)
        process.stdin.close()
        shown = b""
        while True:
            try:
                piece = os.read(ours, 1 << 16)
            except OSError:  # the terminal is closed
                piece = b""
            if not piece:
                break
            shown += piece
        os.close(ours)
        return process.wait(SECONDS), shown.decode()


def try_terminals(folder, source):
    counts = Counter()
    key, other = (Key(folder / name, NAME, source.randbytes(32)) for name in ("key", "other"))
    witness = Key(folder / "witness", NAME, source.randbytes(32), COSIGNED)
    lines = [b"1", b"2"]
    text = log_texts.checkpoint_text(NAME.encode(), 2, logs.Log(lines).root(0, 2))
    note = text + b"\n" + key.line(text) + witness.line(text, 7)
    log, policy, malformed, kept = (folder / name for name in ("log", "policy", "malformed", "kept"))
    log.write_bytes(b"1\n2\n")
    policy.write_text(f"log {key.vkey}\nwitness {NAME} {witness.vkey}\nquorum {NAME}\n")
    malformed.write_text(f"log {key.vkey}\nwitness {NAME} {witness.vkey}\nwitness {NAME} {other.vkey}\n")
    kept.mkdir()
    daily = [log, folder / "days", "-k", key.path]
    first = folder / "days/from-0.growth"
    for status, words, data in [
        (0, ["fohlazu-sign", key.path], text), (0, ["fohlazu-sign", "-p", key.path, NAME], b""),
        (0, ["fohlazu-open", key.vkey], note), (0, ["fohlazu-open", "-p", policy], note),
        (2, ["fohlazu-open", "-p", malformed], note), (2, ["fohlazu-open", "-p", folder / f"no {NAME}"], note),
        (2, ["fohlazu-sign", folder / f"no {NAME}"], text),
        (0, ["fohlazu-daily", *daily, "--origin", NAME], b""), (0, ["fohlazu-daily", *daily], b""),
        (2, ["fohlazu-daily", *daily, "--origin", f"no {NAME}"], b""),
        (2, ["fohlazu-daily", folder / f"no {NAME}", *daily[1:]], b""),
        (0, ["fohlazu-follow", kept, key.vkey, first], b""),
        (0, ["fohlazu-follow", kept, "-p", policy, "-"], note),
        (2, ["fohlazu-follow", kept, key.vkey, folder / f"no {NAME}"], b""),
        (1, ["fohlazu-follow", kept, "-p", policy, "-"], text + b"\n" + other.line(text)),
    ]:
        found, shown = on_terminal(*words, data=data)
        check(found == status and not OBEYED.search(shown), words, "shows", found, ascii(shown))
        counts["shown with escapes" if "\\u{9b}" in shown and "\\u{202e}" in shown else "shown without names"] += 1
    ran = subprocess.run([sys.executable, SHARE / "fohlazu-open", key.vkey], input=note, capture_output=True)
    check(ran.stdout == text, "a pipe gets another text", ran)
    # Without standard output, nothing waits for one that openssl has.
    for name, words, data in ("fohlazu-open", [key.vkey], note), ("fohlazu-sign", [key.path], text):
        ran = subprocess.run([sys.executable, SHARE / name, *words], input=data, stderr=subprocess.PIPE, timeout=SECONDS,
                             preexec_fn=lambda: os.close(1))
        check(ran.returncode == 2 and b"standard output is closed" in ran.stderr, ran)
    return counted(counts)
