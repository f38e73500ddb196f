"""Inputs of the scripts that are longer than they may be: each is refused at its first byte above the limit, from a
file, a pipe and a device without end. That takes at most 8 MiB and 0.1 s of the processor more than `--help`. So is what
a server without end answers to fohlazu-daily, beyond what a short answer takes."""

import http.server
import os
import subprocess
import sys
import threading
from collections import Counter

from parties import ORIGIN, SHARE, script
from running import Program
from script import TOP, check, counted

NOTE, PROOF = 10**6, 1002860
HELD, SECONDS = 8 << 20, 0.1
# A busy machine may take longer, so the least time of a few runs counts.
RUNS = 3
REST = b"not read"


def commands(folder, operator):
    """Words with an input LONG, the exit status, the limit, and what is said of the input."""
    vkey, key = operator.vkey, str(operator.key.path)
    verifier = str(TOP / "python/fohlazu.py")
    return [
        (["fohlazu-open", vkey], 1, NOTE, "the note has more than"),
        (["fohlazu-open", "-p", "LONG"], 2, NOTE, "LONG has more than"),
        (["fohlazu-sign", key], 1, NOTE, "the text has more than"),
        (["fohlazu-follow", "kept", vkey, "LONG"], 1, PROOF, "LONG is no growth proof: it has more than"),
        (["fohlazu-follow", "kept", "-p", "policy", "LONG"], 1, PROOF, "LONG is no growth proof: it has more than"),
        ([verifier, "verify", "LONG", "proof"], 2, NOTE, "LONG: it has more than"),
        ([verifier, "verify-consistency", "LONG", "proof"], 2, NOTE, "LONG: it has more than"),
        ([verifier, "verify-consistency", "checkpoint", "LONG"], 1, PROOF, "LONG: it has more than"),
    ]


class Limited:
    """Scripts that run in a folder, with what each takes for `--help`."""

    def __init__(self, folder):
        self.python = Program(sys.executable, folder)
        self.least = {}

    def measured(self, words, data=subprocess.DEVNULL):
        # The time and memory of the program fohlazu and of openssl count, too.
        return self.python.measured(["-S", str(SHARE / words[0]), *words[1:]], {}, data)

    def refuses(self, words, data, status, said):
        if words[0] not in self.least:
            self.least[words[0]] = self.measured([words[0], "--help"])
        least = self.least[words[0]]
        for _ in range(RUNS):
            ran = self.measured(words, data)
            check((ran.status, ran.printed) == (status, b"") and said.encode() in ran.said, words, "says", ran, "not", said)
            if ran.held <= least.held + HELD and ran.seconds <= least.seconds + SECONDS:
                return
        check(False, words, "takes", ran.held, "bytes and", ran.seconds, "s, --help", least.held, least.seconds)


def try_without_end(limited, words, status, limit, said, counts):
    """A file, a device and a pipe: what is named LONG, or else standard input."""
    is_named = "LONG" in words
    for name in "sparse", "/dev/zero", "-":
        if name == "-" and words[-1] == "LONG" and words[-2] == "-p":
            name = "/dev/stdin"
        named = [name if word == "LONG" else word for word in words]
        shown = "standard input" if (words[0], name) == ("fohlazu-follow", "-") else name
        line = f"{said.replace('LONG', shown)} {limit} bytes"
        if is_named or name == "-":
            with subprocess.Popen("yes", stdout=subprocess.PIPE) as endless:
                limited.refuses(named, endless.stdout, status, line)
                endless.stdout.close()
        else:
            with open(limited.python.folder / name, "rb") as file:
                limited.refuses(named, file, status, line)
        counts["refused at its limit"] += 1


def try_one_above(limited, words, status, limit, counts):
    """What follows the first byte above a limit is left in a pipe, whose other end stays open."""
    end, start = os.pipe()
    writer = threading.Thread(target=lambda: [os.write(start, piece) for piece in (b"x" * (limit + 1), REST)])
    writer.start()
    named = ["/dev/stdin" if word == "LONG" and before == "-p" else "-" if word == "LONG" else word
             for before, word in zip(["", *words], words)]
    ran = limited.measured(named, end)
    writer.join()
    os.close(start)
    left = os.read(end, 1 << 16)
    os.close(end)
    check(ran.status == status and left == REST, words, "leaves", left[:100], ran)
    counts["leaves the rest in a pipe"] += 1


class WithoutEnd(http.server.BaseHTTPRequestHandler):
    """A server whose answer never ends, but for what is below /short."""

    def answer(self):
        self.send_response(500 if self.path.startswith("/short/") else 200)
        self.end_headers()
        if self.path.startswith("/short/"):
            return
        try:
            while True:
                self.wfile.write(b"x" * (1 << 16))
        except OSError:
            pass

    do_GET = do_POST = answer

    def log_message(self, *_):
        pass


def try_servers(folder, operator, limited, counts):
    """What is published, or a witness, without end: nothing is signed, or the witness is named."""
    server = http.server.ThreadingHTTPServer(("127.0.0.1", 0), WithoutEnd)
    threading.Thread(target=server.serve_forever, daemon=True).start()
    url = f"http://127.0.0.1:{server.server_port}"
    long = "the answer has more than 1000000 bytes"
    words = [operator.folder / "log", folder / "days", "-k", operator.key.path, "--origin", ORIGIN]
    words += ["--record", folder / "record"]
    try:
        daily = ["fohlazu-daily", *map(str, words), "-u"]
        limited.least[daily[0]] = limited.measured([*daily, f"{url}/short"])
        limited.refuses([*daily, url], subprocess.DEVNULL, 2,
                        f"nothing is signed: {url}/checkpoint cannot be fetched: {long}")
        check(not (folder / "days").exists() and not (folder / "record").exists(), "something is signed")
        ran = script("fohlazu-daily", *words, "-w", url)
        check(ran.returncode == 0 and f"; {url}: {long}".encode() in ran.stdout, ran)
        counts["servers without end"] += 2
    finally:
        server.shutdown()
        server.server_close()


def try_endless(folder, operator, checkpoint, growth):
    counts = Counter()
    limited = Limited(folder)
    (folder / "kept").mkdir()
    for name, data in ("checkpoint", checkpoint), ("proof", growth):
        (folder / name).write_bytes(data)
    (folder / "policy").write_text(f"log {operator.vkey}\nquorum none\n")
    with (folder / "sparse").open("wb") as file:
        file.truncate(4 << 30)
    for words, status, limit, said in commands(folder, operator):
        try_without_end(limited, words, status, limit, said, counts)
        try_one_above(limited, words, status, limit, counts)
    check(not any((folder / "kept").iterdir()), "something is kept")
    try_servers(folder, operator, limited, counts)
    return counted(counts)
