#!/usr/bin/env python3
"""another_witness.py FOLDER NAME VKEY..    a witness of another hand, on loopback

It was written from C2SP's words alone (signed-note, tlog-checkpoint, tlog-witness and tlog-cosignature, from memory):
it shares no line with the scripts of share/, with tests/model or with the other witness, and takes Python's standard
library and openssl. It cosigns checkpoints of the logs whose verifier keys are VKEY.. if they only grew. FOLDER has its
key, and a file for each log with the count and the root that it cosigned last, so it may be stopped and started.

It prints its verifier key and its port, each in a line, and then answers POST /add-checkpoint until it is stopped.
"""

import base64
import hashlib
import os
import re
import subprocess
import sys
import tempfile
import time
from http.server import BaseHTTPRequestHandler, HTTPServer
from pathlib import Path

# DER ahead of a public key of Ed25519.
SPKI = bytes.fromhex("302a300506032b6570032100")
LARGEST = 1 << 20


class Answer(Exception):
    """A status of HTTP, and a line."""


def sha256(*parts):
    return hashlib.sha256(b"".join(parts)).digest()


# ---- Keys


def openssl(*words):
    return subprocess.run(["openssl", *map(str, words)], stdin=subprocess.DEVNULL, capture_output=True)


class Log:
    """A log by its verifier key, NAME+ID+base64 of a byte 1 and the public key."""

    def __init__(self, vkey):
        name, self.id, key = vkey.split("+", 2)
        self.name = name.encode()
        self.key = base64.b64decode(key)
        assert self.key[0] == 1 and sha256(self.name, b"\n", self.key)[:4].hex() == self.id, vkey

    def signed(self, text, signature):
        """Whether a signature of 64 bytes is by this log and of this text."""
        with tempfile.TemporaryDirectory() as folder:
            paths = [Path(folder, name) for name in ("key", "text", "signature")]
            for path, data in zip(paths, (SPKI + self.key[1:], text, signature)):
                path.write_bytes(data)
            return openssl("pkeyutl", "-verify", "-rawin", "-pubin", "-keyform", "DER", "-inkey", paths[0],
                           "-in", paths[1], "-sigfile", paths[2]).returncode == 0


# ---- RFC 9162: consistency proofs, by the recursion that makes them (2.1.4.1)


def both_roots(old, size, digests, old_root):
    """The roots of the first `old` entries and of all, as a proof has them. It is used up, or it is a wrong one."""
    left = list(digests)

    def take():
        if not left:
            raise Answer(422, "the proof is too short")
        return left.pop(0)

    def sub(m, n, is_whole):
        if m == n:
            root = old_root if is_whole else take()
            return root, root
        k = 1 << (n - 1).bit_length() - 1
        if m <= k:
            before, after = sub(m, k, is_whole)
            return before, sha256(b"\1", after, take())
        before, after = sub(m - k, n - k, False)
        whole = take()
        return sha256(b"\1", whole, before), sha256(b"\1", whole, after)

    found = sub(old, size, True)
    if left:
        raise Answer(422, "the proof is too long")
    return found


def check_growth(old, old_root, size, root, digests):
    """Refuses what does not show that a log only grew."""
    if old == 0 or old == size:
        if digests:
            raise Answer(422, "there is a proof where none is needed")
    elif both_roots(old, size, digests, old_root) != (old_root, root):
        raise Answer(422, "the proof does not lead from the old root to the new one")


# ---- Texts


def read_number(line):
    if not re.fullmatch(rb"0|[1-9][0-9]{0,18}", line):
        raise Answer(400, "a number is malformed")
    return int(line)


def read_base64(line):
    try:
        found = base64.b64decode(line, validate=True)
    except ValueError:
        found = b""
    if base64.b64encode(found) != line:
        raise Answer(400, "a line is no base64")
    return found


def read_digest(line):
    found = read_base64(line)
    if len(found) != 32:
        raise Answer(400, "a digest has another length")
    return found


def read_body(body):
    """The old count, the digests, the checkpoint's text and the lines of its signatures."""
    head, blank, note = body.partition(b"\n\n")
    text, second, signatures = note.rpartition(b"\n\n")
    lines = head.split(b"\n")
    if not blank or not second or b"\n\n" in text or not lines[0].startswith(b"old ") or not note.endswith(b"\n"):
        raise Answer(400, "the request is malformed")
    digests = [read_digest(line) for line in lines[1:]]
    if len(digests) > 63:
        raise Answer(400, "the proof has too many lines")
    return read_number(lines[0][4:]), digests, text + b"\n", signatures.split(b"\n")[:-1]


class Witness:
    """The witness: its key, and the logs that it knows by their names."""

    def __init__(self, folder, name, vkeys):
        self.folder = Path(folder)
        self.name = name.encode()
        self.logs = {log.name: log for log in map(Log, vkeys)}
        self.private = self.folder / "key.pem"
        if not self.private.exists():
            openssl("genpkey", "-algorithm", "ed25519", "-out", self.private)
        public = openssl("pkey", "-in", self.private, "-pubout", "-outform", "DER").stdout[len(SPKI):]
        self.id = sha256(self.name, b"\n\4", public)[:4]
        self.vkey = f"{name}+{self.id.hex()}+{base64.b64encode(bytes([4]) + public).decode()}"

    def state(self, log):
        return self.folder / f"log {log.id}"

    def cosign(self, text):
        """The line of a cosignature."""
        now = int(time.time())
        message = self.folder / "message"
        message.write_bytes(b"cosignature/v1\ntime %d\n" % now + text)
        signed = openssl("pkeyutl", "-sign", "-rawin", "-inkey", self.private, "-in", message).stdout
        raw = self.id + now.to_bytes(8, "big") + signed
        return "\u2014 ".encode() + self.name + b" " + base64.b64encode(raw) + b"\n"

    def check_signed(self, log, text, lines):
        """Refuses a checkpoint that the log did not sign."""
        for line in lines:
            words = line.split(b" ")
            if len(words) == 3 and words[:2] == ["\u2014".encode(), log.name]:
                raw = read_base64(words[2])
                if raw[:4].hex() == log.id and log.signed(text, raw[4:]):
                    return
        raise Answer(403, "no known key of this log signed the checkpoint")

    def add(self, body):
        """The cosignature of a checkpoint, if its log only grew."""
        old, digests, text, lines = read_body(body)
        origin, count, root = (text.split(b"\n") + [b"", b""])[:3]
        if origin not in self.logs:
            raise Answer(404, "the log is unknown")
        log = self.logs[origin]
        self.check_signed(log, text, lines)
        size, root = read_number(count), read_digest(root)
        if old > size:
            raise Answer(400, "the old size is larger than the new one")
        state = self.state(log)
        known, known_root = 0, sha256()
        if state.exists():
            first, second = state.read_bytes().split()
            known, known_root = int(first), base64.b64decode(second)
        if old != known or old == size and root != known_root:
            raise Answer(409, str(known))
        check_growth(old, known_root, size, root, digests)
        beside = state.with_suffix(".next")
        with open(beside, "wb") as file:
            file.write(b"%d %s\n" % (size, base64.b64encode(root)))
            file.flush()
            os.fsync(file.fileno())
        os.replace(beside, state)
        return self.cosign(text)


class Handler(BaseHTTPRequestHandler):
    """Requests of HTTP, one after another."""

    def do_POST(self):
        length = self.headers.get("Content-Length", "")
        kind = "text/plain; charset=utf-8"
        try:
            if self.path != "/add-checkpoint" or not length.isdigit() or int(length) > LARGEST:
                raise Answer(400, "expected a POST of at most 1 MiB to /add-checkpoint")
            status, text = 200, witness.add(self.rfile.read(int(length)))
        except Answer as answer:
            status, said = answer.args
            kind = "text/x.tlog.size" if status == 409 else kind
            text = said.encode() + b"\n"
        self.send_response(status)
        self.send_header("Content-Type", kind)
        self.send_header("Content-Length", str(len(text)))
        self.end_headers()
        self.wfile.write(text)

    def log_message(self, *_):
        pass


if __name__ == "__main__":
    if len(sys.argv) < 4:
        sys.exit(__doc__)
    witness = Witness(*sys.argv[1:3], sys.argv[3:])
    server = HTTPServer(("127.0.0.1", int(os.environ.get("PORT", "0"))), Handler)
    print(witness.vkey, server.server_port, sep="\n", flush=True)
    server.serve_forever()
