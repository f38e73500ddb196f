"""A witness on loopback, by C2SP's tlog-witness and tlog-cosignature from memory, with openssl and the tests' model: it
cosigns a checkpoint of a log that it knows, if the log only grew since the last one that it cosigned."""

import http.server
import threading
from base64 import b64decode

import log_texts
import logs
from keys import COSIGNED, Key, is_signature


class Witness:
    """Its key, the verifier keys of the logs that it knows by their origins, and the last size and root of each."""

    def __init__(self, folder, name, seed, known):
        self.folder = folder
        self.known = known
        self.last = {}
        self.time = 1_700_000_000
        self.key = Key(folder / "key", name, seed, COSIGNED)

    def is_signed(self, text, signatures, vkey):
        """Whether a line of signatures is by a log's key."""
        name, key_id, key = vkey.encode().split(b"+", 2)
        for line in signatures.splitlines():
            _, signer, raw = line.split(b" ")
            raw = b64decode(raw)
            if (signer, raw[:4].hex().encode()) == (name, key_id):
                return is_signature(self.folder, b64decode(key)[1:], text, raw[4:])
        return False

    def answer(self, body):
        """The status, the type and the text of the answer to add-checkpoint."""
        try:
            old, digests, note = log_texts.consistency(body)
            origin, size, root = log_texts.checkpoint(note)
        except log_texts.Wrong:
            return 400, "text/plain", b"malformed\n"
        text, _, signatures = note.rpartition(b"\n\n")
        if origin.decode() not in self.known:
            return 404, "text/plain", b"unknown origin\n"
        if not text or not self.is_signed(text + b"\n", signatures, self.known[origin.decode()]):
            return 403, "text/plain", b"not signed by a key of this log\n"
        if old > size:
            return 400, "text/plain", b"the old size is above the new one\n"
        last_size, last_root = self.last.get(origin, (0, logs.EMPTY_ROOT))
        if old != last_size or size == last_size and root != last_root:
            return 409, "text/x.tlog.size", b"%d\n" % last_size
        if logs.consistency(old, size, digests, last_root, root) != logs.ACCEPTED:
            return 422, "text/plain", b"the proof fails\n"
        self.last[origin] = size, root
        self.time += 1
        return 200, "text/plain", self.key.line(text + b"\n", self.time)

    def serve(self, port=0):
        """A server on a port of this machine, or a free one, in a thread of its own. The caller stops it."""
        witness = self

        class Handler(http.server.BaseHTTPRequestHandler):
            def do_POST(self):
                status, kind, text = witness.answer(self.rfile.read(int(self.headers["Content-Length"])))
                self.send_response(status)
                self.send_header("Content-Type", kind)
                self.end_headers()
                self.wfile.write(text)

            def log_message(self, *_):
                pass

        server = http.server.HTTPServer(("127.0.0.1", port), Handler)
        threading.Thread(target=server.serve_forever, daemon=True).start()
        return server
