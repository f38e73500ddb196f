"""What tests/peers asks of Go's golang.org/x/mod/sumdb, by a second writing of `note` and `tlog` in Python, from memory:
it takes their place where Go is not installed. It shares no line with the scripts of share/, python/fohlazu.py and
tests/model. Its signatures are by the package `cryptography`, or else by openssl."""

import re
from base64 import b64decode, b64encode
from hashlib import sha256
from pathlib import Path

from keys import Key, is_signature

try:
    from cryptography.exceptions import InvalidSignature
    from cryptography.hazmat.primitives.asymmetric.ed25519 import Ed25519PrivateKey, Ed25519PublicKey
except ImportError:
    Ed25519PrivateKey = None

ALGORITHM = b"\1"
TREE = b"go.sum database tree\n"
LARGEST = (1 << 63) - 1
DASH = "\u2014 ".encode()


class Refuses(Exception):
    """Go refuses."""


def need(is_so):
    if not is_so:
        raise Refuses


# ---- note


def decoded(text):
    """Bytes from base64 in the one spelling that Go prints."""
    try:
        found = b64decode(text, validate=True)
    except ValueError:
        raise Refuses from None
    need(b64encode(found) == text)
    return found


def is_valid_name(name):
    try:
        letters = name.decode()
    except UnicodeDecodeError:
        return False
    return letters != "" and "+" not in letters and not any(map(str.isspace, letters))


def key_hash(name, key):
    return sha256(name + b"\n" + key).digest()[:4]


def parse_note(note):
    """The text of a note, and the name, the hash and the base64 of each signature."""
    try:
        letters = note.decode()
    except UnicodeDecodeError:
        raise Refuses from None
    need(all(letter >= " " or letter == "\n" for letter in letters))
    at = note.rfind(b"\n\n")
    need(at >= 0 and note[at + 2:] and note.endswith(b"\n"))
    lines = note[at + 2:-1].split(b"\n")
    need(len(lines) <= 100)
    return note[:at + 1], [parse_signature(line) for line in lines]


def parse_signature(line):
    need(line.startswith(DASH))
    name, _, text = line[len(DASH):].partition(b" ")
    need(is_valid_name(name) and len(decoded(text)) >= 5)
    return name, decoded(text)[:4], text


class Reference:
    """Answers as the program of sumdb.go."""

    def __init__(self, folder):
        self.folder = Path(folder)
        # The hashes of whole subtrees of 1, 2, 4 and so on of the entries 1, 2, 3 ..
        self.levels = [[]]

    def ask(self, kind, *words):
        """The answer to a question, or None where Go refuses. A proof is a list."""
        words = [b"".join(word) if isinstance(word, list) else word for word in words]
        words = [word if isinstance(word, bytes) else str(word).encode() for word in words]
        try:
            return getattr(self, kind)(*words)
        except Refuses:
            return None

    # ---- Keys and notes

    def signer(self, seed):
        """The key of a seed: its public key, and its signature of a message."""
        if Ed25519PrivateKey:
            key = Ed25519PrivateKey.from_private_bytes(seed)
            return key.public_key().public_bytes_raw(), key.sign
        key = Key(self.folder / "reference key", "reference", seed)
        return key.public, key.signature

    def verifies(self, public, message, signature):
        if len(signature) != 64:
            return False
        if not Ed25519PrivateKey:
            return is_signature(self.folder, public, message, signature)
        try:
            Ed25519PublicKey.from_public_bytes(public).verify(signature, message)
        except InvalidSignature:
            return False
        return True

    def public(self, seed):
        return self.signer(seed)[0]

    def sign(self, note, *keys):
        try:
            text, signatures = parse_note(note)
        except Refuses:
            text, signatures = note, []
        need(text.endswith(b"\n"))
        new = []
        for key in keys:
            name, _, raw = key.removeprefix(b"PRIVATE+KEY+").split(b"+", 2)
            public, signs = self.signer(b64decode(raw)[1:])
            identity = key_hash(name, ALGORITHM + public)
            need(is_valid_name(name))
            new.append((name, identity, b64encode(identity + signs(text))))
        have = {(name, identity) for name, identity, _ in new}
        # Repeated signatures that are not verified are dropped.
        old = [found for found in dict.fromkeys(signatures) if found[:2] not in have]
        return text + b"\n" + b"".join(DASH + name + b" " + raw + b"\n" for name, _, raw in [*old, *new])

    def open(self, vkey, note):
        found = re.fullmatch(rb"([^+]+)\+([0-9a-f]{8})\+(.*)", vkey, re.S)
        need(found)
        name, identity, key = found[1], bytes.fromhex(found[2].decode()), decoded(found[3])
        need(is_valid_name(name) and identity == key_hash(name, key))
        need(len(key) == 33 and key[:1] == ALGORITHM)
        text, signatures = parse_note(note)
        mine = [b64decode(raw)[4:] for signer, known, raw in signatures if (signer, known) == (name, identity)]
        # The first signature by the key decides.
        need(mine and self.verifies(key[1:], text, mine[0]))
        return text

    # ---- tlog

    def checkpoint(self, size, root):
        return TREE + size + b"\n" + b64encode(root) + b"\n"

    def tree(self, note):
        text, _ = parse_note(note)
        need(b"\n\n" not in text and text.startswith(TREE) and text.count(b"\n") >= 3 and len(text) <= 10**6)
        _, size, root = text.split(b"\n")[:3]
        need(re.fullmatch(b"0|[1-9][0-9]{0,18}", size) and int(size) <= LARGEST and len(decoded(root)) == 32)
        return size + b" " + root

    def inclusion(self, index, size, leaf, proof, root):
        index, size = int(index), int(size)
        need(0 <= index < size)
        need(root_of_record(digests(proof), 0, size, index, leaf) == root)
        return b""

    def consistency(self, old, size, proof, old_root, root):
        old, size = int(old), int(size)
        need(1 <= old <= size)
        need(roots_of_tree(digests(proof), 0, size, old, old_root) == (old_root, root))
        return b""

    def prove(self, kind, number, size):
        number, size = int(number), int(size)
        self.grow(size)
        if kind == b"root":
            return self.hash(0, size)
        if kind == b"inclusion":
            need(0 <= number < size)
            return b"".join(self.record_proof(0, size, number))
        need(1 <= number <= size)
        return b"".join(self.tree_proof(0, size, number))

    def grow(self, size):
        """Stores the hashes of whole subtrees, up to so many entries."""
        for entry in range(len(self.levels[0]) + 1, size + 1):
            self.levels[0].append(sha256(b"\0%d" % entry).digest())
            level = 0
            while len(self.levels[level]) % 2 == 0:
                if level + 1 == len(self.levels):
                    self.levels.append([])
                self.levels[level + 1].append(node(*self.levels[level][-2:]))
                level += 1

    def hash(self, low, high):
        count = high - low
        if count & (count - 1) == 0 and low % count == 0:
            return self.levels[count.bit_length() - 1][low // count]
        middle = low + largest_power(count)
        return node(self.hash(low, middle), self.hash(middle, high))

    def record_proof(self, low, high, index):
        if low + 1 == high:
            return []
        middle = low + largest_power(high - low)
        if index < middle:
            return [*self.record_proof(low, middle, index), self.hash(middle, high)]
        return [*self.record_proof(middle, high, index), self.hash(low, middle)]

    def tree_proof(self, low, high, old):
        if old == high:
            return [self.hash(low, high)] if low else []
        middle = low + largest_power(high - low)
        if old <= middle:
            return [*self.tree_proof(low, middle, old), self.hash(middle, high)]
        return [*self.tree_proof(middle, high, old), self.hash(low, middle)]


def node(left, right):
    return sha256(b"\1" + left + right).digest()


def digests(data):
    return [data[at:at + 32] for at in range(0, len(data), 32)]


def largest_power(count):
    """The largest power of two below a count."""
    return 1 << (count - 1).bit_length() - 1


def root_of_record(proof, low, high, index, leaf):
    if low + 1 == high:
        need(not proof)
        return leaf
    need(proof)
    middle = low + largest_power(high - low)
    if index < middle:
        return node(root_of_record(proof[:-1], low, middle, index, leaf), proof[-1])
    return node(proof[-1], root_of_record(proof[:-1], middle, high, index, leaf))


def roots_of_tree(proof, low, high, old, old_root):
    if old == high:
        need(len(proof) == (1 if low else 0))
        return (proof[0],) * 2 if low else (old_root,) * 2
    need(proof)
    middle = low + largest_power(high - low)
    if old <= middle:
        first, whole = roots_of_tree(proof[:-1], low, middle, old, old_root)
        return first, node(whole, proof[-1])
    first, whole = roots_of_tree(proof[:-1], middle, high, old, old_root)
    return node(proof[-1], first), node(proof[-1], whole)
