"""Verifies proofs of logs by RFC 9162, without the log, by Python's standard library alone.

    fohlazu.py verify [--blocks BYTES | --raw] CHECKPOINT PROOF [NUMBER..]
    fohlazu.py verify-consistency OLD PROOF

The commands answer as those of the proved program fohlazu: docs/FILES.md has them, and the texts that they read. The
calls of `Library` are proved, this file is not: tests/python compares them. What is refused raises `Refused`. Entries
count from 1, indices from 0. What is accepted holds of a log only if the checkpoint is of one. `--key VKEY`, which the
program lacks, checks that this key signed it, or the new one; so does `verify_note`. Both need `cryptography`.

>>> log = parse_checkpoint(b"journal.example\\n3\\n/m6dRgT1eGAoUaLBXvOJTKB7lRf31ffe3CgXnKiIWA0=\\n")
>>> a, b, c = map(leaf_hash, (b"1", b"2", b"3"))
>>> verify_inclusion(2, log.size, c, [node_hash(a, b)], log.root)
>>> verify_entries(log.size, [2, 0, 2], [c, a, c], [b], log.root)
>>> verify_consistency(1, log.size, [b, c], a, log.root)
"""

from __future__ import annotations

import argparse
import base64
import contextlib
import ctypes
import enum
import hashlib
import importlib
import itertools
import os
import re
import sys
from typing import Any, Callable, Iterable, Iterator, Mapping, NamedTuple, Sequence

__version__ = "0.1.0"

# The most entries that a log may have.
MOST_ENTRIES = 1 << 62
# The root of a log of no entries.
EMPTY_ROOT = hashlib.sha256(b"").digest()

Digests = Sequence[bytes]


class Checkpoint(NamedTuple):
    """What is known of a log: its name, the number of its entries, and the root of their tree."""

    origin: str
    size: int
    root: bytes


class Reason(enum.Enum):
    """Why a verifier refuses. The first seven are the statuses 1 to 7 of libfohlazu.so."""

    SIZE_TOO_LARGE = "the size is above 2^62"
    INDEX_PAST_END = "an index is not below the size"
    SMALLER_NEW_SIZE = "the new size is below the old size"
    TOO_FEW_DIGESTS = "the proof has too few digests"
    TOO_MANY_DIGESTS = "the proof has too many digests"
    OLD_ROOT_MISMATCH = "the proof is of another old root"
    ROOT_MISMATCH = "the proof is of another root"
    NO_INDICES = "there are no indices"
    LEAF_COUNT_MISMATCH = "the number of leaf hashes is not that of the indices"
    TWO_LEAF_HASHES = "one index has two leaf hashes"


class Refused(Exception):
    """A proof, a text or a signature is refused; the exception's text says why.

    Attributes:
        reason: the `Reason` of a verifier, or None where a text or a signature is refused.
    """

    def __init__(self, why: Reason | str) -> None:
        super().__init__(why.value if isinstance(why, Reason) else why)
        self.reason = why if isinstance(why, Reason) else None


# ---- RFC 9162: hashes (2.1.1), and verifiers (2.1.3.2, 2.1.4.2) with its names and the numbers of its steps


def leaf_hash(entry: bytes) -> bytes:
    """Hashes an entry.

    Args:
        entry: the bytes of the entry, of any number. A line has no line feed.

    Returns:
        The 32 bytes that stand for the entry in the tree of its log.
    """
    return hashlib.sha256(b"\0" + entry).digest()


def node_hash(left: bytes, right: bytes) -> bytes:
    """Hashes a node of the tree.

    Args:
        left: the hash of the left one of the two nodes below it.
        right: the hash of the right one.

    Returns:
        The 32 bytes of the node's hash.
    """
    return hashlib.sha256(b"\1" + left + right).digest()


def verify_inclusion(index: int, size: int, leaf: bytes, proof: Digests, root: bytes) -> None:
    """Verifies that a log has an entry, by RFC 9162's inclusion proof.

    Args:
        index: the position of the entry, from 0.
        size: the number of the log's entries.
        leaf: the leaf hash of the entry.
        proof: the digests of the proof, from the leaf up.
        root: the root of the log.

    Raises:
        Refused: the proof does not show it. The reason is the first of these that applies: SIZE_TOO_LARGE,
            INDEX_PAST_END, TOO_MANY_DIGESTS, TOO_FEW_DIGESTS, ROOT_MISMATCH.
        ValueError: a number is below 0, or a digest has not 32 bytes.
    """
    check_question(size, [index, size], [leaf, root, *proof])
    if index >= size:  # 1
        raise Refused(Reason.INDEX_PAST_END)

    r = leaf  # 3
    for p, is_left in climb(index, size - 1, proof):  # 2, 4
        r = node_hash(p, r) if is_left else node_hash(r, p)
    if r != root:  # 5
        raise Refused(Reason.ROOT_MISMATCH)


def verify_consistency(old_size: int, new_size: int, proof: Digests, old_root: bytes, new_root: bytes) -> None:
    """Verifies that a log only grew: that it begins with the entries of an older one, by RFC 9162's consistency proof.

    Args:
        old_size: the number of entries of the older log.
        new_size: the number of entries of the log.
        proof: the digests of the proof. From size 0, and between equal sizes, there are none.
        old_root: the root of the older log. That of size 0 is `EMPTY_ROOT`.
        new_root: the root of the log.

    Raises:
        Refused: the proof does not show it. The reason is the first of these that applies: SIZE_TOO_LARGE,
            SMALLER_NEW_SIZE, TOO_MANY_DIGESTS, TOO_FEW_DIGESTS, OLD_ROOT_MISMATCH, ROOT_MISMATCH.
        ValueError: a number is below 0, or a digest has not 32 bytes.
    """
    check_question(new_size, [old_size, new_size], [old_root, new_root, *proof])
    if new_size < old_size:
        raise Refused(Reason.SMALLER_NEW_SIZE)

    if 0 < old_size < new_size:
        fr, sr = consistency_roots(old_size, new_size, proof, old_root)
    elif proof:
        raise Refused(Reason.TOO_MANY_DIGESTS)
    else:
        fr = old_root if old_size else EMPTY_ROOT
        sr = fr if old_size == new_size else new_root

    if fr != old_root:  # 7
        raise Refused(Reason.OLD_ROOT_MISMATCH)
    if sr != new_root:
        raise Refused(Reason.ROOT_MISMATCH)


def consistency_roots(old_size: int, new_size: int, proof: Digests, old_root: bytes) -> tuple[bytes, bytes]:
    """The old and the new root that a consistency proof leads to, between two different sizes above 0."""
    path = list(proof)
    if not path:  # 1
        raise Refused(Reason.TOO_FEW_DIGESTS)
    if old_size & (old_size - 1) == 0:  # 2
        path.insert(0, old_root)

    fn, sn = old_size - 1, new_size - 1  # 3
    while fn & 1:  # 4
        fn, sn = fn >> 1, sn >> 1
    fr = sr = path[0]  # 5
    for c, is_left in climb(fn, sn, path[1:]):  # 6
        if is_left:
            fr, sr = node_hash(c, fr), node_hash(c, sr)
        else:
            sr = node_hash(sr, c)
    return fr, sr


def climb(fn: int, sn: int, path: Digests) -> Iterator[tuple[bytes, bool]]:
    """Each digest of a path, and whether it stands on the left: step 4 of 2.1.3.2, and step 6 of 2.1.4.2."""
    for digest in path:
        if sn == 0:  # a
            raise Refused(Reason.TOO_MANY_DIGESTS)
        is_left = fn & 1 == 1 or fn == sn  # b
        while is_left and fn and not fn & 1:
            fn, sn = fn >> 1, sn >> 1
        yield digest, is_left
        fn, sn = fn >> 1, sn >> 1  # c
    if sn > 0:
        raise Refused(Reason.TOO_FEW_DIGESTS)


def verify_entries(size: int, indices: Sequence[int], leaves: Digests, proof: Digests, root: bytes) -> None:
    """Verifies that a log has several entries, by one proof.

    Args:
        size: the number of the log's entries.
        indices: the positions of the entries, from 0, in any order. One may stand there several times.
        leaves: the leaf hashes of these entries, in the same order.
        proof: each sibling that does not follow from others: layer by layer from the leaves, from left to right.
        root: the root of the log.

    Raises:
        Refused: the proof does not show it. The reason is the first of these that applies: SIZE_TOO_LARGE, NO_INDICES,
            LEAF_COUNT_MISMATCH, INDEX_PAST_END, TOO_FEW_DIGESTS, TOO_MANY_DIGESTS, TWO_LEAF_HASHES, ROOT_MISMATCH.
        ValueError: a number is below 0, or a digest has not 32 bytes.
    """
    check_question(size, [size, *indices], [*leaves, *proof, root])
    if not indices:
        raise Refused(Reason.NO_INDICES)
    if len(leaves) != len(indices):
        raise Refused(Reason.LEAF_COUNT_MISMATCH)
    if max(indices) >= size:
        raise Refused(Reason.INDEX_PAST_END)

    nodes = dict(zip(indices, leaves))
    last = size - 1
    digests = iter(proof)
    while last:
        siblings = [i ^ 1 for i in sorted(nodes) if i ^ 1 not in nodes and i ^ 1 <= last]
        nodes.update(zip(siblings, digests))
        if siblings and siblings[-1] not in nodes:
            raise Refused(Reason.TOO_FEW_DIGESTS)
        # The last node of a layer has no sibling if it stands on the left, and is passed on.
        nodes = {i >> 1: node_hash(nodes[i], nodes[i + 1]) if i < last else nodes[i] for i in nodes if i % 2 == 0}
        last >>= 1

    if any(digests):
        raise Refused(Reason.TOO_MANY_DIGESTS)
    if len({*zip(indices, leaves)}) > len({*indices}):
        raise Refused(Reason.TWO_LEAF_HASHES)
    if nodes[0] != root:
        raise Refused(Reason.ROOT_MISMATCH)


def check_question(size: int, numbers: Iterable[int], digests: Iterable[bytes]) -> None:
    """Raises ValueError for what no question has, and refuses a size that is too large."""
    if any(number < 0 for number in numbers) or any(len(digest) != 32 for digest in digests):
        raise ValueError("sizes and indices are from 0 on, and digests have 32 bytes")
    if size > MOST_ENTRIES:
        raise Refused(Reason.SIZE_TOO_LARGE)


# ---- texts: C2SP's tlog-checkpoint, signed-note and tlog-witness, and proofs of entries

# What no text has: control characters, and bytes that are not UTF-8.
OUT = "\0-\x1f\udc80-\udcff"
ORIGIN = f"(?![ \ufeff])[^{OUT}]+(?<! )"
NUMBER = "(0|[1-9][0-9]{0,18})"
BASE64 = "(?:[A-Za-z0-9+/]{4})*(?:[A-Za-z0-9+/][AQgw]==|[A-Za-z0-9+/]{2}[AEIMQUYcgkosw048]=)?"
# The base64 of 32 bytes.
DIGEST = "[A-Za-z0-9+/]{42}[AEIMQUYcgkosw048]="
# A line of a checkpoint after its root.
EXTENSION = f"[^{OUT}]+"
# The name of a key.
NAME = f"[^{OUT}\\s+]+"
# A signature is the base64 of at least 5 bytes.
SIGNATURE = f"\u2014 {NAME} (?=.{{8}})(?!.{{6}}==(?m:$)){BASE64}"
MOST_SIGNATURES = 100
MOST_CHECKPOINT_BYTES = 10**6
# A second checkpoint in a text: its number and its root, after four lines or more, none of them blank.
SECOND = rb"(?:[^\n]+\n){4,}[0-9]+\n[^\n]{43}=\n"
# The other bytes of a checkpoint of three lines are at most 66.
MOST_ORIGIN_BYTES = MOST_CHECKPOINT_BYTES - 66
# A proof of consistency has at most so many digests.
MOST_DIGESTS = 63
# The old size of a proof of consistency has a line of at most 24 bytes, a digest one of 45, and a blank line is next.
MOST_CONSISTENCY_BYTES = 24 + 45 * MOST_DIGESTS + 1 + MOST_CHECKPOINT_BYTES


class Text:
    """A text that is read line by line. It is refused at the first line where something else is expected."""

    def __init__(self, data: bytes, where: str = "") -> None:
        self.data = data
        self.where = where
        self.at = 0

    def refused(self, expected: str) -> Refused:
        """Says what is expected, and what is found if an editor or a transfer often does that to a text."""
        line, feed, _ = self.data[self.at:].partition(b"\n")
        found = ""
        if self.at == 0 and line.startswith(b"\xef\xbb\xbf"):
            found = ", but the text begins with a byte order mark"
        elif not feed:
            found = ", but the last line has no line feed" if line else ", but the text ends"
        elif line.endswith(b"\r"):
            found = ", but the line ends in a carriage return and a line feed"
        number = self.data.count(b"\n", 0, self.at) + 1
        return Refused(f"line {number}{self.where}: expected {expected}{found}")

    def stands(self, *fronts: bytes) -> bool:
        """Whether one of these bytes is next, or the end, which is b''."""
        return self.data[self.at:self.at + 1] in fronts

    def line(self, expected: str, pattern: str) -> tuple[str, list[int]]:
        """Reads a line by a pattern, and the numbers up to 2^62 that are its groups."""
        end = self.data.find(b"\n", self.at)
        line = self.data[self.at:end].decode("utf-8", "surrogateescape")
        found = re.fullmatch(pattern, line) if end >= 0 else None
        numbers = [int(number) for number in found.groups()] if found else []
        if found is None or max([0, *numbers]) > MOST_ENTRIES:
            raise self.refused(expected)
        self.at = end + 1
        return line, numbers

    def digest(self, expected: str = "the base64 of 32 bytes") -> bytes:
        """Reads a digest."""
        return base64.b64decode(self.line(expected, DIGEST)[0])

    def end(self) -> None:
        """Refuses what follows the end."""
        if not self.stands(b""):
            raise self.refused("the end")


def parse_checkpoint(note: bytes, where: str = "") -> Checkpoint:
    """Parses the checkpoint of a log. Extension lines and signatures are read past: `verify_note` checks a signature.

    Args:
        note: the bytes of the checkpoint, as they were published.
        where: what stands after the number of a line in the text of an exception.

    Returns:
        The log's name, the number of its entries, and its root.

    Raises:
        Refused: the bytes are no checkpoint. The text names the first wrong line, and what is expected there.
    """
    text = Text(note, where)
    if len(note) > MOST_CHECKPOINT_BYTES:
        raise text.refused(f"a text of at most {MOST_CHECKPOINT_BYTES} bytes")
    if note.startswith(b"fohlazu part 1\n"):
        raise text.refused("the origin of a log, not that of a part, which only `join` takes")

    expected = f"the origin: 1 to {MOST_ORIGIN_BYTES} bytes, no character below U+0020, and no space first or last"
    if note.find(b"\n") > MOST_ORIGIN_BYTES:
        raise text.refused(expected)
    origin, _ = text.line(expected, ORIGIN)
    _, [size] = text.line("a checkpoint's number of entries, up to 2^62", NUMBER)
    root = text.digest()
    while not text.stands(b"", b"\n"):
        text.line("the end, a blank line, or plain text", EXTENSION)
    if not text.stands(b""):
        skip_signatures(text)
    text.end()
    return Checkpoint(origin, size, root)


def skip_signatures(text: Text) -> None:
    """Reads the signatures of a note, after its blank line."""
    text.line("a blank line", "")
    for _ in range(MOST_SIGNATURES):
        text.line("a signature, `\u2014 NAME BASE64`, after the blank line: are there two texts?", SIGNATURE)
        if text.stands(b"", b"\n"):
            break


def parse_entries(proof: bytes) -> tuple[list[tuple[int, bytes]], list[bytes]]:
    """Parses a proof of entries, as `fohlazu prove` prints it, for `verify_entries`.

    Args:
        proof: the bytes of the proof.

    Returns:
        The entries, each with its number, which counts from 1; and the digests of the proof.

    Raises:
        Refused: the bytes are no such proof. The text names the first wrong line, and what is expected there.
    """
    text = Text(proof)
    entries = []
    text.line("a proof of entries, which begins with `fohlazu proof 1`", "fohlazu proof 1")
    _, [count] = text.line("`entries COUNT`", f"entries {NUMBER}")
    for _ in range(count):
        _, [number, length] = text.line("`entry NUMBER LENGTH`", f"entry (?!0){NUMBER} {NUMBER}")
        end = text.at + length
        if proof[end:end + 1] != b"\n":
            raise text.refused(f"{length} bytes and a line feed")
        entries.append((number, proof[text.at:end]))
        text.at = end + 1
    _, [count] = text.line("`digests COUNT`", f"digests {NUMBER}")
    digests = [text.digest() for _ in range(count)]
    text.end()
    return entries, digests


def parse_consistency(proof: bytes) -> tuple[int, list[bytes], bytes]:
    """Parses a consistency proof, as `fohlazu prove-consistency` prints it, for `verify_consistency`.

    Args:
        proof: the bytes of the proof.

    Returns:
        The old size, the digests of the proof, and the bytes of the new checkpoint, for `parse_checkpoint` and
        `verify_note`.

    Raises:
        Refused: the bytes are no such proof. The text names the first wrong line, and what is expected there.
    """
    text = Text(proof)
    digests: list[bytes] = []
    _, [old_size] = text.line("a consistency proof, which begins with `old SIZE`", f"old {NUMBER}")
    while len(digests) < MOST_DIGESTS and not text.stands(b"\n"):
        digests.append(text.digest("the base64 of 32 bytes, or a blank line"))
    text.line("a blank line", "")
    return old_size, digests, proof[text.at:]


def parse_key(vkey: str) -> tuple[str, bytes, Any]:
    """Parses a verifier key of Ed25519, as `fohlazu-sign -p` and Go print it.

    Args:
        vkey: the key, `NAME+HEX+BASE64`.

    Returns:
        Its name, its ID of 4 bytes, and the public key, an `Ed25519PublicKey` of `cryptography`.

    Raises:
        Refused: the text is no such key.
        ImportError: the package `cryptography` is not installed.
    """
    ed25519 = importlib.import_module("cryptography.hazmat.primitives.asymmetric.ed25519")
    found = re.fullmatch(f"({NAME})\\+([0-9A-Fa-f]{{8}})\\+({BASE64})", vkey)
    name, key = (found[1], base64.b64decode(found[3])) if found else ("", b"")
    key_id = hashlib.sha256(name.encode() + b"\n" + key).digest()[:4]
    if not found or found[2].lower() != key_id.hex() or key[:1] != b"\1" or len(key) != 33:
        raise Refused("the key is no NAME+HEX+BASE64 of Ed25519")
    return name, key_id, ed25519.Ed25519PublicKey.from_public_bytes(key[1:])


def verify_note(note: bytes, vkey: str) -> bytes:
    """Verifies that a key signed a note, such as a checkpoint. It refuses what Go's note.Open refuses.

    Args:
        note: the bytes of the signed note.
        vkey: the verifier key, `NAME+HEX+BASE64`.

    Returns:
        The text that is signed: the note without its blank line and its signatures.

    Raises:
        Refused: the bytes are no signed note, the key did not sign it, its signature is of another text, or the text is
            no such key.
        ImportError: the package `cryptography` is not installed.
    """
    name, key_id, key = parse_key(vkey)
    found = re.fullmatch(f"((?:[^{OUT}]|\n)*\n)\n((?:{SIGNATURE}\n){{1,{MOST_SIGNATURES}}})",
                         note.decode("utf-8", "surrogateescape"))
    if not found:
        raise Refused("expected a signed note")
    text = found[1].encode()

    lines = [line.split(" ") for line in found[2].split("\n")[:-1]]
    signatures = [base64.b64decode(signature) for _, signer, signature in lines if signer == name]
    mine = [signature[4:] for signature in signatures if signature[:4] == key_id]
    if not mine:
        raise Refused("the note is not signed by this key")
    try:
        # The first one decides, as in Go.
        key.verify(mine[0], text)
    except importlib.import_module("cryptography.exceptions").InvalidSignature:
        raise Refused("the note's signature by this key is of another text") from None
    return text


# ---- the proved verifiers


class Library:
    """The calls of libfohlazu.so, which are proved. They take and raise what the functions of their names do."""

    def __init__(self, path: str = "") -> None:
        """Loads the library.

        Args:
            path: the path of libfohlazu.so. Without it, it is looked for in the folder that FOHLAZU_LIB names, or else
                where libraries are installed.

        Raises:
            OSError: the library is not there, or is none.
        """
        self.calls = ctypes.CDLL(path or os.path.join(os.environ.get("FOHLAZU_LIB", ""), "libfohlazu.so"))

    def leaf_hash(self, entry: bytes) -> bytes:
        """Hashes an entry, as `leaf_hash` does."""
        leaf = ctypes.create_string_buffer(32)
        self.calls.fohlazu_leaf_hash(entry, ctypes.c_size_t(len(entry)), leaf)
        return leaf.raw

    def verify_inclusion(self, index: int, size: int, leaf: bytes, proof: Digests, root: bytes) -> None:
        """Verifies that a log has an entry, as `verify_inclusion` does."""
        self.verify(self.calls.fohlazu_verify_inclusion, [index, size], [leaf], proof, [root])

    def verify_consistency(self, old_size: int, new_size: int, proof: Digests, old: bytes, new: bytes) -> None:
        """Verifies that a log only grew, as `verify_consistency` does."""
        self.verify(self.calls.fohlazu_verify_consistency, [old_size, new_size], [], proof, [old, new])

    def verify(self, call: Callable[..., int], sizes: list[int], leaf: Digests, proof: Digests, roots: Digests) -> None:
        """Calls a verifier, and raises what its status says."""
        check_question(0, sizes, [*leaf, *proof, *roots])
        # A size of more than 64 bits is refused as the greatest one of 64 bits is: it is too large.
        words = [ctypes.c_uint64(min(size, (1 << 64) - 1)) for size in sizes]
        status = call(*words, *leaf, b"".join(proof), ctypes.c_size_t(len(proof)), *roots)
        if status:
            raise Refused([*Reason][status - 1])


# ---- the arguments of the commands

MOST_BLOCK_BYTES = 1 << 30
# The most entries that a command may ask for.
MAX_ENTRIES_PER_PROOF = 10**8


def number(word: str) -> int:
    """A number of bytes, of at most 64 bits, as the program reads it."""
    if not re.fullmatch(r"\+?0*[1-9][0-9]{0,19}", word) or int(word) >= 1 << 64:
        raise ValueError(word)
    return int(word)


def parse_args(words: list[str]) -> argparse.Namespace:
    """The arguments of a command. Options stand anywhere ahead of `--`, each once. What is wrong ends the process."""
    parser = argparse.ArgumentParser(usage=(__doc__ or "\n\n").split("\n\n")[1].strip(), allow_abbrev=False)
    parser.add_argument("--version", action="version", version=f"fohlazu {__version__}")
    parser.add_argument("--blocks", type=number, action="append", default=[], help="entries are blocks of so long")
    parser.add_argument("--raw", action="append_const", const=1, default=[], help="print one entry byte for byte")
    parser.add_argument("--key", action="append", default=[], help="the key that signed; the program has no --key")
    parser.add_argument("command", choices=["verify", "verify-consistency"])
    parser.add_argument("files", nargs=2, help="a checkpoint and a proof; - is standard input")
    parser.add_argument("numbers", nargs="*", help="those of the entries, as 3, 3-7, 3,7 or all")

    args = parser.parse_intermixed_args(words)
    args.is_all = args.numbers == ["all"]
    args.numbers = [] if args.is_all else parse_numbers(args.numbers, parser)
    check_args(args, parser)
    return args


def parse_numbers(words: list[str], parser: argparse.ArgumentParser) -> list[int]:
    """The numbers of entries, as 3, 3-7 or 3,7."""
    numbers: list[int] = []
    for word in ",".join(words).split(",") if words else []:
        ends = re.fullmatch("0*([0-9]{1,19})(?:-0*([0-9]{1,19}))?", word)
        first, last = (int(ends[1]), int(ends[2] or ends[1])) if ends else (0, 0)
        is_range = 1 <= first <= last <= MOST_ENTRIES and len(numbers) + last - first < MAX_ENTRIES_PER_PROOF
        if not is_range:
            parser.error(f"{word}: no number of an entry, as 3, 3-7 or 3,7")
        numbers.extend(range(first, last + 1))
    return numbers


def check_args(args: argparse.Namespace, parser: argparse.ArgumentParser) -> None:
    """Refuses arguments that don't go together."""
    options = len(args.blocks) + len(args.raw)
    count = len(args.numbers) + args.is_all
    if args.files == ["-", "-"]:
        parser.error("`-` is standard input, once at most")
    is_wrong = (
        options > 1
        or max([0, *args.blocks]) > MOST_BLOCK_BYTES
        or (args.blocks and not count)
        or (args.raw and len(args.numbers) != 1)
        or (args.command != "verify" and options + count)
    )
    if is_wrong:
        parser.error("too many arguments, or too few")


# ---- files


class Failure(Exception):
    """A command fails: its exit status, and what it says."""

    def __init__(self, status: int, why: str) -> None:
        super().__init__(why)
        self.status = status


def is_output(name: str) -> bool:
    """Whether a file is what standard output is written to."""
    with contextlib.suppress(OSError):
        return os.path.isfile(1) and os.path.samefile(1, 0 if name == "-" else name)
    return False


def read(name: str, status: int = 2, limit: int | None = None) -> bytes:
    """The bytes of a file, or of standard input. More than a limit end the command with this status."""
    with open(0 if name == "-" else name, "rb", closefd=name != "-") as file:
        size = os.fstat(file.fileno()).st_size
        data = file.read() if limit is None else read_limited(file.fileno(), limit)
    if limit is not None and len(data) > limit:
        raise Failure(status, f"{name}: it has more than {limit} bytes")
    if name != "-" and len(data) < size:
        raise Refused(f"{name}: it shrank while it was read")
    return data


def read_limited(file: int, most: int) -> bytes:
    """The bytes of a file, by its number, with the first one above a limit. Nothing after that one is read."""
    data = bytearray()
    while len(data) <= most and (piece := os.read(file, most + 1 - len(data))):
        data += piece
    return bytes(data)


def write(file: int, data: bytes) -> None:
    """Writes all bytes."""
    while data:
        data = data[os.write(file, data):]


# ---- the commands


# What the commands say of a verifier's reason. Other reasons can't occur: what they are about is checked ahead of it.
ENTRIES_WORDS = {
    Reason.TOO_FEW_DIGESTS: "it has too few digests: is it under another checkpoint?",
    Reason.TOO_MANY_DIGESTS: "it has too many digests: is it under another checkpoint?",
    Reason.NO_INDICES: "it has no entries",
    Reason.TWO_LEAF_HASHES: "it has two entries of one number",
    Reason.INDEX_PAST_END: "it has an entry past the last one of the checkpoint",
    Reason.ROOT_MISMATCH:
        "its entries or digests are not those of the checkpoint: some changed, or it is under another one",
}
CONSISTENCY_WORDS = {
    Reason.TOO_FEW_DIGESTS: "it has too few digests",
    Reason.TOO_MANY_DIGESTS: "it has too many digests",
    Reason.OLD_ROOT_MISMATCH: "it does not begin with the entries of the old checkpoint",
    Reason.ROOT_MISMATCH: "it does not lead to the new checkpoint",
}


@contextlib.contextmanager
def failing(status: int, where: str = "", words: Mapping[Reason, str] | None = None) -> Iterator[None]:
    """Lets what is refused inside end the command with this status, and with a text that says where it is."""
    try:
        yield
    except Refused as refused:
        why = words.get(refused.reason) if words and refused.reason else None
        raise Failure(status, f"{where}{why or refused}") from None


def answer(args: argparse.Namespace) -> bytes:
    """What a command prints."""
    checkpoint_name, proof_name = args.files
    for name in filter(is_output, args.files):
        raise Failure(2, f"{name}: it is the output too, which `>` empties: choose another output")
    with failing(2):
        for vkey in args.key:
            parse_key(vkey)
        limit = MOST_CONSISTENCY_BYTES if args.command == "verify-consistency" else None
        note = read(checkpoint_name, 2, MOST_CHECKPOINT_BYTES)
        if re.match(SECOND, note):
            why = "it has more than one checkpoint: only the first is read"
            write(2, f"fohlazu: {checkpoint_name}: {why}\n".encode())
        proof = read(proof_name, 1, limit)
    with failing(2, f"{checkpoint_name}: "):
        checkpoint = parse_checkpoint(note)

    if args.command == "verify-consistency":
        with failing(1, f"{proof_name}: ", CONSISTENCY_WORDS):
            return answer_verify_consistency(checkpoint, proof, args.key)
    with failing(1, f"{checkpoint_name}: "):
        for vkey in args.key:
            verify_note(note, vkey)
    with failing(1, f"{proof_name}: ", ENTRIES_WORDS):
        return answer_verify(checkpoint, proof, args)


def answer_verify(checkpoint: Checkpoint, proof: bytes, args: argparse.Namespace) -> bytes:
    """What `verify` prints: the entries."""
    entries, digests = parse_entries(proof)
    numbers = [number for number, _ in entries]
    every = range(1, max(checkpoint.size, 1) + 1)
    check_numbers(numbers, every if args.is_all else args.numbers or numbers)
    block = sum(args.blocks)
    check_lengths(entries, checkpoint.size, block, bool(args.raw))

    leaves = [leaf_hash(data) for _, data in entries]
    verify_entries(checkpoint.size, [number - 1 for number in numbers], leaves, digests, checkpoint.root)

    if block or args.raw:
        return b"".join(data for _, data in entries)
    if args.numbers or args.is_all:
        return b"".join(data + b"\n" for _, data in entries)
    return b"".join(b"%d\t%s\n" % entry for entry in entries)


def check_numbers(numbers: Sequence[int], requested: Sequence[int]) -> None:
    """Refuses entries that are not the requested ones."""
    hint = "give the numbers that it has, in its order, or none"
    for got, expected in itertools.zip_longest(numbers, requested):
        if expected is None:
            raise Refused(f"it has entry {got} after all that are requested: {hint}")
        if got is None:
            raise Refused(f"it ends where entry {expected} is requested: {hint}")
        if got != expected:
            raise Refused(f"it has entry {got} where {expected} is requested: {hint}")


def check_lengths(entries: Sequence[tuple[int, bytes]], size: int, block: int, is_raw: bool) -> None:
    """Refuses entries that a file of lines, or of blocks of so many bytes, can't have."""
    hint = "give `--blocks` as for `seal`, or `--raw` to print one entry"
    for number, data in entries:
        if block:
            # The last block may be shorter.
            is_entry = len(data) == block or (number == size and 0 < len(data) < block)
        else:
            is_entry = is_raw or b"\n" not in data
        if not is_entry:
            raise Refused(f"entry {number} is no line, or no block of this size: {hint}")


def answer_verify_consistency(old: Checkpoint, proof: bytes, keys: Sequence[str]) -> bytes:
    """What `verify-consistency` prints: the new checkpoint as it is published."""
    size, digests, note = parse_consistency(proof)
    if size != old.size:
        raise Refused(f"it is a proof from {size} entries, and the old checkpoint has {old.size}")
    new = parse_checkpoint(note, " of its checkpoint")
    for vkey in keys:
        verify_note(note, vkey)

    if old.origin != new.origin:
        raise Refused("its origin is not that of the old checkpoint")
    if old.size > new.size:
        raise Refused(f"it has {new.size} entries, fewer than the {size} of the old checkpoint: are both exchanged?")
    if old.size == new.size and old.root != new.root:
        raise Refused("two histories of one log, with one size and different roots: keep both checkpoints as evidence")
    verify_consistency(old.size, new.size, digests, old.root, new.root)
    return note


def write_output(data: bytes) -> None:
    """Writes what a command prints."""
    try:
        write(1, data)
    except OSError as error:
        raise Failure(2, f"standard output: {error.strerror} (os error {error.errno})") from None


def main() -> int:
    """Runs the command that the process's arguments name.

    Returns:
        The exit status, as docs/FILES.md has it.

    Raises:
        SystemExit: the arguments are wrong, or ask for help.
    """
    status = 2
    try:
        args = parse_args([os.fsencode(word).decode() for word in sys.argv[1:]])
        write_output(answer(args))
        if args.command != "verify" or args.numbers or args.is_all:
            return 0
        status, why = 0, "entry numbers were not compared: check that they are those you requested"
    except Failure as failure:
        status, why = failure.status, str(failure)
    except OSError as error:
        why = f"{error.filename or '-'}: {error.strerror} (os error {error.errno})"
    except UnicodeDecodeError:
        why = "an argument is no text in UTF-8"
    except ImportError:
        why = "`--key` needs the package `cryptography`, which is not installed"
    except MemoryError:
        why = "out of memory"
    with contextlib.suppress(OSError):
        write(2, f"fohlazu: {why}\n".encode())
    return status


if __name__ == "__main__":
    sys.exit(main())
