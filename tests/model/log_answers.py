"""The cases of crates/test_log: what a question is answered. Its program says what the words of each kind mean."""

from functools import cache, reduce
from hashlib import sha256
from itertools import takewhile
from types import SimpleNamespace
from unittest import mock
from urllib.parse import unquote_to_bytes

import fohlazu_commands
import log_texts
import logs

# What verdicts are called, by their codes.
VERDICTS = ["accepted", "the size is above 2^62", "the index is not below the size",
            "the new size is below the old size", "the proof has too few digests", "the proof has too many digests",
            "the proof is of another old root", "the proof is of another root"]


class Weak:
    """A hash of eight bits: the first byte of SHA-256, and zeros."""

    def __init__(self, data):
        self.data = data

    def digest(self):
        return sha256(self.data).digest()[:1] + bytes(31)


under_eight_bits = mock.patch.multiple(logs, sha256=Weak, EMPTY_ROOT=Weak(b"").digest())


def bytes_of(word):
    pieces = (piece.partition("*") for piece in word.split("+"))
    return b"".join(unquote_to_bytes(text) * int(times or 1) for text, _, times in pieces)


def items(word):
    return [] if word == "-" else word.split(",")


def numbers(word):
    return [*map(int, items(word))]


def nodes(word):
    return [tuple(map(int, node.split("."))) for node in items(word)]


def digest(word):
    return bytes([int(word), *bytes(31)])


def digests(word):
    return [*map(digest, items(word))]


def entries(word):
    return [number.encode() for number in items(word)]


@cache
def log(word):
    """The log of the decimal numbers up to one."""
    return logs.Log([b"%d" % number for number in range(1, int(word) + 1)])


def listed(digests):
    return " ".join(digest.hex() for digest in digests)


def short(digest):
    return digest[:4].hex()


def value(log, layer, slot):
    """The value of a node, if it has entries."""
    first, size = slot << layer, len(log.leaves)
    return log.root(first, min(first + (1 << layer), size)) if first < size else None


def root_of(log):
    return log.root(0, len(log.leaves))


# ---- roots, proofs, verdicts


def inclusion(log, index):
    return listed(log.inclusion([index], len(log.leaves)))


def consistency(log, old):
    return listed(log.consistency(old, len(log.leaves)))


def proof_nodes(size, indices):
    return " ".join(f"{layer}.{slot}" for layer, slot, _, _ in sorted(logs.entry_nodes(indices, 0, size)))


def digests_of(log, indices):
    found = sorted(logs.entry_nodes(indices, 0, len(log.leaves)))
    return " ".join(short(log.root(first, last)) for _, _, first, last in found)


def frontier(size, log, more):
    whole = [*log.leaves]
    if size > logs.MOST or (len(whole) == size.bit_count() and size + len(more.leaves) > logs.MOST):
        return VERDICTS[logs.SIZE_TOO_LARGE]
    if len(whole) != size.bit_count():
        return "the number of nodes is not that of the size"
    for leaf in more.leaves:
        for _ in takewhile(lambda layer: size >> layer & 1, range(64)):
            leaf = logs.node_hash(whole.pop(), leaf)
        whole.append(leaf)
        size += 1
    root = reduce(lambda right, left: logs.node_hash(left, right), reversed(whole)) if whole else logs.EMPTY_ROOT
    return " ".join(map(str, [size, *map(short, [root, *whole])]))


def included(size, log, index, leaf, nodes):
    proof = [value(log, *node) for node in nodes]
    return VERDICTS[logs.inclusion(index, size, log.leaves[leaf], proof, root_of(log))]


def consistent(size, log, old_size, old, nodes):
    proof = [value(log, *node) for node in nodes]
    return VERDICTS[logs.consistency(old_size, size, proof, log.root(0, old), root_of(log))]


def verify(size, log, indices, leaves, nodes):
    proof = [value(log, *node) for node in nodes]
    return logs.entries(size, indices, [log.leaves[leaf] for leaf in leaves], proof, root_of(log))


# ---- files and texts


def file(cut, limit, nodes, wanted, reads, data):
    found, is_refused = fohlazu_commands.cut_entries(cut, data)
    limit = None if limit == "-" else int(limit)
    if limit is None or len(found) < limit:
        # The reader comes to the end.
        if "!" in reads:
            return "cannot be read"
        if is_refused:
            return "ends inside a line"
    found = found[:limit]
    log, size = logs.Log(found), len(found)
    values = [value(log, *node) for node in nodes]
    words = [str(size), short(root_of(log)), *(short(digest) if digest else "-" for digest in values)]
    if all(index < size for index in wanted):
        words += [f"{len(found[index])}:{short(sha256(found[index]).digest())}" for index in wanted]
    return " ".join(words)


def read(limit, reads, data):
    found = data[: limit + 1]
    if len(data) <= limit and "!" in reads:
        return "cannot be read 0"
    return f"{len(found)} {short(sha256(found).digest())} {len(data) - len(found)}"


def seal(calls, origin, cut, data):
    found, is_refused = fohlazu_commands.cut_entries(cut, data)
    if is_refused:
        return f"{fohlazu_commands.PARTIAL_LINE} 0 {short(sha256().digest())}"
    log = logs.Log(found)
    text = log_texts.checkpoint_text(origin.encode(), len(found), root_of(log))
    # The flush is a call more.
    failed = "the output cannot be written " if calls <= len(text) else ""
    return f"{failed}{len(text[:calls])} {short(sha256(text[:calls]).digest())}"


def text(said):
    """What a text is answered. `said` gives what the text has, and how that is printed."""

    def answer(text):
        try:
            words, printed = said(text)
        except log_texts.Wrong as wrong:
            return f"line {wrong.args[0]}"
        return " ".join(["ok", *map(str, words), *["printed"] * (printed == text)])

    return answer


def checkpoint(text, is_part=False):
    origin, size, root = log_texts.checkpoint(text, is_part)
    return [size, root.hex(), origin.decode()], log_texts.checkpoint_text(origin, size, root)


def entries_proof(text):
    found, digests = log_texts.entries(text)
    words = [*(f"{name}:{data.hex()}" for name, data in found), len(digests)]
    return words, log_texts.entries_text(found, digests)


def consistency_proof(text):
    old, digests, checkpoint = log_texts.consistency(text)
    return [old, len(digests), len(checkpoint)], log_texts.consistency_text(old, digests, checkpoint)


def by_commands(call):
    """What is answered of files: why a command refuses a text or a file, or `none`."""

    def answer(cut, *data):
        told = SimpleNamespace(OLD=0, CHECKPOINT=0, PROOF=1, FILE=2, ranges=[], raw=True, is_all=False, is_any=True)
        told.blocks = int(cut) if cut.isdigit() else None
        told.partial, told.whole_lines = cut == "include", cut == "leave-out"
        try:
            call(told, *data)
        except fohlazu_commands.Refused as refused:
            return refused.args[2]
        return "none"

    return answer


def file_entries(told, file, checkpoint, proof):
    fohlazu_commands.verify(told, fohlazu_commands.Inputs([checkpoint, proof].__getitem__))
    fohlazu_commands.tree_under(told, file, *log_texts.checkpoint(checkpoint)[1:])


def file_prefix(told, old_file, new_file, checkpoint, proof):
    new = fohlazu_commands.verify_consistency(told, fohlazu_commands.Inputs([checkpoint, proof].__getitem__))
    for file, text in (old_file, checkpoint), (new_file, new):
        fohlazu_commands.tree_under(told, file, *log_texts.checkpoint(text)[1:])


# ---- collisions under eight bits: what is accepted, and is not what it is to be


def is_included(*question):
    return logs.inclusion(*question) == logs.ACCEPTED


def is_consistent(*question):
    return logs.consistency(*question) == logs.ACCEPTED


@under_eight_bits
def of_roots(d, e):
    return root_of(logs.Log(d)) == root_of(logs.Log(e)) and d != e


@under_eight_bits
def of_leaf(d, index, leaf, proof):
    log = logs.Log(d)
    return is_included(index, len(d), leaf, proof, root_of(log)) and leaf != log.leaves[index]


@under_eight_bits
def of_entry(d, index, entry, proof):
    return is_included(index, len(d), logs.leaf_hash(entry), proof, root_of(logs.Log(d))) and entry != d[index]


@under_eight_bits
def of_entries(d, indices, leaves, proof):
    log = logs.Log(d)
    verdict = logs.entries(len(d), indices, leaves, proof, root_of(log))
    return verdict == "accepted" and leaves != [log.leaves[index] for index in indices]


@under_eight_bits
def of_prefix(d, e, proof):
    return is_consistent(len(d), len(e), proof, *(root_of(logs.Log(x)) for x in (d, e))) and d != e[: len(d)]


@under_eight_bits
def of_proofs(index, size, leaf, proof, other_leaf, other_proof, root):
    both = (leaf, proof), (other_leaf, other_proof)
    return all(is_included(index, size, *each, root) for each in both) and both[0] != both[1]


@under_eight_bits
def of_consistency(old, new, old_root, proof, other_root, other_proof, new_root):
    both = (proof, old_root), (other_proof, other_root)
    return all(is_consistent(old, new, *each, new_root) for each in both) and both[0] != both[1]


@under_eight_bits
def of_growth(index, old, new, old_leaf, old_path, new_leaf, new_path, growth, old_root, new_root):
    return (is_included(index, old, old_leaf, old_path, old_root)
            and is_included(index, new, new_leaf, new_path, new_root)
            and is_consistent(old, new, growth, old_root, new_root) and old_leaf != new_leaf)


def values_of(old, new, old_root, proof):
    """The values of nodes that a proof of consistency has."""
    known = {(0, old): old_root} if old == new or old.bit_count() == 1 else {}
    return {**known, **dict(zip(logs.growth_ranges(old, new), proof))}


def value_in(values, first, last):
    """The root of some entries, if values of nodes lead to it."""
    if last - first == 1 or (first, last) in values:
        return values.get((first, last))
    middle = logs.split(first, last)
    both = value_in(values, first, middle), value_in(values, middle, last)
    return None if None in both else logs.node_hash(*both)


def right_nodes(size):
    """The children of a tree's root, and of each right child below it."""
    first = 0
    while size - first > 1:
        middle = logs.split(first, size)
        yield (first, middle), (middle, size)
        first = middle


@under_eight_bits
def compose(old, middle, new, old_root, middle_root, new_root, first, second):
    for name, question in (("first", (old, middle, first, old_root, middle_root)),
                           ("second", (middle, new, second, middle_root, new_root))):
        verdict = logs.consistency(*question)
        if verdict != logs.ACCEPTED:
            return f"the {name} proof is refused: {VERDICTS[verdict]}"
    if old == 0:
        return "composed"
    # Both proofs have nodes of the middle tree.
    both = values_of(old, middle, old_root, first), values_of(middle, new, middle_root, second)
    found = [[value_in(values, *node) for values in both for node in pair] for pair in right_nodes(middle)]
    is_other = any(None not in words and words[:2] != words[2:] for words in found)
    return "two different byte strings have one hash" if is_other else "composed"


# What reads each word of a question, by letters, and what answers it.
READING = {"n": int, "l": log, "i": numbers, "s": nodes, "b": bytes_of, "w": str, "d": digest, "p": digests,
           "e": entries}
KINDS = {
    "root": ("l", lambda log: root_of(log).hex()),
    "inclusion": ("ln", inclusion),
    "consistency": ("ln", consistency),
    "proof_nodes": ("ni", proof_nodes),
    "digests": ("li", digests_of),
    "frontier": ("nll", frontier),
    "included": ("nlnns", included),
    "consistent": ("nlnns", consistent),
    "verify": ("nliis", verify),
    "file": ("wwsiwb", file),
    "read": ("nwb", read),
    "file_entries": ("wbbb", by_commands(file_entries)),
    "file_prefix": ("wbbbb", by_commands(file_prefix)),
    "seal": ("nwwb", seal),
    "checkpoint": ("b", text(checkpoint)),
    "part": ("b", text(lambda text: checkpoint(text, True))),
    "entries_proof": ("b", text(entries_proof)),
    "consistency_proof": ("b", text(consistency_proof)),
    "root_collision": ("ee", of_roots),
    "leaf_collision": ("endp", of_leaf),
    "entry_collision": ("enbp", of_entry),
    "entries_collision": ("eipp", of_entries),
    "prefix_collision": ("eep", of_prefix),
    "proof_collision": ("nndpdpd", of_proofs),
    "consistency_collision": ("nndpdpd", of_consistency),
    "growth_collision": ("nnndpdppdd", of_growth),
    "compose": ("nnndddpp", compose),
}


def answer(question):
    kind, *words = question.split(" ")
    letters, call = KINDS[kind]
    found = call(*(READING[letter](word) for letter, word in zip(letters, words, strict=True)))
    return {True: "collision", False: "none"}.get(found, found)
