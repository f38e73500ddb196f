"""Models the answers to cases of crates/test_merkle: a line of fields with | between them, first the kind.

A kind is a function, with a reader for each of its arguments, which reads a field or more of them."""

import hashlib
from itertools import chain, product

import geometry
import notation
from claims import Claim, checks_of, count_errors, extract, height_errors, index_errors, pruned_errors, refusal
from claims import row_errors, width_errors
from geometry import FIXED, LOWERED, Shape
from nodes import Fold, Scheme, Sha256
from notation import dimensions, matrices, nodes, numbers, print_numbers, print_row_sets, rows
from salts import Counting, Generator

# There is no memory for a tree of so many rows.
MOST_ROWS = 1 << 40
KINDS = {}


class Refused(Exception):
    """The error that a call answers."""


class Fields:
    """The fields of a case, read one after another. A cap without a letter has the rule that is handed in."""

    def __init__(self, line, rule):
        self.kind, *self.fields = (field.strip() for field in line.split("|"))
        self.rule, self.names_rule = rule, True
        self.is_salted, self.is_sha256 = (self.kind.startswith(name) for name in ("salted_", "sha256_"))
        self.kind = self.kind.removeprefix("sha256_")
        self.is_pruned = self.kind.endswith("pruned") or self.kind == "restore"

    def read(self, reader=str):
        """What the next field, or the next fields, say."""
        special = {Fields: lambda: self, Scheme: self.scheme, Generator: self.generator}
        return special[reader]() if reader in special else reader(self.fields.pop(0))

    def scheme(self):
        arity, cap = self.read(int), self.read()
        self.names_rule = cap[-1] in "lf"
        cap, rule = (cap[:-1], cap[-1]) if self.names_rule else (cap, self.rule)
        salts = self.read(int) if self.is_salted else 0
        return Scheme(arity, int(cap), rule, salts, Sha256 if self.is_sha256 else Fold)

    def generator(self):
        """The generator of a seed of one byte, or one that counts from a first number by a step."""
        found = self.read(numbers) if self.is_salted else []
        return Counting(*found) if len(found) == 2 else Generator(bytes(found * 32)) if found else None

    def queries(self):
        return self.read(numbers) if self.is_pruned else self.read(int)

    def claim(self, scheme, roots, sizes):
        """An opening, of a leaf or of several."""
        index, read = self.queries(), notation.row_sets if self.is_pruned else rows
        opened, salts = self.read(read), self.read(read) if scheme.salts else None
        return Claim(scheme, roots, sizes, index, opened, self.read(numbers), salts)


class Batch:
    """Matrices, or dimensions of such: their words are 0, 1, 2 and so on modulo 251."""

    def __init__(self, text):
        self.given = None if text == "none" or "x" in text else matrices(text)
        self.sizes = [(len(own[0]), len(own)) for own in self.given] if self.given else dimensions(text)
        self.heights = heights_in(self.sizes)

    def matrices(self):
        return self.given or [numbered_rows(width, height) for width, height in self.sizes]

    def tree(self, scheme, generator=None, queries=()):
        """The tree over them, which is to open these leaves."""
        refuse(height_errors(self.heights), width_errors(self.sizes, scheme.salts), index_errors(self.heights, queries))
        return scheme.tree(self.matrices(), generator)


def heights_in(sizes):
    return [height for _, height in sizes]


def numbered_rows(width, height):
    return [[place % 251 for place in range(row * width, (row + 1) * width)] for row in range(height)]


def refuse(*errors):
    for error in chain(*errors):
        raise Refused(error)


def lawful(scheme, heights, queries=()):
    """The shape of a tree of these heights that is asked for these leaves."""
    refuse(height_errors(heights), index_errors(heights, queries))
    return scheme.shape(heights)


def answered(call, *arguments):
    """What a call answers, as a text."""
    try:
        return str(call(*arguments))
    except Refused as refused:
        return str(refused)


def case(kinds, *readers):
    """Has a function answer cases of these kinds, out of what readers read of their fields."""
    def register(function):
        KINDS.update(dict.fromkeys(kinds.split(), (function, readers)))
        return function

    return register


case("sha256", str)(lambda text: Sha256(2).hash(b"" if text == "-" else text.encode()).hex())
case("commit", Scheme, Batch)(lambda scheme, batch: print_numbers(batch.tree(scheme).cap()))


@case("heights", numbers)
def heights(found):
    """What is answered by the test of heights, the commit, the tree, the schedule and the check of an opening."""
    error = next(height_errors(found), None)
    built = "out of memory" if not error and max(found) >= MOST_ROWS else error or "accepted"
    columns = [(1, height) for height in found]
    checked = refusal(Claim(Scheme(2, 0, LOWERED), [], columns, 0, [[0] for _ in columns], []))
    answers = [str(answer or "accepted") for answer in (error, built, built, error, checked)]
    return answers[0] if len(set(answers)) == 1 else " | ".join(answers)


@case("shape", Scheme, numbers)
def shape(scheme, heights):
    own = lawful(scheme, heights)
    lengths = " ".join(f"{raw}/{width}" for raw, width in own.lengths())
    return f"{print_numbers(own.proof_steps)} | {lengths}"


@case("layers", Fields, int, Batch)
def layers(fields, arity, batch):
    """How many layers there are, and the digest of all: a line for each, the root first."""
    tree = batch.tree(Scheme(arity, 0, LOWERED, 0, Sha256 if fields.is_sha256 else Fold))
    text = "".join(print_numbers(layer) + "\n" for layer in reversed(tree.layers))
    return f"{len(tree.layers)} | {hashlib.sha256(text.encode()).hexdigest()}"


@case("known", Scheme, numbers, numbers, nodes)
def known(scheme, heights, queries, given):
    """Whether given nodes are the boundary; whether they suffice, without each in turn and then all."""
    own = lawful(scheme, heights, queries)
    lists = [given[:place] + given[place + 1 :] for place in range(len(given))] + [given]
    sent = "sent" if given == own.boundary(queries) else "not sent"
    return f"{sent} | " + " ".join("yes" if own.suffices(queries, one) else "no" for one in lists)


@case("schedule", Scheme, numbers)
def schedule(scheme, heights):
    return print_numbers(lawful(scheme, heights).proof_steps)


@case("replay", Scheme, numbers, int, int)
def replay(scheme, heights, index, count):
    own = lawful(scheme, heights, [index])
    refuse(count_errors("WrongHeight", own.siblings, count))
    return f"{print_numbers(own.proof_steps)} | {print_numbers(own.positions(own.cap_layer, index))}"


@case("authenticated", Scheme, numbers)
def authenticated(scheme, heights):
    own = lawful(scheme, heights)
    return " ".join("yes" if layer <= own.cap_layer else "no" for layer in own.layers)


@case("pruned_len", Scheme, numbers, numbers)
def pruned_len(scheme, heights, queries):
    return lawful(scheme, heights, queries).boundary_len(queries)


@case("open pruned salted_open salted_pruned", Fields, Scheme, Generator, Batch)
def opened(fields, scheme, generator, batch):
    """The rows, salts and digests that are opened; with salts the cap as well."""
    queries = fields.queries() if fields.is_pruned else [fields.queries()]
    tree = batch.tree(scheme, generator, queries)
    cap = [print_numbers(tree.cap())] if scheme.salts else []
    return " | ".join([*cap, *map(print_row_sets, scheme.opened(tree, queries)), print_numbers(tree.proof(queries))])


def cap_over(scheme, generator, text):
    return print_numbers(Batch(text).tree(scheme, generator).cap())


@case("salted_commits", Scheme, Generator, str)
def salted_commits(scheme, generator, text):
    return " / ".join(answered(cap_over, scheme, generator, batch.strip()) for batch in text.split("/"))


@case("salted_fork", Scheme, Generator, str)
def salted_fork(scheme, generator, batch):
    return " / ".join(answered(cap_over, scheme, source, batch) for source in (generator.fork(), generator))


@case("verify verify_pruned salted_verify salted_verify_pruned", Scheme, numbers, dimensions, Fields)
def verify(scheme, roots, sizes, fields):
    return refusal(fields.claim(scheme, roots, sizes)) or "accepted"


@case("restore", Scheme, dimensions, Fields)
def restore(scheme, sizes, fields):
    claim = fields.claim(scheme, [], sizes)
    refuse(pruned_errors(claim))
    return "; ".join(f"{query}: {print_numbers(path)}" for query, _, path in checks_of(claim)) or "-"


@case("extract extract_pruned salted_extract salted_extract_pruned", Scheme, numbers, dimensions, Fields)
def extracted(scheme, roots, sizes, fields):
    error, found = extract(*(fields.claim(scheme, roots, sizes) for _ in range(2)))
    if not found:
        return error or "none"
    *queries, name, first, second = found
    places = [print_numbers(queries)] if fields.is_pruned else []
    return " | ".join([*places, name, print_numbers(first), print_numbers(second)])


def batches(text):
    """The batches that a text names: some, or one or two matrices of a width, of every lawful height up to a bound."""
    if not text.startswith("lawful"):
        return [dimensions(batch.strip()) for batch in text.split(";")]
    most, width = map(int, text.split()[1:])
    # A second height of 0 is no matrix.
    pairs = [[first, second] if second else [first] for first, second in product(range(most + 1), repeat=2)]
    return [[(width, height) for height in pair] for pair in pairs if not any(height_errors(pair))]


def query_lists(text, count):
    """The lists of queries that a text names, over so many leaves."""
    if not text.startswith(("every", "up to", "random")):
        return [numbers(one.strip()) for one in text.split(";")]
    words = text.split()
    if words[0] == "random":
        seed, many, shortest, longest = map(int, words[1:])
        below = Generator(bytes([seed] * 32)).next_u64
        lengths = (shortest + below() % (longest - shortest + 1) for _ in range(many))
        return [[below() % count for _ in range(length)] for length in lengths]
    most = int(words[-1])
    lengths = [most] if words[0] == "every" else range(most + 1)
    return [list(one) for length in lengths for one in product(range(count), repeat=length)]


@case("sweep salted_sweep", Fields, Scheme, Generator, batches, str)
def sweep(fields, scheme, _, found, queries):
    """Lists of queries, digests of their proofs, openings that collide with a twin, and openings that do not.

    Where each row has two words or more, each list is compared with its twin, matrix by matrix, and so is the first
    leaf of each list that has a query.
    """
    lists = digests = collisions = nones = 0
    for sizes in found:
        own = scheme.shape(heights_in(sizes))
        has_twins = not fields.is_sha256 and all(width >= 2 for width, _ in sizes)
        authentic = sum(layer <= own.cap_layer for layer in own.layers)
        for one in query_lists(queries, own.tallest):
            lists, digests = lists + 1, digests + own.boundary_len(one)
            if has_twins and one:
                collisions, nones = collisions + 2 * authentic, nones + 2 * (len(sizes) - authentic)
            elif has_twins:
                nones += len(sizes)
    return print_numbers([lists, digests, collisions, nones])


def answers(line):
    """What is answered to a case, whose own answer may stand after its fields: one answer, or one by each rule."""
    found = []
    for rule in (LOWERED, FIXED):
        fields = Fields(line, rule)
        function, readers = KINDS[fields.kind]
        found.append(answered(function, *map(fields.read, readers)))
        if fields.names_rule:
            break
    return found, " | ".join(fields.fields)
