"""Models openings: why a verifier refuses one, what it restores of it, and which collision two of them lead to."""

from dataclasses import dataclass, replace
from itertools import product
from typing import NamedTuple

from geometry import MAX_HEIGHT, MAX_NUMBER, expected_height, halvings
from nodes import Scheme, joined

TEXTS = {
    "EmptyBatch": "empty batch: attempted to open an empty batch with no committed matrices",
    "TooLarge": "matrix {}: size {} is too large",
    "IncompatibleHeights": "matrix height {0} incompatible with tallest height {1}; expected ceil_div({1}, 2^{3}) = "
                           "{2} so every global index maps to a row at depth {3}",
    "WrongBatchSize": "batch size mismatch: expected {} entries, got {}",
    "WrongWidth": "wrong width: matrix {} expected {} values, got {}",
    "WrongHeight": "wrong height: expected {} siblings, got {}",
    "IndexOutOfBounds": "index out of bounds: index {1} exceeds max height {0}",
    "CapMismatch": "cap mismatch: computed digest does not match any entry in the Merkle cap",
    "SiblingCountMismatch": "malformed pruned proof: wrong pruned sibling count: expected {}, got {}",
    "InconsistentDuplicateOpenings": "malformed pruned proof: duplicate queries for path slot {} disagree on opened "
                                     "values",
    "InconsistentGroupOpening": "malformed pruned proof: unique path slot {} disagrees with its group's lead on matrix "
                                "{}'s opened row",
}


class Error(NamedTuple):
    """An error by the Rust crate's name, and its fields."""

    name: str
    fields: tuple = ()

    def __str__(self):
        return TEXTS[self.name].format(*self.fields)


def copied(value):
    """A copy of a list down to its numbers."""
    return [copied(part) for part in value] if isinstance(value, list) else value


@dataclass
class Claim:
    """What a verifier is handed: an index, rows and siblings; or of several leaves a list of indices, row sets and
    digests. Salts stand beside rows where there are any."""

    scheme: Scheme
    roots: list
    dimensions: list
    index: int | list
    rows: list
    siblings: list
    salts: list | None = None

    @property
    def is_pruned(self):
        return isinstance(self.index, list)

    @property
    def queries(self):
        return self.index if self.is_pruned else [self.index]

    @property
    def heights(self):
        return [height for _, height in self.dimensions]

    @property
    def shape(self):
        return self.scheme.shape(self.heights)

    def sets(self, rows):
        """Rows, or salts, by queries."""
        return rows if self.is_pruned else [rows]

    def first_sets(self):
        """The rows of the first query of each index."""
        found = {}
        for query, rows in zip(self.queries, self.sets(self.rows)):
            found.setdefault(query, rows)
        return found

    def copy(self):
        parts = ("roots", "dimensions", "index", "rows", "siblings", "salts")
        return replace(self, **{part: copied(getattr(self, part)) for part in parts})

    def plain(self):
        """The claim on rows followed by their salts."""
        sets = [[row + own for row, own in zip(*pair)] for pair in zip(self.sets(self.rows), self.sets(self.salts))]
        dimensions = [(width + self.scheme.salts, height) for width, height in self.dimensions]
        rows = sets if self.is_pruned else sets[0]
        return Claim(self.scheme, self.roots, dimensions, self.index, rows, self.siblings)


# Errors are yielded in their order, and the first one is answered: what follows it may take for granted that it is not
# there.

def height_errors(heights):
    tallest = max(heights, default=0)
    if tallest == 0:
        yield Error("EmptyBatch")
    for matrix, height in enumerate(heights):
        if height > MAX_HEIGHT:
            yield Error("TooLarge", (matrix, height))
    for height in heights:
        expected = expected_height(tallest, height)
        if height != expected:
            yield Error("IncompatibleHeights", (height, tallest, expected, halvings(tallest, height)))


def index_errors(heights, queries):
    tallest, highest = max(heights), max(queries, default=-1)
    if highest >= tallest:
        yield Error("IndexOutOfBounds", (tallest, highest))


def count_errors(name, expected, got):
    if expected != got:
        yield Error(name, (expected, got))


def row_errors(dimensions, rows):
    """The number of rows, and the first row that is not as wide as its matrix."""
    yield from count_errors("WrongBatchSize", len(dimensions), len(rows))
    for matrix, ((width, _), row) in enumerate(zip(dimensions, rows)):
        if len(row) != width:
            yield Error("WrongWidth", (matrix, width, len(row)))


def width_errors(dimensions, salts):
    """Matrices that are too wide with their salts."""
    for matrix, (width, _) in enumerate(dimensions):
        if width + salts > MAX_NUMBER:
            yield Error("TooLarge", (matrix, width))


def salt_errors(claim):
    """What is wrong before rows are followed by their salts."""
    sets, salts = claim.sets(claim.rows), claim.sets(claim.salts)
    yield from count_errors("WrongBatchSize", len(sets), len(salts))
    for rows, own in zip(sets, salts):
        yield from row_errors(claim.dimensions, rows)
        yield from count_errors("WrongBatchSize", len(rows), len(own))
    yield from width_errors(claim.dimensions, claim.scheme.salts)


def leaf_errors(claim):
    yield from count_errors("WrongBatchSize", len(claim.dimensions), len(claim.rows))
    yield from height_errors(claim.heights)
    yield from count_errors("WrongHeight", claim.shape.siblings, len(claim.siblings))
    yield from row_errors(claim.dimensions, claim.rows)
    yield from index_errors(claim.heights, [claim.index])


def pruned_errors(claim):
    yield from height_errors(claim.heights)
    yield from count_errors("WrongBatchSize", len(claim.index), len(claim.rows))
    if not claim.index:
        yield from count_errors("SiblingCountMismatch", 0, len(claim.siblings))
    yield from index_errors(claim.heights, claim.index)
    first, slots = claim.first_sets(), sorted(set(claim.index))
    for query, rows in zip(claim.index, claim.rows):
        if rows != first[query]:
            yield Error("InconsistentDuplicateOpenings", (slots.index(query),))
    yield from count_errors("SiblingCountMismatch", claim.shape.boundary_len(claim.index), len(claim.siblings))
    for query in slots:
        yield from row_errors(claim.dimensions, first[query])
    yield from group_errors(claim.shape, first, slots)


def group_errors(shape, first, slots):
    """Rows that belong to one node differ: layer by layer, by ascending indices."""
    for layer in range(1, shape.cap_layer + 1):
        leads = {}
        for slot, query in enumerate(slots if shape.matrices[layer] else []):
            lead = leads.setdefault(shape.ancestor(layer, query), first[query])
            for matrix in shape.matrices[layer]:
                if lead[matrix] != first[query][matrix]:
                    yield Error("InconsistentGroupOpening", (slot, matrix))


def cap_errors(claim):
    for node, digest in values_of(claim)[-1].items():
        if claim.roots[node : node + 1] != [digest]:
            yield Error("CapMismatch")


def claim_errors(claim):
    if claim.salts is not None:
        yield from salt_errors(claim)
        claim = claim.plain()
    yield from pruned_errors(claim) if claim.is_pruned else leaf_errors(claim)
    yield from cap_errors(claim)


def refusal(claim):
    """The error that a claim is refused with; none where it is accepted."""
    return next(claim_errors(claim), None)


def values_of(claim):
    """The values of covered nodes and of the boundary, a dictionary for each layer up to the cap."""
    shape, functions, rows_at = claim.shape, claim.scheme.functions, claim.first_sets()
    values = [{} for _ in range(shape.cap_layer + 1)]
    for (layer, number), digest in zip(shape.boundary(rows_at), claim.siblings):
        values[layer][number] = digest
    for query, rows in rows_at.items():
        values[0][query] = functions.hash(joined(rows, shape.matrices[0]))
    for level in range(shape.cap_layer):
        own = shape.matrices[level + 1]
        for query, rows in rows_at.items():
            node = shape.ancestor(level + 1, query)
            if node not in values[level + 1]:
                digest = functions.compress([values[level][child] for child in shape.children(level, node)])
                digest = functions.compress([digest, functions.hash(joined(rows, own))]) if own else digest
                values[level + 1][node] = digest
    return values


def checks_of(claim):
    """The check of each query: its index, its rows and its siblings, which are restored."""
    shape, values, rows_at = claim.shape, values_of(claim), claim.first_sets()
    return [(query, rows_at[query], [values[level][child] for level, child in shape.boundary([query])])
            for query in claim.queries]


def places(shape, functions, index, rows, siblings):
    """The places of a check, each a name with its input: what is hashed and compressed from the leaf to the cap."""

    def filled(digests):
        return [*digests, *[functions.zero] * (functions.arity - len(digests))]

    words, siblings = joined(rows, shape.matrices[0]), iter(siblings)
    yield "leaf", words
    digest = functions.hash(words)
    for level, position in enumerate(shape.positions(shape.cap_layer, index)):
        group = [digest if place == position else next(siblings) for place in range(shape.steps[level])]
        yield f"group {level}", filled(group)
        digest = functions.compress(group)
        if shape.matrices[level + 1]:
            words = joined(rows, shape.matrices[level + 1])
            yield f"rows {level}", words
            pair = [digest, functions.hash(words)]
            yield f"pair {level}", filled(pair)
            digest = functions.compress(pair)


def shared_from(shape, first, second):
    """The name of the first place that the checks of two leaves share; none where they share none."""
    if first == second:
        return "leaf"
    for level in range(shape.cap_layer):
        if shape.ancestor(level + 1, first) == shape.ancestor(level + 1, second):
            return f"group {level}"
    return None


def collision(shape, functions, first, second):
    """The last shared place of two checks whose inputs differ, with both inputs."""
    start = shared_from(shape, first[0], second[0])
    if start is None:
        return None
    ours, theirs = (list(places(shape, functions, *check)) for check in (first, second))
    for (name, one), (_, other) in zip(reversed(ours), reversed(theirs)):
        if one != other:
            return name, one, other
        if name == start:
            return None
    return None


def extract(first, second):
    """A refusal and nothing; or no refusal, and the collision that two openings of one cap lead to, if any: the places
    of the first two queries that have one, its name and its inputs."""
    error = refusal(first) or refusal(second)
    if error:
        return error, None
    first, second = (claim.plain() if claim.salts is not None else claim for claim in (first, second))
    for (one, ours), (other, theirs) in product(enumerate(checks_of(first)), enumerate(checks_of(second))):
        found = collision(first.shape, first.scheme.functions, ours, theirs)
        if found:
            return None, (one, other, *found)
    return None, None
