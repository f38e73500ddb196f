"""Models hashes, the nodes of a tree, and schemes: what is committed to and opened."""

import hashlib

from geometry import shape_of

WORD = (1 << 32) - 1


class Fold:
    """The fold functions, with digests of one word."""

    zero = 0

    def __init__(self, arity):
        self.arity = arity

    def hash(self, words, state=1):
        """Takes each word in."""
        for word in words:
            state = (31 * state + word) & WORD
        return state

    def compress(self, children):
        """Takes each child and its place in; children that are not there have the default digest."""
        padding = [0] * (self.arity - len(children))
        return self.hash([child + place for place, child in enumerate([*children, *padding])], 0)


class Sha256:
    """SHA-256 of the bytes of a row, and of the digests of the children one after another."""

    zero = bytes(32)

    def __init__(self, arity):
        self.arity = arity

    def hash(self, words):
        return hashlib.sha256(bytes(words)).digest()

    def compress(self, children):
        padding = [self.zero] * (self.arity - len(children))
        return self.hash(b"".join([*children, *padding]))


def joined(rows, matrices):
    """The words of the rows of some matrices, one after another."""
    return [word for matrix in matrices for word in rows[matrix]]


class Tree:
    """The layers over some matrices, each a list of rows."""

    def __init__(self, shape, functions, matrices):
        self.shape, self.functions, self.matrices = shape, functions, matrices
        self.layers = []
        for raw, width in shape.lengths():
            padding = [functions.zero] * (width - raw)
            self.layers.append([self.node(len(self.layers), number) for number in range(raw)] + padding)

    def row_digest(self, layer, number):
        """The digest of the rows of a node; the default digest past the end of its matrices."""
        own = self.shape.matrices[layer]
        if number >= len(self.matrices[own[0]]):
            return self.functions.zero
        return self.functions.hash([word for matrix in own for word in self.matrices[matrix][number]])

    def node(self, layer, number):
        """The value of a node, from the layer below."""
        if layer == 0:
            return self.row_digest(0, number)
        step = self.shape.steps[layer - 1]
        digest = self.functions.compress(self.layers[layer - 1][step * number : step * number + step])
        if not self.shape.matrices[layer]:
            return digest
        return self.functions.compress([digest, self.row_digest(layer, number)])

    def cap(self):
        """The layer of the cap, whole."""
        return self.layers[self.shape.cap_layer]

    def rows(self, index):
        """The row of each matrix that belongs to a leaf."""
        return [rows[self.shape.row(matrix, index)] for matrix, rows in enumerate(self.matrices)]

    def proof(self, queries):
        """The digests of the boundary."""
        return [self.layers[layer][number] for layer, number in self.shape.boundary(queries)]


class Scheme:
    """An arity, a cap, functions and, where rows are salted, so many salts a row."""

    def __init__(self, arity, cap_height, rule, salts=0, functions=Fold):
        self.arity, self.cap_height, self.rule, self.salts = arity, cap_height, rule, salts
        self.functions = functions(arity)

    def shape(self, heights):
        return shape_of(self.arity, tuple(heights), self.cap_height, self.rule)

    def tree(self, matrices, generator=None):
        """The tree over matrices, or over rows followed by salts that a generator draws, in input order."""
        if generator:
            matrices = [[[*row, *(generator.salt() for _ in range(self.salts))] for row in rows] for rows in matrices]
        return Tree(self.shape(map(len, matrices)), self.functions, matrices)

    def opened(self, tree, queries):
        """The row sets of some leaves; with salts the rows without them, and the salts."""
        cuts = [slice(-self.salts), slice(-self.salts, None)] if self.salts else [slice(None)]
        return [[[row[cut] for row in tree.rows(query)] for query in queries] for cut in cuts]
