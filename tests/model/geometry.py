"""Models the shape of a tree: exponents, steps, lengths, ancestors, the layer of the cap, nodes of a pruned proof."""

from functools import lru_cache
from itertools import accumulate
from operator import mul

MAX_HEIGHT = 1 << 62
MAX_NUMBER = (1 << 64) - 1
LOWERED, FIXED = "l", "f"


def exponent(height):
    """The least k with 2^k >= height."""
    return (height - 1).bit_length() if height else 0


def halvings(tallest, height):
    """How often the tallest height is halved on the way to the exponent of a height."""
    return exponent(tallest) - exponent(height)


def expected_height(tallest, height):
    """The lawful height of the exponent of a height, under the tallest one."""
    return ((tallest - 1) >> halvings(tallest, height)) + 1


def padded_len(length, arity):
    """No nodes and a single one are not padded; else the layer has whole groups."""
    return length if length <= 1 else -(-length // arity) * arity


def step_from(exponents, arity, start):
    """The step from an exponent above 0, and the next exponent. A matrix between both ends of a whole step makes a
    bridge step of 2."""
    target = max(0, start - (arity.bit_length() - 1))
    if any(target < other < start for other in exponents):
        return 2, start - 1
    return arity, target


class Shape:
    """The layers of a tree over matrices of some heights, and which of them is the cap. All of it is defined for
    unlawful heights, too."""

    def __init__(self, arity, heights, cap_height=0, rule=FIXED):
        self.arity, self.heights = arity, heights
        self.tallest = max(heights, default=0)
        exponents = {exponent(height) for height in heights}
        self.exponents, self.steps = [exponent(self.tallest)], []
        while self.exponents[-1] > 0:
            step, following = step_from(exponents, arity, self.exponents[-1])
            self.steps.append(step)
            self.exponents.append(following)
        self.levels = len(self.steps)
        # How many leaves are below a node of each layer, where all groups are full.
        self.spans = list(accumulate(self.steps, mul, initial=1))
        self.layers = [self.exponents.index(exponent(height)) for height in heights]
        self.matrices = [[m for m, own in enumerate(self.layers) if own == layer] for layer in range(self.levels + 1)]
        room = self.levels if rule == FIXED else self.levels - max(self.layers, default=0)
        self.cap_layer = self.levels - min(cap_height, room)
        self.proof_steps = self.steps[: self.cap_layer]
        self.siblings = sum(step - 1 for step in self.proof_steps)

    def ancestor(self, layer, index):
        """The number of the node of a layer that is above a leaf."""
        return index // self.spans[layer]

    def positions(self, layer, index):
        """The places of a leaf's ancestors below a layer, each in its group."""
        return [self.ancestor(level, index) % step for level, step in enumerate(self.steps[:layer])]

    def row(self, matrix, index):
        """The number of the row of a matrix that belongs to a leaf."""
        return index >> halvings(self.tallest, self.heights[matrix])

    def lengths(self):
        """Of each layer how many of its slots are nodes, and how many slots it has."""
        raw, found = self.tallest, []
        for level, step in enumerate(self.steps + [1]):
            width = padded_len(raw, self.arity)
            found.append((raw, width))
            is_cut = step == 2 and raw < self.arity
            raw = ((1 << self.exponents[level]) if is_cut else width) // step
        return found

    def children(self, level, node):
        """The children of a node of the layer above a level."""
        step = self.steps[level]
        return range(step * node, step * node + step)

    def covered(self, queries, layer):
        """The nodes of a layer that are above a query."""
        return {self.ancestor(layer, query) for query in queries}

    def boundary(self, queries):
        """The uncovered children of covered nodes below the cap, by layer and then by number. Those of one query are
        the siblings on its path."""
        found = []
        for level in range(self.cap_layer):
            own = self.covered(queries, level)
            for node in sorted(self.covered(queries, level + 1)):
                found += [(level, child) for child in self.children(level, node) if child not in own]
        return found

    def boundary_len(self, queries):
        """How many these are: the children of covered nodes, but for the covered ones."""
        counts = [len(self.covered(queries, layer)) for layer in range(self.cap_layer + 1)]
        return sum(step * counts[level + 1] - counts[level] for level, step in enumerate(self.proof_steps))

    def suffices(self, queries, given):
        """Whether each covered node of the cap's layer is known from the queries and from given nodes."""
        known = set(queries) | {number for layer, number in given if layer == 0}
        lengths = self.lengths()
        for level in range(self.cap_layer):
            parents = {number // self.steps[level] for number in known}
            known = {number for layer, number in given if layer == level + 1} | {
                node for node in parents
                if node < lengths[level + 1][0] and known.issuperset(self.children(level, node))}
        return self.covered(queries, self.cap_layer) <= known


shape_of = lru_cache(maxsize=4096)(Shape)
