"""Models the answers to cases of crates/test_rust/data: a line of numbers, as the head of cases.txt says."""

from functools import partial
from itertools import accumulate, repeat

from cases import Refused, lawful, refuse
from claims import Claim, checks_of, claim_errors, count_errors, pruned_errors
from geometry import FIXED
from nodes import WORD, Fold, Scheme, Sha256
from salts import Counting


class WideFold(Fold):
    """The fold functions with digests of several words: each word starts one higher, and is compressed by itself."""

    def __init__(self, arity, words):
        super().__init__(arity)
        self.zero = (0,) * words

    def hash(self, words):
        return tuple(Fold.hash(self, words, start) for start in range(1, len(self.zero) + 1))

    def compress(self, children):
        padding = [self.zero] * (self.arity - len(children))
        return tuple(Fold.hash(self, map(sum, enumerate(words)), 0) for words in zip(*children, *padding))


def next_state(state, _):
    """The next state of a xorshift generator."""
    state ^= state << 13 & WORD
    state ^= state >> 17
    return state ^ state << 5 & WORD


class Line:
    """The head of a case and its numbers, read one after another."""

    def __init__(self, line):
        call, functions, words, arity, cap_height, rule, *numbers = line.split()
        self.numbers, self.words, self.is_bytes = list(map(int, numbers)), int(words), functions == "sha"
        is_salted = call[0] == "s" and call != "schedule"
        self.call = call[is_salted:]
        functions = Sha256 if self.is_bytes else partial(WideFold, words=self.words)
        salts = self.number() if is_salted else 0
        self.scheme = Scheme(int(arity), int(cap_height), {"x": FIXED}.get(rule, rule), salts, functions)

    def number(self):
        return self.numbers.pop(0)

    def list(self, read):
        return [read() for _ in range(self.number())]

    def digest(self):
        words = [self.number() for _ in range(self.words)]
        return bytes(words) if self.is_bytes else tuple(words)

    def digests(self):
        return self.list(self.digest)

    def row(self):
        return self.list(self.number)

    def rows(self):
        return self.list(self.row)

    def sets(self):
        return self.list(self.rows)

    def dimensions(self):
        """Heights stand before widths."""
        return self.list(lambda: (self.number(), self.number())[::-1])

    def heights(self):
        return [height for _, height in self.dimensions()]

    def matrix(self):
        height, width = self.number(), self.number()
        return [[self.number() for _ in range(width)] for _ in range(height)]

    def drawn_matrices(self):
        """Matrices of some dimensions, whose words are the states of a xorshift generator."""
        found = []
        for seed, (width, height) in enumerate(self.dimensions(), 1):
            words = list(accumulate(repeat(seed, width * height + 1), next_state))[1:]
            words = [word >> 24 for word in words] if self.is_bytes else words
            found.append([words[row * width : (row + 1) * width] for row in range(height)])
        return found

    def tree(self):
        """The next indices, if the call opens leaves, and the tree over the next matrices."""
        mask = 0xFF if self.is_bytes else WORD
        generator = Counting(self.number(), self.number(), mask) if self.scheme.salts else None
        queries = {"open": lambda: [self.number()], "prune": self.row}.get(self.call, list)()
        matrices = self.drawn_matrices() if self.call == "large" else self.list(self.matrix)
        lawful(self.scheme, list(map(len, matrices)), queries)
        return queries, self.scheme.tree(matrices, generator)

    def claim(self):
        """An opening against a cap and dimensions: of an index, or of several."""
        is_pruned, is_restored = self.call in ("vprune", "restore"), self.call == "restore"
        roots = [] if is_restored else self.digests()
        dimensions = self.dimensions()
        index, read = (self.row(), self.sets) if is_pruned else (self.number(), self.rows)
        rows, salts = read(), read() if self.scheme.salts else None
        return Claim(self.scheme, roots, dimensions, index, rows, self.digests(), salts)


def flat(value):
    """The numbers of a value: of a list its length and its items, of a tuple or a digest its items alone."""
    if isinstance(value, int):
        return [value]
    return [len(value)] * isinstance(value, list) + [number for item in value for number in flat(item)]


def commit(line):
    return line.tree()[1].cap()


def layers(line):
    return line.tree()[1].layers


def opened(line):
    queries, tree = line.tree()
    parts = line.scheme.opened(tree, queries)
    return (*(own[0] if line.call == "open" else own for own in parts), tree.proof(queries))


def verify(line):
    refuse(claim_errors(line.claim()))
    return ()


def restore(line):
    claim = line.claim()
    refuse(pruned_errors(claim))
    return [(query, path) for query, _, path in checks_of(claim)]


def schedule(line):
    return lawful(line.scheme, line.heights()).proof_steps


def replay(line):
    heights, index, siblings = line.heights(), line.number(), line.number()
    shape = lawful(line.scheme, heights, [index])
    refuse(count_errors("WrongHeight", shape.siblings, siblings))
    return shape.proof_steps, shape.positions(shape.cap_layer, index)


CALLS = {"commit": commit, "large": commit, "layers": layers, "open": opened, "prune": opened, "verify": verify,
         "vprune": verify, "restore": restore, "schedule": schedule, "replay": replay}


def answer(case):
    line = Line(case)
    try:
        return " ".join(map(str, ["ok", *flat(CALLS[line.call](line))]))
    except Refused as refused:
        error, = refused.args
        return " ".join(map(str, ["err", error.name, *error.fields]))
