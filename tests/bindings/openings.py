"""Random openings of matrices of bytes under SHA-256, whole and damaged, as words of examples/c/opening.c, each with
the status that the model gives."""

import random

from geometry import FIXED, LOWERED, MAX_HEIGHT
from nodes import Scheme, Sha256
from claims import Claim, refusal
from random_batches import heights_of

SEED = 70
COUNT = 200
# The status of an error.
STATUSES = {"TooLarge": 1, "IndexOutOfBounds": 2, "CapMismatch": 7, "EmptyBatch": 9, "IncompatibleHeights": 10,
            "WrongBatchSize": 11, "WrongWidth": 11}
NO_SUCH_TREE = 8


class Question:
    """A scheme, a cap, dimensions, an index, the bytes of its rows, and siblings."""

    def __init__(self, source):
        self.arity, cap_height = source.choice([2, 4, 8]), source.choice([0, 0, 1, 2, 9])
        self.scheme = Scheme(self.arity, cap_height, source.choice([LOWERED, FIXED]), functions=Sha256)
        heights = heights_of(source, source.randrange(1, 18))
        self.sizes = [(source.randrange(4), height) for height in heights]
        tree = self.scheme.tree([[source.randbytes(width) for _ in range(height)] for width, height in self.sizes])
        self.index = source.randrange(max(heights))
        self.rows, self.siblings = b"".join(tree.rows(self.index)), tree.proof([self.index])
        self.roots = tree.cap()

    def words(self):
        """The words of the program."""
        rule = "f" if self.scheme.rule == FIXED else ""
        sizes = [f"{height}x{width}" for width, height in self.sizes]
        return [self.arity, f"{self.scheme.cap_height}{rule}", self.index, self.rows, *sizes, "roots", *self.roots,
                "siblings", *self.siblings]

    def status(self):
        """What the model answers."""
        if self.arity != self.scheme.arity:
            return NO_SUCH_TREE
        rows, left = [], list(self.rows)
        for width, _ in self.sizes:
            rows, left = [*rows, left[:width]], left[width:]
        rows += [left] * bool(left)
        error = refusal(Claim(self.scheme, self.roots, self.sizes, self.index, rows, self.siblings))
        if error and error.name == "WrongHeight":
            expected, got = error.fields
            return 4 if got < expected else 5
        return STATUSES[error.name] if error else 0

    def damage(self, source):
        """Changes something."""

        def spliced(items, new):
            """Items with one dropped, put in or replaced."""
            place = source.randrange(len(items) + 1)
            return items[:place] + new + items[place + source.randrange(2):]

        part = source.choice(["siblings", "roots", "rows", "index", "sizes", "arity"])
        if part in ("siblings", "roots"):
            setattr(self, part, spliced(getattr(self, part), source.choice([[], [source.randbytes(32)]])))
        elif part == "rows":
            self.rows = spliced(self.rows, source.choice([b"", b"\0"]))
        elif part == "index":
            self.index = source.choice([self.index + 1, 1 << 40])
        elif part == "sizes":
            place = source.randrange(len(self.sizes))
            self.sizes[place] = (self.sizes[place][0], source.choice([0, 3, MAX_HEIGHT + 1]))
        else:
            self.arity = source.choice([0, 1, 3, 16])


def questions():
    """Words to the program, and the status."""
    source = random.Random(SEED)
    for _ in range(COUNT):
        whole, damaged = Question(source), Question(source)
        assert whole.status() == 0
        yield whole.words(), 0
        damaged.damage(source)
        yield damaged.words(), damaged.status()
