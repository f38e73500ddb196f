"""Lines of crates/test_memory, and what the model answers to their calls, as Rust's `Debug` writes it."""

from cases import Batch
from claims import Claim, checks_of, extract
from geometry import LOWERED
from nodes import WORD, Scheme
from notation import numbers
from salts import Counting

SHARED = ["commit", "open_batch", "open_multi_batch", "get_matrices", "verify_batch", "verify_multi_batch",
          "extract_collision", "extract_collision_multi", "commitment_collision"]
CLONES = ["clone_matrices", "clone_cap", "clone_opening", "clone_multi"]
PLAIN = ["open_batch_pruned", "verify_batch_pruned", "restore_and_recompute_paths", "pruned_len",
         "proof_arity_schedule", "replay_arity_and_positions", "clone_pruned", "clone_paths", "clone_positions"]
SALTED = ["fork"]
VALUES = ["free", "tree", "rand", "append_row", "dimensions_of"]
BUILDERS = ["scalar", "packed", "batched", "batched3"]
# Calls on openings that stand in a line.
VERIFICATIONS = ["verify", "verify_flat", "verify_salted"]
# Calls that take no memory.
FREE = [*VERIFICATIONS, "verify_batch", "salted verify_batch", "free", "salted free"]
# Four heights, with an index that is opened twice.
BATCH = "2x17 2x9 2x5 2x3 | 16 3 3 0"
# How many salts a row has, and the first one.
SALTS, FIRST = 2, 100


def of_builders() -> list[str]:
    """Each call of both schemes, by each builder."""
    return [f"{salted}{builder} 2 | {BATCH} | {call}" for builder in BUILDERS
            for salted, own in (("", PLAIN), ("salted ", SALTED)) for call in SHARED + CLONES + own]


def kind(line: str) -> str:
    """The name of the call of a line, with salts or without."""
    scheme, *_, name = line.split(" | ")
    if (first := scheme.split()[0]) in VERIFICATIONS:
        return first
    return f"{'salted ' if scheme.startswith('salted ') else ''}{name}"


def answer(line: str) -> str:
    """What the call of a line answers with ample memory."""
    return f"Ok({Call(line).answer()})"


def answers_again(line: str) -> list[str]:
    """What it may answer after it ran out of memory; nothing for a verification, which takes none."""
    return [] if kind(line) in VERIFICATIONS else [f"Ok({text})" for text in sorted(Call(line).answers_again())]


def digests(values: list[int]) -> list[list[int]]:
    return [[value] for value in values]


def struct(name: str, **fields: object) -> str:
    return f"{name} {{ {', '.join(f'{field}: {shown(value)}' for field, value in fields.items())} }}"


def shown(value: object) -> str:
    """A value as `Debug` writes it; a text stands for itself."""
    if isinstance(value, list):
        return f"[{', '.join(map(shown, value))}]"
    if isinstance(value, tuple):
        return f"({', '.join(map(shown, value))})"
    return str(value)


class Call:
    """The call of a line on what its scheme committed to."""

    def __init__(self, line: str):
        scheme, batch, queries, self.name = line.split(" | ")
        *salted, _, arity = scheme.split()
        self.matrices, self.queries = Batch(batch).matrices(), numbers(queries)
        self.heights = [len(rows) for rows in self.matrices]
        self.sizes = [(len(rows[0]), len(rows)) for rows in self.matrices]
        self.scheme = Scheme(int(arity), 0, LOWERED, SALTS if salted else 0)

    def tree(self, first: int = FIRST):
        return self.scheme.tree(self.matrices, Counting(first, 1) if self.scheme.salts else None)

    def proof(self, tree, index: int) -> object:
        """The proof of one index: its siblings, with salts ahead of them."""
        siblings = digests(tree.proof([index]))
        return (self.scheme.opened(tree, [index])[1][0], siblings) if self.scheme.salts else siblings

    def committed(self, first: int = FIRST) -> str:
        """The cap, and the proof of index 0, by salts from this one on."""
        tree = self.tree(first)
        return shown((cap_of(tree.cap()), self.proof(tree, 0)))

    def claims(self, is_multi: bool) -> list[Claim]:
        """The opening of the first query, or of all, and the same with other rows of the same digests."""
        tree, index = self.tree(), self.queries if is_multi else self.queries[0]
        sets, *salts = self.scheme.opened(tree, self.queries if is_multi else [index])
        twins = [[twin(rows[0]), *rows[1:]] for rows in sets]
        siblings, salts = tree.proof(self.queries if is_multi else [index]), salts[0] if salts else None
        pick = (lambda found: found) if is_multi else (lambda found: found and found[0])
        return [Claim(self.scheme, tree.cap(), self.sizes, index, pick(rows), siblings, pick(salts))
                for rows in (sets, twins)]

    def extracted(self, is_multi: bool) -> str:
        error, found = extract(*self.claims(is_multi))
        assert not error, error
        if not found:
            return "None"
        one, other, place, first, second = found
        kind, *level = place.split()
        place = f"{kind.capitalize()}({level[0]})" if level else kind.capitalize()
        is_words = kind in ("leaf", "rows")
        first, second = ((first, second) if is_words else (digests(first), digests(second)))
        inputs = struct("Words" if is_words else "Digests", place=place, first=first, second=second)
        return f"Some({shown((one, other, inputs)) if is_multi else inputs})"

    def answer(self) -> str:
        """What the call answers with ample memory."""
        name, queries, tree = self.name, self.queries, self.tree()
        shape, sets = tree.shape, self.scheme.opened(tree, queries)
        if name == "free" or name.startswith("clone"):
            return "true"
        if name.startswith("verify"):
            return "()"
        if name.startswith("extract"):
            return self.extracted(name.endswith("multi"))
        if name == "commitment_collision":
            return "None"
        pruned = struct("PrunedProof", sibling_hashes=digests(tree.proof(queries)))
        return shown({
            "commit": self.committed, "fork": lambda: self.committed(1),
            "open_batch": lambda: struct("BatchOpening", opened_values=sets[0][0],
                                         opening_proof=self.proof(tree, queries[0])),
            "open_multi_batch": lambda: (sets[0], (sets[1], pruned) if self.scheme.salts else pruned),
            "open_batch_pruned": lambda: struct("PrunedRows", opened_values=sets[0], pruned_proof=pruned),
            "get_matrices": lambda: [matrix(rows) for rows in self.matrices],
            "restore_and_recompute_paths": lambda: [
                struct("AuthPath", leaf_index=query, siblings=digests(siblings))
                for query, _, siblings in checks_of(self.claims(True)[0])],
            "pruned_len": lambda: shape.boundary_len(queries),
            "proof_arity_schedule": lambda: shape.proof_steps,
            "replay_arity_and_positions": lambda: struct(
                "ArityAndPositions", arity_schedule=shape.proof_steps,
                query_positions=shape.positions(shape.cap_layer, queries[0])),
            "rand": lambda: matrix([[1, 2], [3, 4], [5, 6]]),
            "append_row": lambda: [word for rows in self.matrices for word in rows[0]],
            "dimensions_of": lambda: [struct("Dimensions", width=width, height=height) for width, height in self.sizes],
            "tree": lambda: (cap_of(tree.layers[0]), "true"),
        }[name]())

    def answers_again(self) -> set[str]:
        """What it answers after it ran out of memory. A salted commit has drawn the salts of the first few matrices by
        then."""
        if self.name != "commit" or not self.scheme.salts:
            return {self.answer()}
        return {self.committed(FIRST + SALTS * sum(self.heights[:count])) for count in range(len(self.heights) + 1)}


def cap_of(roots: list[int]) -> str:
    return f"MerkleCap {{ roots: {shown(digests(roots))}, .. }}"


def matrix(rows: list[list[int]]) -> str:
    return struct("RowMajorMatrix", values=[word for row in rows for word in row], width=len(rows[0]), height=len(rows))


def twin(row: list[int]) -> list[int]:
    """Another row with the same digest, where it has two words or more."""
    return [(row[0] + 1) & WORD, (row[1] - 31) & WORD, *row[2:]] if len(row) > 1 else row
