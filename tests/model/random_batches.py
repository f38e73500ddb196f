"""Models random users of the library: a batch of matrices, and cases of every kind about it."""

import cases
import notation
from claims import Claim, refusal
from damage import damaged
from geometry import FIXED, LOWERED, MAX_NUMBER, expected_height, exponent
from nodes import Fold, Scheme
from notation import print_dimensions, print_nodes, print_numbers
from salts import Generator


def heights_of(random, tallest):
    """The tallest height and some of those that are lawful under it, in any order."""
    rungs = [expected_height(tallest, 1 << power) for power in range(exponent(tallest) + 1)]
    found = [tallest] + [random.choice(rungs) for _ in range(random.choice([0, 0, 1, 1, 2, 4]))]
    random.shuffle(found)
    return found


def words_of(random, count):
    limit = random.choice([9, 9, 1 << 32])
    return [random.randrange(limit) for _ in range(count)]


class Trial:
    """A batch, its scheme, its tree and some queries; and its cases, each with what the model answers and what it is
    counted as."""

    def __init__(self, random, size, is_salted):
        self.random, self.found, self.size = random, [], size
        self.scheme = Scheme(random.choice([2, 4, 8]), random.choice([0, 0, 0, 1, 1, 2, 3, 5, MAX_NUMBER]),
                             random.choice([LOWERED, FIXED]), random.choice([1, 2]) if is_salted else 0)
        heights = heights_of(random, random.randrange(1, size + 1))
        most = 1 + size // 3 if size < 60 else 39
        self.dimensions = [(random.randint(1, most), height) for height in heights]
        matrices = [[words_of(random, width) for _ in range(height)] for width, height in self.dimensions]
        seed = random.randrange(256)
        self.tree = self.scheme.tree(matrices, Generator(bytes([seed] * 32)) if is_salted else None)
        leaves = self.tree.shape.tallest
        self.queries = [random.randrange(leaves) for _ in range(random.choice([0, 1, 2, 3, 5, 9]))]
        self.index = random.randrange(leaves)
        self.head = head_of(self.scheme)
        self.heights = print_numbers(heights)
        self.batch = f"{self.head} | " + f"{seed} | " * is_salted + notation.print_matrices(matrices)

    def add(self, line, counted="answered"):
        """A case whose answer is the model's."""
        answer = cases.answers(line)[0][0]
        self.found.append((line, answer, (line.split(" |")[0], counted)))
        return answer

    def add_honest(self, line, expected=None):
        """A case of what is honest, which has to be accepted."""
        answer = self.add(line, "honest")
        if expected is not None and answer != expected:
            raise AssertionError(f"the model answers {answer} to the honest {line}")

    def claim(self, index):
        """The honest opening of an index, or of a list of them."""
        is_pruned = isinstance(index, list)
        queries = index if is_pruned else [index]
        parts = self.scheme.opened(self.tree, queries)
        rows, salts = [part if is_pruned else part[0] for part in parts] + [None] * (not self.scheme.salts)
        return Claim(self.scheme, self.tree.cap(), self.dimensions, index, rows, self.tree.proof(queries), salts).copy()


def head_of(scheme):
    """The fields of a scheme."""
    return f"{scheme.arity} | {scheme.cap_height}{scheme.rule}" + f" | {scheme.salts}" * bool(scheme.salts)


def opening_of(claim):
    """The fields of an opening: its index, rows, salts and siblings."""
    read = notation.print_row_sets if claim.is_pruned else notation.print_rows
    parts = [read(part) for part in (claim.rows, claim.salts) if part is not None]
    return " | ".join([print_numbers(claim.queries), *parts, print_numbers(claim.siblings)])


def line_of(claim, kind="verify", *others):
    """The case of an opening, or of several, against the cap and the dimensions of the first."""
    kind = "salted_" * bool(claim.scheme.salts) + kind + "_pruned" * claim.is_pruned
    against = f"{print_numbers(claim.roots)} | {print_dimensions(claim.dimensions)}"
    return " | ".join([kind, head_of(claim.scheme), against, *map(opening_of, (claim, *others))])


def add_restored(trial, claim, counted):
    if claim.is_pruned and claim.salts is None:
        dimensions = print_dimensions(claim.dimensions)
        trial.add(f"restore | {trial.head} | {dimensions} | {opening_of(claim)}", counted)


def is_written(claim):
    """Whether the notation has a form for it: there is none for one row set of one empty row."""
    return not claim.is_pruned or [[[]]] not in (claim.rows, claim.salts)


def add_shape(trial):
    """The calls that take heights alone, also with numbers that are wrong."""
    random = trial.random
    wrong = [0, 1, 5, 1 << 62, (1 << 62) + 1]
    heights = trial.heights + (f" {random.choice(wrong)}" if random.random() < 0.2 else "")
    indices = trial.queries + ([random.choice([99, MAX_NUMBER])] if random.random() < 0.2 else [])
    count = trial.tree.shape.siblings + random.choice([0, 0, 0, 1])
    index = random.choice([trial.index, trial.index, trial.index + 7])
    trial.add(f"heights | {heights}")
    for kind, rest in {"schedule": "", "authenticated": "", "pruned_len": f" | {print_numbers(indices)}",
                       "replay": f" | {index} | {count}"}.items():
        trial.add(f"{kind} | {trial.head} | {heights}{rest}")


def add_tree(trial):
    """The calls that build a tree, and what is opened out of it."""
    queries, matrices = print_numbers(trial.queries), trial.batch.split(" | ")[-1]
    if trial.scheme.salts:
        trial.add_honest(f"salted_open | {trial.batch} | {trial.index}")
        trial.add_honest(f"salted_pruned | {trial.batch} | {queries}")
        trial.add_honest(f"salted_commits | {trial.batch} / {matrices}")
        trial.add_honest(f"salted_fork | {trial.batch}")
        return
    trial.add_honest(f"commit | {trial.batch}", print_numbers(trial.tree.cap()))
    trial.add_honest(f"layers | {trial.scheme.arity} | {matrices}")
    trial.add_honest(f"shape | {trial.head} | {trial.heights}")
    nodes = print_nodes(trial.tree.shape.boundary(trial.queries))
    trial.add_honest(f"known | {trial.head} | {trial.heights} | {queries} | {nodes}")
    trial.add_honest(f"open | {trial.batch} | {trial.index}")
    trial.add_honest(f"pruned | {trial.batch} | {queries}")


def check_collision(arity, answer):
    """Whether the two inputs of an answered collision differ and have one digest, worked out once more."""
    name, *inputs = answer.split(" | ")[-3:]
    first, second = map(notation.numbers, inputs)
    functions = Fold(arity)
    digest = functions.hash if name.startswith(("leaf", "rows")) else functions.compress
    return first != second and digest(first) == digest(second)


def opened_rows(shape, claim):
    """The rows of authenticated matrices that an opening has, each with its salts."""
    parts = [claim.sets(part) for part in (claim.rows, claim.salts) if part is not None]
    return {(matrix, shape.row(matrix, index)): [rows[matrix] for rows in opened]
            for index, *opened in zip(claim.queries, *parts)
            for matrix, layer in enumerate(shape.layers) if layer <= shape.cap_layer}


def opens_other(trial, honest, other):
    """Whether another row or salt of an authenticated matrix is opened at one index by both."""
    ours, theirs = (opened_rows(trial.tree.shape, claim) for claim in (honest, other))
    return any(place in theirs and theirs[place] != row for place, row in ours.items())


def count_accepted(trial, honest, other):
    """What a damaged opening that is accepted counts as; a collision is asked for, and looked at."""
    if opening_of(other) == opening_of(honest):
        return "still the honest one"
    if other.dimensions != honest.dimensions or other.roots != honest.roots:
        return "accepted under other dimensions or another cap"
    line = line_of(honest, "extract", other)
    answer = trial.add(line, "two accepted")
    if answer != "none" and check_collision(trial.scheme.arity, answer):
        return "accepted, with a collision"
    if answer != "none" or opens_other(trial, honest, other):
        raise AssertionError(f"{answer} is no collision of {line}")
    return "accepted, and nothing that is authenticated differs"


def add_damaged(trial, honest):
    """A damaged opening through the calls that take it."""
    other = damaged(trial.random, honest)
    if not is_written(other):
        return
    error = refusal(other)
    counted = f"refused: {error.name}" if error else count_accepted(trial, honest, other)
    trial.add(line_of(other), f"damaged, {counted}")
    add_restored(trial, other, "of the damaged")
    if trial.random.random() < 0.2 and other.dimensions == honest.dimensions:
        pair = trial.random.sample([honest, other], 2)
        trial.add(line_of(pair[0], "extract", pair[1]), "of the damaged")


def cases_of(random, size, is_salted):
    """The cases of a batch, which is small, but now and then a larger one."""
    small = random.random() < 0.99
    trial = Trial(random, size or random.choice([2, 4, 6, 9, 9, 9, 12] if small else [40, 120, 300]), is_salted)
    if not is_salted:
        add_shape(trial)
    add_tree(trial)
    for honest in filter(is_written, map(trial.claim, (trial.index, trial.queries))):
        trial.add_honest(line_of(honest), "accepted")
        trial.add_honest(line_of(honest, "extract", honest), "none")
        add_restored(trial, honest, "honest")
        for _ in range(12 if trial.size < 40 else 2):
            add_damaged(trial, honest)
    return trial.found
