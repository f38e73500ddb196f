"""Models whoever hands in wrong openings: random damage to a claim, and changes that keep its digests."""

from collections import defaultdict

from claims import copied, values_of
from geometry import MAX_HEIGHT, MAX_NUMBER
from nodes import WORD

HEIGHTS = [0, 1, 2, 3, 4, 5, 6, 7, MAX_HEIGHT, MAX_HEIGHT + 1, 2 * MAX_HEIGHT, MAX_NUMBER]
PARTS = ["roots", "dimensions", "dimensions", "index", "rows", "rows", "salts", "siblings"]


def changed(random, claim, part, value):
    """Another number, or other dimensions."""
    if part == "dimensions":
        width, height = value
        other = random.choice([0, 2, MAX_NUMBER])
        return random.choice([(other, height), (width, random.choice(HEIGHTS)), (width, random.choice(HEIGHTS))])
    if part == "index":
        tallest = claim.shape.tallest
        other = random.choice([random.randrange(max(1, tallest)), tallest + random.choice([0, 1, 5]), MAX_NUMBER])
        return min(other, MAX_NUMBER)
    return random.choice([value ^ 1, value + 1 & WORD, value ^ 1 << 31, random.getrandbits(32)])


def lists_in(values, depth):
    """A list and all in it, each with the depth of its items: that of numbers is 0."""
    yield values, depth
    for own in values if depth else []:
        yield from lists_in(own, depth - 1)


def damage_part(random, claim):
    """An item of some list is dropped, repeated, changed, exchanged with the next one, or one is added."""
    part = random.choice(PARTS)
    values = getattr(claim, part)
    if isinstance(values, int):
        claim.index = changed(random, claim, part, values)
    if not isinstance(values, list):
        return
    depth = 1 + claim.is_pruned if part in ("rows", "salts") else 0
    level = random.choice([0, 0, *range(depth + 1)])
    lists = [found for found, below in lists_in(values, depth) if below == level]
    if not lists:
        return
    own = random.choice(lists)
    place = random.randrange(len(own) + 1)
    items, following = own[place : place + 1], own[place + 1 : place + 2]
    added = (1, 1) if part == "dimensions" else random.randrange(9)
    for _ in range(level):
        added = [added]
    other = [[changed(random, claim, part, item) for item in items] + following] if level == 0 else []
    own[place : place + 2] = random.choice([
        following, items + copied(items) + following, following + items, [added] + items + following, *other * 6])


def no_heights(random, claim):
    claim.dimensions = random.choice([[], [(width, 0) for width, _ in claim.dimensions]])


def no_roots(random, claim):
    claim.roots = []


def no_queries(random, claim):
    if claim.is_pruned:
        claim.index, claim.rows, claim.salts = [], [], [] if claim.salts is not None else None


def repeat_query(random, claim):
    """A query is repeated with its rows and salts; or there is a row set more."""
    if claim.is_pruned and len(claim.index) == len(claim.rows) and claim.index:
        place = random.randrange(len(claim.index))
        for values in (claim.index, claim.rows, claim.salts or [])[random.randrange(2) :]:
            values += copied(values[place : place + 1])


def fit_salts(random, claim):
    """As many salt sets as row sets, and as many salts as rows."""
    if claim.salts is not None:
        sets = claim.sets(claim.rows)
        own = [*claim.sets(claim.salts), *([] for _ in sets)]
        fitting = [(salts + [[1]] * len(rows))[: len(rows)] for rows, salts in zip(sets, own)]
        claim.salts = fitting if claim.is_pruned else fitting[0]


def fit_siblings(random, claim):
    """As many siblings as the heights ask for."""
    needed = claim.shape.boundary_len(claim.index) if claim.is_pruned else claim.shape.siblings
    claim.siblings = (claim.siblings + [0] * needed)[:needed]


WHOLE = [no_heights, no_roots, no_queries, repeat_query, repeat_query]


def variables(claim):
    """Each number that is opened, as the places where it stands: those of a row in all sets that open it."""
    found, parts = defaultdict(list), [claim.sets(part) for part in (claim.rows, claim.salts) if part is not None]
    for query, *opened in zip(claim.queries, *parts):
        for part, rows in enumerate(opened):
            for matrix, row in enumerate(rows):
                for place in range(len(row)):
                    found[part, matrix, claim.shape.row(matrix, query), place].append((row, place))
    return [*found.values(), *([(claim.siblings, place)] for place in range(len(claim.siblings)))]


def roots_of(claim):
    """The roots that an opening leads to, by their places."""
    return values_of(claim.plain() if claim.salts is not None else claim)[-1]


def shift(variable, by):
    for values, place in variable:
        values[place] = values[place] + by & WORD


def effect(claim, before, variable):
    """How much roots change with a number, by their places; none of those that do not."""
    shift(variable, 1)
    after = roots_of(claim)
    shift(variable, -1)
    return {node: after[node] - digest for node, digest in before.items() if after[node] != digest}


def twin(random, claim):
    """Changes a number of an honest opening, and makes up for it by another one. The fold functions are linear, and the
    effect of a number is a power of 31, which has an inverse; that of a row above the cap is none."""
    found, before = variables(claim), roots_of(claim)
    if len(found) < 2:
        return
    # Numbers that stand together are often those of one place.
    at = random.randrange(len(found) - 1)
    one, other = random.choice([found[at : at + 2], random.sample(found, 2)])
    ours, theirs = effect(claim, before, one), effect(claim, before, other)
    if not ours:
        shift(one, 1)
    elif ours.keys() == theirs.keys():
        (root, ours), = ours.items()
        shift(other, 1)
        shift(one, -theirs[root] * pow(ours, -1, WORD + 1))


def damaged(random, claim):
    """A damaged opening that is another one, where some tries find such a one."""
    for _ in range(4):
        other = claim.copy()
        if random.random() < 0.4:
            for _ in range(random.choice([1, 1, 1, 1, 2])):
                twin(random, other)
        else:
            for _ in range(random.choice([1, 1, 1, 2, 3])):
                random.choice([damage_part] * 15 + WHOLE)(random, other)
            for fit in (fit_salts, fit_siblings):
                if random.random() < 0.23:
                    fit(random, other)
        if other != claim:
            break
    return other
