"""Which rows of a table in docs/REFUSALS.md apply to a stored case: each reason by itself, whatever the others are. The
geometry is the model's, which is defined for heights that no tree has, too."""

import logs
from cases import Batch, Fields
from claims import refusal
from geometry import LOWERED, MAX_HEIGHT, MAX_NUMBER, expected_height
from log_answers import items
from nodes import Scheme
from notation import dimensions, numbers


def rows_that_hold(reasons, first=1):
    """The numbers of the reasons that hold, counted from a number."""
    return {row for row, holds in enumerate(reasons, first) if holds}


# ---- matrices


def of_heights(heights):
    tallest = max(heights, default=0)
    return [tallest == 0, any(height > MAX_HEIGHT for height in heights),
            tallest > 0 and any(height != expected_height(tallest, height) for height in heights)]


def is_past_end(heights, indices):
    return any(index >= max(heights, default=0) for index in indices)


def have_other_widths(sizes, rows):
    return any(len(row) != width for (width, _), row in zip(sizes, rows))


def are_too_wide(sizes, salts):
    return any(width + salts > MAX_NUMBER for width, _ in sizes)


def lacks_entry(claim):
    """Whether the cap has no entry above an index."""
    shape = claim.shape
    return any(shape.ancestor(shape.cap_layer, index) >= len(claim.roots) for index in claim.queries)


def of_leaf(claim):
    return [len(claim.rows) != len(claim.dimensions), *of_heights(claim.heights),
            len(claim.siblings) != claim.shape.siblings, have_other_widths(claim.dimensions, claim.rows),
            is_past_end(claim.heights, [claim.index]), lacks_entry(claim)]


def differ_under_a_node(claim):
    """Whether two indices under one node, at most as high as the cap, have different rows of a matrix of its layer."""
    shape, sets, found = claim.shape, claim.first_sets(), {}
    for layer in range(1, shape.cap_layer + 1):
        for matrix in shape.matrices[layer]:
            for index, rows in sets.items():
                row = rows[matrix] if matrix < len(rows) else []
                if found.setdefault((layer, matrix, shape.ancestor(layer, index)), row) != row:
                    return True
    return False


def of_leaves(claim):
    indices, sets = claim.index, claim.first_sets()
    have_other_rows = any(len(rows) != len(claim.dimensions) or have_other_widths(claim.dimensions, rows)
                          for rows in sets.values())
    return [*of_heights(claim.heights), len(indices) != len(claim.rows), bool(not indices and claim.siblings),
            is_past_end(claim.heights, indices), any(rows != sets[index] for index, rows in zip(indices, claim.rows)),
            bool(indices) and len(claim.siblings) != claim.shape.boundary_len(indices), have_other_rows,
            differ_under_a_node(claim), lacks_entry(claim)]


def of_rows_and_salts(sizes, rows, salts):
    return [len(rows) != len(sizes), have_other_widths(sizes, rows), len(rows) != len(salts)]


def of_salted_leaf(claim):
    own = [*of_rows_and_salts(claim.dimensions, claim.rows, claim.salts),
           are_too_wide(claim.dimensions, claim.scheme.salts)]
    return [*own, *of_leaf(claim.plain())[1:]]


def of_salted_leaves(claim):
    own = [len(claim.rows) != len(claim.salts),
           any(any(of_rows_and_salts(claim.dimensions, *pair)) for pair in zip(claim.rows, claim.salts)),
           are_too_wide(claim.dimensions, claim.scheme.salts)]
    return [*own, *of_leaves(claim.plain())]


def of_verifier(fields):
    """The rows of a verifier. The cap's, which is the last, applies also where it alone does."""
    scheme, roots, sizes = fields.read(Scheme), fields.read(numbers), fields.read(dimensions)
    claim = fields.claim(scheme, roots, sizes)
    tables = {(False, False): of_leaf, (True, False): of_leaves, (False, True): of_salted_leaf,
              (True, True): of_salted_leaves}
    reasons = tables[claim.is_pruned, fields.is_salted](claim)
    if not any(reasons):
        reasons[-1] = refusal(claim) is not None
    return rows_that_hold(reasons)


def of_restoration(fields):
    scheme, sizes = fields.read(Scheme), fields.read(dimensions)
    return rows_that_hold(of_leaves(fields.claim(scheme, [], sizes))[:-1])


def of_extraction(fields):
    scheme, roots, sizes = fields.read(Scheme), fields.read(numbers), fields.read(dimensions)
    return rows_that_hold([refusal(fields.claim(scheme, roots, sizes)) is not None for _ in range(2)])


def of_replay(fields):
    scheme, heights, index, count = fields.read(Scheme), *map(fields.read, (numbers, int, int))
    others = is_past_end(heights, [index]), scheme.shape(heights).siblings != count
    return rows_that_hold([*of_heights(heights), *others])


def of_length(fields):
    _, heights, indices = fields.read(Scheme), fields.read(numbers), fields.read(numbers)
    return rows_that_hold([*of_heights(heights), is_past_end(heights, indices)])


def of_schedule(fields):
    fields.read(Scheme)
    return rows_that_hold(of_heights(fields.read(numbers)))


def of_salted_commit(fields):
    """The rows of the first batch."""
    scheme, _, batches = fields.read(Scheme), fields.read(int), fields.read()
    batch = Batch(batches.split("/")[0].strip())
    return rows_that_hold([*of_heights(batch.heights), are_too_wide(batch.sizes, scheme.salts)])


# ---- logs


def has_other_length(nodes, proof):
    return len(items(proof)) != len(nodes)


def of_inclusion(size, _, index, leaf, proof):
    size, index = int(size), int(index)
    is_inside = index < size
    return rows_that_hold([size > logs.MOST, not is_inside,
                           is_inside and has_other_length(logs.ranges([index], size), proof)])


def of_consistency(size, _, old_size, old, proof):
    size, old_size = int(size), int(old_size)
    is_growth = old_size <= size
    return rows_that_hold([size > logs.MOST, not is_growth,
                           is_growth and has_other_length(logs.growth_ranges(old_size, size), proof)])


def of_entries(size, _, indices, leaves, proof):
    size, indices, leaves = int(size), [*map(int, items(indices))], items(leaves)
    are_inside = bool(indices) and max(indices) < size
    by_index = dict(zip(indices, leaves))
    return rows_that_hold([size > logs.MOST, not indices, len(leaves) != len(indices),
                           bool(indices) and not are_inside,
                           are_inside and has_other_length(logs.ranges(indices, size), proof),
                           any(by_index[index] != leaf for index, leaf in zip(indices, leaves))])


def of_frontier(size, count, more):
    size, count = int(size), int(count)
    return rows_that_hold([size > logs.MOST, size.bit_count() != count])


VERIFIER = dict.fromkeys(["verify", "verify_pruned", "salted_verify", "salted_verify_pruned"], of_verifier)
EXTRACTION = dict.fromkeys(["extract", "extract_pruned", "salted_extract", "salted_extract_pruned"], of_extraction)
OF_MATRICES = {**VERIFIER, **EXTRACTION, "restore": of_restoration, "replay": of_replay, "pruned_len": of_length,
               "heights": lambda fields: rows_that_hold(of_heights(fields.read(numbers))), "schedule": of_schedule,
               "authenticated": of_schedule, "salted_commits": of_salted_commit}
OF_LOGS = {"included": of_inclusion, "consistent": of_consistency, "verify": of_entries, "frontier": of_frontier}


def rows_of(case):
    """The rows that apply to a case; none where they are not worked out here."""
    kind = case.split(" ")[0]
    if " | " in case:
        return OF_MATRICES[kind](Fields(case, LOWERED)) if kind in OF_MATRICES else set()
    return OF_LOGS[kind](*case.split(" ")[1:]) if kind in OF_LOGS else set()
