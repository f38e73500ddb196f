"""Models random users of the verifiers of logs: honest proofs, and these damaged, of other sizes, indices, leaves and
roots; and proofs of any sizes whose root is computed from random digests, which are accepted as well."""

import logs
from logs import MOST, Log

SIZES = [0, 1, 2, MOST - 1, MOST, MOST + 1, (1 << 63) + 1, (1 << 64) - 1]


def digests(rng, count):
    return [rng.randbytes(32) for _ in range(count)]


def near(rng, number):
    """A number, or one beside it, or any."""
    kind = rng.randrange(8)
    if kind == 0:
        return rng.choice(SIZES)
    return max(0, number + (rng.choice([-1, 1, 2, number]) if kind < 3 else 0))


def damaged(rng, proof, pool):
    """A proof with a digest or two dropped, put in, replaced or moved; or as it was."""
    proof = list(proof)
    for _ in range(rng.choice([0, 0, 1, 1, 2])):
        at, other = rng.randrange(len(proof) + 1), rng.choice(pool)
        proof[at : at + 1] = rng.choice([[], [other], [other, *proof[at : at + 1]]])
        if rng.randrange(4) == 0:
            rng.shuffle(proof)
    return proof


def of_a_log(rng, log):
    """A question about a log of entries."""
    size = rng.randint(1, len(log.leaves))
    root, pool = log.root(0, size), [*log.leaves, *log.roots.values(), *digests(rng, 1)]
    other = rng.choice(pool) if rng.randrange(6) == 0 else None
    if rng.randrange(2):
        index = rng.randrange(size)
        proof = damaged(rng, log.inclusion([index], size), pool)
        return "inclusion", near(rng, index), near(rng, size), other or log.leaves[index], proof, root
    old = rng.randint(0, size)
    proof = damaged(rng, log.consistency(old, size), pool)
    roots = [log.root(0, old), root]
    if other:
        roots[rng.randrange(2)] = other
    return "consistency", near(rng, old), near(rng, size), proof, *roots


def sown(rng):
    """A question about random digests, which lead to a root."""
    size = rng.choice([rng.randint(1, 40), rng.randint(1, MOST), rng.choice(SIZES[1:5])])
    if rng.randrange(2):
        index = rng.randrange(size)
        nodes = logs.ranges([index], size)
        leaf, *proof = digests(rng, 1 + len(nodes))
        values = {(index, index + 1): leaf, **dict(zip(nodes, proof))}
        return "inclusion", index, size, leaf, proof, logs.root_of(0, size, values)
    old = rng.randint(1, size)
    known, *proof = digests(rng, 1 + len(logs.growth_ranges(old, size)))
    return "consistency", old, size, proof, *logs.roots_of_growth(old, size, known, proof)


def of_entries(rng, most):
    """A question about several entries of a log of at most so many: the size, the log's size, the indices, the entries
    whose leaf hashes are handed on, and the nodes, as (layer, slot), whose digests are."""
    log_size = rng.randint(1, most)
    indices = [rng.randrange(log_size) for _ in range(rng.randint(1, 5))]
    nodes = [(layer, slot) for layer, slot, _, _ in sorted(logs.entry_nodes(indices, 0, log_size))]
    pool = [(layer, slot) for layer in range(log_size.bit_length()) for slot in range((log_size - 1 >> layer) + 1)]
    leaves = [*indices]
    if rng.randrange(4) == 0:
        leaves[rng.randrange(len(leaves))] = rng.randrange(log_size)
    if rng.randrange(8) == 0:
        place = rng.randrange(len(indices))
        indices[place] = near(rng, indices[place])
    if rng.randrange(16) == 0:
        rng.choice([leaves, indices]).pop()
    return near(rng, log_size), log_size, indices, leaves, damaged(rng, nodes, pool)


def questions(rng):
    """Questions without end."""
    while True:
        log = Log([rng.randbytes(rng.randrange(70)) for _ in range(rng.choice([3, 10, 70, 300]))])
        for _ in range(100):
            yield of_a_log(rng, log) if rng.randrange(4) else sown(rng)
