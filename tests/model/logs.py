"""Models logs by RFC 9162: roots, proofs and verdicts, by the standard's recursions (2.1.1, 2.1.3.1, 2.1.4.1): a log of
more than one entry is split at the largest power of two below its size. A proof is a list of nodes, each a range of
entries. A verdict reads it from the root down, where the standard's verifiers go up from the leaf."""

from hashlib import sha256

MOST = 1 << 62
EMPTY_ROOT = sha256(b"").digest()
# What the calls for C return: accepted, or the first reason not, in this order.
(ACCEPTED, SIZE_TOO_LARGE, INDEX_PAST_END, SMALLER_NEW_SIZE, TOO_FEW_DIGESTS, TOO_MANY_DIGESTS, OLD_ROOT_MISMATCH,
 ROOT_MISMATCH) = range(8)


def leaf_hash(entry):
    return sha256(b"\0" + entry).digest()


def node_hash(left, right):
    return sha256(b"\1" + left + right).digest()


def split(first, last):
    """Where the entries from `first` on, below `last`, are split."""
    return first + (1 << (last - first - 1).bit_length() - 1)


def root_of(first, last, values):
    """The root of the entries from `first` on, below `last`, out of values of nodes."""
    if (first, last) in values:
        return values[first, last]
    middle = split(first, last)
    return node_hash(root_of(first, middle, values), root_of(middle, last, values))


def entry_nodes(indices, first, last):
    """The nodes of a proof of some of the entries from `first` on, below `last`, with these as (layer, slot, first,
    last), in any order: the largest trees below that have none of them. Sorted, those of one entry are its PATH."""
    if last - first == 1:
        return []
    middle = split(first, last)
    layer, nodes = (middle - first).bit_length() - 1, []
    for left, right in (first, middle), (middle, last):
        inside = [index for index in indices if left <= index < right]
        nodes += entry_nodes(inside, left, right) if inside else [(layer, left >> layer, left, right)]
    return nodes


def ranges(indices, size):
    """The same in the order of a proof, as (first, last)."""
    return [node[2:] for node in sorted(entry_nodes(indices, 0, size))]


def subproof(old, first, last, is_known):
    """SUBPROOF of the entries below `old` among those from `first` on, below `last`, as nodes."""
    if old == last:
        return [] if is_known else [(first, last)]
    middle = split(first, last)
    if old <= middle:
        return [*subproof(old, first, middle, is_known), (middle, last)]
    return [*subproof(old, middle, last, False), (first, middle)]


def growth_ranges(old, new):
    """The nodes of a proof of consistency; from size 0 it has none."""
    return subproof(old, 0, new, True) if old else []


class Log:
    """A log, whose roots are kept."""

    def __init__(self, entries):
        self.leaves = [leaf_hash(entry) for entry in entries]
        self.roots = {}

    def root(self, first, last):
        """The root of the entries from `first` on, below `last`."""
        if last - first < 2:
            return self.leaves[first] if first < last else EMPTY_ROOT
        if (first, last) not in self.roots:
            middle = split(first, last)
            self.roots[first, last] = node_hash(self.root(first, middle), self.root(middle, last))
        return self.roots[first, last]

    def inclusion(self, indices, size):
        """The proof of some of the first entries."""
        return [self.root(*node) for node in ranges(indices, size)]

    def consistency(self, old, size):
        """The proof that the first entries begin with fewer."""
        return [self.root(*node) for node in growth_ranges(old, size)]


def inclusion(index, size, leaf, proof, root):
    """The verdict on a proof of inclusion."""
    if size > MOST:
        return SIZE_TOO_LARGE
    if index >= size:
        return INDEX_PAST_END
    nodes = ranges([index], size)
    if len(proof) != len(nodes):
        return TOO_FEW_DIGESTS if len(proof) < len(nodes) else TOO_MANY_DIGESTS
    values = {(index, index + 1): leaf, **dict(zip(nodes, proof))}
    return ACCEPTED if root_of(0, size, values) == root else ROOT_MISMATCH


def roots_of_growth(old, new, old_root, proof):
    """The roots of both sizes that a proof of the right length leads to. The old root is one of its nodes where the old
    entries are a tree of the new ones."""
    values = dict(zip(growth_ranges(old, new), proof))
    if old == new or old.bit_count() == 1:
        values[0, old] = old_root
    return root_of(0, old, values), root_of(0, new, values)


def consistency(old, new, proof, old_root, new_root):
    """The verdict on a proof of consistency. From size 0 and between equal sizes it has no digests."""
    if new > MOST:
        return SIZE_TOO_LARGE
    if new < old:
        return SMALLER_NEW_SIZE
    nodes = growth_ranges(old, new)
    if len(proof) != len(nodes):
        return TOO_FEW_DIGESTS if len(proof) < len(nodes) else TOO_MANY_DIGESTS
    if old == 0:
        before, after = EMPTY_ROOT, new_root if new else EMPTY_ROOT
    else:
        before, after = roots_of_growth(old, new, old_root, proof)
    if before != old_root:
        return OLD_ROOT_MISMATCH
    return ACCEPTED if after == new_root else ROOT_MISMATCH


def entries(size, indices, leaves, proof, root):
    """The verdict on a proof of several entries, as tlog_multiproof words it."""
    if size > MOST:
        return "the size is above 2^62"
    if not indices:
        return "there are no indices"
    if len(leaves) != len(indices):
        return "the number of leaf hashes is not that of the indices"
    if max(indices) >= size:
        return "an index is not below the size"
    nodes = ranges(indices, size)
    if len(proof) != len(nodes):
        return f"the proof has too {'few' if len(proof) < len(nodes) else 'many'} digests"
    by_index = dict(zip(indices, leaves))
    if any(by_index[index] != leaf for index, leaf in zip(indices, leaves)):
        return "one index has two leaf hashes"
    values = {(index, index + 1): leaf for index, leaf in by_index.items()} | dict(zip(nodes, proof))
    return "accepted" if root_of(0, size, values) == root else "the proof is of another root"


VERDICTS = {"inclusion": inclusion, "consistency": consistency}
