// Made from crates/p3_merkle_core/src/group.rt by tools/erase.

//! Groups of digests. A compression takes a group of `N`: where there are fewer digests, default digests follow.

use crate::fallible::{AllocError, VecExt};
use alloc::vec::Vec;

/// The group of a node on a path: its siblings with its own `digest` inserted at `position`, then default digests.
/// There must be fewer siblings than `N`, and `position` must be at most their number.
#[inline]
pub(crate) fn group_with<W: Copy, const N: usize, const D: usize>(
    default_digest: [W; D],
    digest: [W; D],
    position: usize,
    siblings: &[[W; D]],
) -> [[W; D]; N] {
    let mut group = [default_digest; N];
    // Groups are small: one write for each digest costs less than two slice copies.
    group[position] = digest;
    for (k, sibling) in siblings.iter().enumerate() {
        let slot = if k < position { k } else { k + 1 };
        group[slot] = *sibling;
    }
    group
}

/// The group of a node's children: their digests, then default digests. There must be at most `N` children.
#[inline]
pub(crate) fn padded_group<W: Copy, const N: usize, const D: usize>(
    default_digest: [W; D],
    children: &[[W; D]],
) -> [[W; D]; N] {
    // Slot by slot: copies of slices as short as these are calls that take longer.
    core::array::from_fn(|place| -> [W; D] {
        if place < children.len() { children[place] } else { default_digest }
    })
}

/// The group of two digests, `left` and `right`, then default digests. A node to which rows belong compresses the
/// digest of its children and that of its rows in this way. `N` must be at least 2.
#[inline]
pub(crate) fn pair_group<W: Copy, const N: usize, const D: usize>(
    default_digest: [W; D],
    left: [W; D],
    right: [W; D],
) -> [[W; D]; N] {
    let mut group = [default_digest; N];
    group[0] = left;
    group[1] = right;
    group
}

/// Appends the siblings of the digest at `position`: the other digests of its group, or of a part of its group. The
/// group must have a digest at that position.
///
/// # Errors
///
/// `AllocError` if memory runs out.
#[inline]
pub(crate) fn append_siblings<X: Copy>(digests: &mut Vec<X>, group: &[X], position: usize) -> Result<(), AllocError> {
    // Each read computes its index without a branch: the position is as good as random.
    for place in 1..group.len() {
        digests.try_push(group[place - usize::from(place <= position)])?;
    }
    Ok(())
}
