// Made from crates/p3_merkle_hashing/src/nodes.rt by tools/erase.

//! How groups of children are compressed, and injected rows with them: one node in each lane of a call, or many nodes a
//! call.

use crate::erased::p3_merkle_core::group::{padded_group, pair_group};
use crate::erased::p3_merkle_hashing::calls::messages_per_call;
use crate::erased::p3_support::compress::PseudoCompressionFunction;
use crate::erased::p3_support::packed::PackedValue;
use crate::fallible::{AllocError, VecExt};
use alloc::vec::Vec;

/// Packs child `n` of each of `PW::WIDTH` nodes: lane `k` has that of node `first + k`. `below` is the layer of the
/// children, of which each node has `step`. `n` must be below `step`, and the children of the last node must be in
/// `below`.
// Inlined: a call would store the child in memory in parts of one size, and read it in parts of another, which is slow.
#[inline(always)]
fn packed_child<PW: PackedValue, const D: usize>(
    below: &[[PW::Value; D]],
    step: usize,
    first: usize,
    n: usize,
) -> [PW; D] {
    core::array::from_fn(|e| -> PW { PW::from_fn(|k| -> PW::Value { below[step * (first + k) + n][e] }) })
}

/// The digests of `PW::WIDTH` nodes: lane `k` is the compression of the children of node `first + k`, followed by
/// default digests. `below` is the layer of the children, `step` of each node, at most `N`; those of the last node must
/// be in it. A packed group of `N` digests must have fewer than 2^63 bytes.
pub(crate) fn compress_children_packed<
    PW: PackedValue,
    C: PseudoCompressionFunction<PW, N, D>,
    const N: usize,
    const D: usize,
>(
    compress: &C,
    below: &[[PW::Value; D]],
    step: usize,
    first: usize,
) -> [PW; D] {
    let mut group = [[PW::broadcast(PW::Value::default()); D]; N];
    for n in 0..step {
        group[n] = packed_child(below, step, first, n);
    }
    compress.compress_packed(group)
}

/// Compresses two packed digests lane by lane, each pair followed by default digests. `N` must be at least 2, and a
/// packed group of `N` digests must have fewer than 2^63 bytes.
pub(crate) fn compress_pairs_packed<
    PW: PackedValue,
    C: PseudoCompressionFunction<PW, N, D>,
    const N: usize,
    const D: usize,
>(
    compress: &C,
    left: [PW; D],
    right: [PW; D],
) -> [PW; D] {
    let group = pair_group([PW::broadcast(PW::Value::default()); D], left, right);
    compress.compress_packed(group)
}

/// Replaces what `groups` has by the groups of the nodes `first..end`: the children of each, then default digests.
/// `below` is the layer of the children, of which each node has `step`, from 1 to `N`. The children of the last node
/// must be in `below`, and `first` must be at most `end`. `AllocError` if memory runs out.
fn stage_children<W: Copy, const N: usize, const D: usize>(
    groups: &mut Vec<[[W; D]; N]>,
    default_digest: [W; D],
    below: &[[W; D]],
    step: usize,
    first: usize,
    end: usize,
) -> Result<(), AllocError> {
    groups.clear();
    groups.try_room(end - first)?;
    for j in 0..end - first {
        let start = step * (first + j);
        let children = &below[start..start + step];
        groups.try_push(padded_group::<W, N, D>(default_digest, children))?;
    }
    Ok(())
}

/// Writes into each slot `j` the digest of node `j`: the compression of its children, followed by default digests. One
/// call takes as many groups as [`messages_per_call`] says. `below` is the layer of the children, `step` of each node,
/// at least one and at most `N`; those of all slots must be in it. `groups` is a buffer.
///
/// # Errors
///
/// `AllocError` if memory runs out.
pub(crate) fn compress_children<
    PW: PackedValue,
    C: PseudoCompressionFunction<PW, N, D>,
    const N: usize,
    const D: usize,
>(
    compress: &C,
    groups: &mut Vec<[[PW::Value; D]; N]>,
    below: &[[PW::Value; D]],
    step: usize,
    slots: &mut [[PW::Value; D]],
) -> Result<(), AllocError> {
    // Groups of `N` children lie in the layer as the compression takes them, so none is copied.
    if step == N {
        let (groups, _) = below.as_chunks::<N>();
        compress.compress_many(&groups[..slots.len()], slots);
        return Ok(());
    }
    let default_digest = [PW::Value::default(); D];
    let per_call = messages_per_call(core::mem::size_of_val(&[default_digest; N]), C::LANES);
    let mut first = 0;
    while first < slots.len() {
        let end = first + per_call.min(slots.len() - first);
        stage_children(groups, default_digest, below, step, first, end)?;
        compress.compress_many(groups, &mut slots[first..end]);
        first = end;
    }
    Ok(())
}

/// Replaces what `pairs` has by the group of each node: the digest of its children in `folded`, the digest of its rows
/// in `rows`, then default digests. Both lists must have one length, and `N` must be at least 2. `AllocError` if memory
/// runs out.
fn stage_pairs<W: Copy, const N: usize, const D: usize>(
    pairs: &mut Vec<[[W; D]; N]>,
    default_digest: [W; D],
    folded: &[[W; D]],
    rows: &[[W; D]],
) -> Result<(), AllocError> {
    pairs.clear();
    pairs.try_room(folded.len())?;
    for (j, digest) in folded.iter().enumerate() {
        pairs.try_push(pair_group(default_digest, *digest, rows[j]))?;
    }
    Ok(())
}

/// Injects rows into nodes. `slots[j]` has the digest of the children of node `j`, and `rows[j]` the digest of the
/// node's rows; `slots[j]` becomes the compression of both, followed by default digests, for each `j` below
/// `rows.len()`. There must be at most as many rows as slots, and `N` must be at least 2.
///
/// One call takes as many groups as [`messages_per_call`] says. `pairs` is a buffer for them.
///
/// # Errors
///
/// `AllocError` if memory runs out.
pub(crate) fn inject_row_digests<
    PW: PackedValue,
    C: PseudoCompressionFunction<PW, N, D>,
    const N: usize,
    const D: usize,
>(
    compress: &C,
    pairs: &mut Vec<[[PW::Value; D]; N]>,
    rows: &[[PW::Value; D]],
    slots: &mut [[PW::Value; D]],
) -> Result<(), AllocError> {
    let default_digest = [PW::Value::default(); D];
    let per_call = messages_per_call(core::mem::size_of_val(&[default_digest; N]), C::LANES);
    let mut first = 0;
    while first < rows.len() {
        let end = first + per_call.min(rows.len() - first);
        stage_pairs(pairs, default_digest, &slots[first..end], &rows[first..end])?;
        compress.compress_many(pairs, &mut slots[first..end]);
        first = end;
    }
    Ok(())
}
