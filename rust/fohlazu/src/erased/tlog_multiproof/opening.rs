// Made from crates/tlog_multiproof/src/opening.rt by tools/erase.

//! The digests of a proof of several entries, and the pruned opening of a log's tree that they give.

use crate::erased::p3_merkle_core::pruning::{
    PrunedBatchOpening, PrunedProof, PrunedRows, check_indices, distinct_indices,
};
use crate::erased::tlog::SIZE_LIMIT;
use crate::erased::tlog_multiproof::error::EntriesError;
use crate::erased::tlog_multiproof::tree::Node;
use crate::erased::tlog_tree::NodeId;
use crate::fallible::{AllocError, VecExt, try_list};
use alloc::vec::Vec;

/// The nodes whose values are the proof of the entries at these indices, counted from 0, in a log of `size` entries, in
/// the order of the proof, as a `TreeBuilder` takes them. The size must be from 1 to 2^62, and each index below it.
///
/// # Errors
///
/// `AllocError` if memory runs out.
///
/// # Panics
///
/// - By `some` unless `0 < size`.
/// - By `limit` unless `size <= crate::tlog::SIZE_LIMIT`.
/// - By `within` unless `indices.iter().all(|&index| index < size)`.
pub fn entry_nodes(indices: &[usize], size: usize) -> Result<Vec<NodeId>, AllocError> {
    assert!(0 < size, "some");
    assert!(size <= crate::tlog::SIZE_LIMIT, "limit");
    assert!(indices.iter().all(|&index| index < size), "within");
    let boundary = boundary_nodes(size, indices)?;
    let mut nodes = Vec::new();
    for node in &boundary {
        if is_node(size, *node) {
            nodes.try_push(*node)?;
        }
    }
    Ok(nodes)
}

/// Whether `node` has entries below it in a log of `size` entries, at least 1. If it has none, its slot has padding.
pub(crate) fn is_node(size: usize, node: NodeId) -> bool {
    node.slot <= (size - 1) >> node.layer
}

/// The boundary of the entries at `indices`, counted from 0, in a log of `size` entries, padding included: the siblings
/// of entries and of nodes above entries that are neither themselves, layer by layer from the leaves, ascending. The
/// size must be from 1 to 2^62, and each index below it. `AllocError` if memory runs out.
fn boundary_nodes(size: usize, indices: &[usize]) -> Result<Vec<NodeId>, AllocError> {
    let mut covered = distinct_indices(indices)?;
    let mut nodes = Vec::new();
    let mut layer = 0;
    // The slot of the layer's last node. The root is the only one of its layer.
    let mut last = size - 1;
    while last > 0 {
        push_siblings(&mut nodes, layer, &covered)?;
        climb(&mut covered);
        layer += 1;
        last /= 2;
    }
    Ok(nodes)
}

/// Appends to `nodes`, in order, the sibling of each slot of `covered` that is not in `covered` itself. The slots are
/// of layer `layer`, must ascend, and be below 2^64 - 1. `AllocError` if memory runs out.
fn push_siblings(nodes: &mut Vec<NodeId>, layer: usize, covered: &[usize]) -> Result<(), AllocError> {
    for slot in covered {
        let sibling = if *slot % 2 == 0 { *slot + 1 } else { *slot - 1 };
        if covered.binary_search(&sibling).is_err() {
            nodes.try_push(NodeId { layer, slot: sibling })?;
        }
    }
    Ok(())
}

/// Replaces `covered`, ascending slots of a layer, by the slots of their parents in the layer above, each once.
fn climb(covered: &mut Vec<usize>) {
    for slot in covered.iter_mut() {
        *slot /= 2;
    }
    covered.dedup();
}

/// The opening of the entries at `indices`, counted from 0, in a log of `size` entries: a row for each of `leaves`,
/// their leaf hashes; and a digest for each boundary node, from `proof`, or `Node::Absent` where it is padding. The
/// errors are those of [`check_form`], then those of [`with_padding`]; `OutOfMemory` may come once the form is checked.
pub(crate) fn opening_of(
    size: usize,
    indices: &[usize],
    leaves: &[[u8; 32]],
    proof: &[[u8; 32]],
) -> Result<PrunedBatchOpening<Node, Node, 1>, EntriesError> {
    check_form(size, indices, leaves.len())?;
    let nodes = boundary_nodes(size, indices)?;
    let sibling_hashes = with_padding(size, &nodes, proof)?;
    Ok(PrunedRows { opened_values: rows_of(leaves)?, pruned_proof: PrunedProof { sibling_hashes } })
}

/// Checks the size, the indices and the number of leaf hashes. The error is the first of `SizeTooLarge`, `NoIndices`,
/// `LeafCountMismatch` and `IndexPastEnd` that applies. It does not allocate.
fn check_form(size: usize, indices: &[usize], num_leaves: usize) -> Result<(), EntriesError> {
    if size > SIZE_LIMIT {
        return Err(EntriesError::SizeTooLarge);
    }
    if indices.is_empty() {
        return Err(EntriesError::NoIndices);
    }
    if num_leaves != indices.len() {
        return Err(EntriesError::LeafCountMismatch);
    }
    if check_indices(size, indices).is_err() {
        return Err(EntriesError::IndexPastEnd);
    }
    Ok(())
}

/// For each of `nodes` its digest: the next of `proof`, or `Node::Absent` where the node is padding in a log of `size`
/// entries, at least 1. `TooFewDigests` if `proof` ends ahead of a node's digest, `TooManyDigests` if digests are left
/// over. `OutOfMemory` if memory runs out.
fn with_padding(size: usize, nodes: &[NodeId], proof: &[[u8; 32]]) -> Result<Vec<[Node; 1]>, EntriesError> {
    let mut digests = Vec::new();
    let mut used = 0;
    for node in nodes {
        let mut word = Node::Absent;
        if is_node(size, *node) {
            if used == proof.len() {
                return Err(EntriesError::TooFewDigests);
            }
            word = Node::Hash(proof[used]);
            used += 1;
        }
        digests.try_push([word])?;
    }
    if used < proof.len() {
        return Err(EntriesError::TooManyDigests);
    }
    Ok(digests)
}

/// For each of `leaves`, the row set of its entry: one row, which has the leaf hash alone. `AllocError` if memory runs
/// out.
fn rows_of(leaves: &[[u8; 32]]) -> Result<Vec<Vec<Vec<Node>>>, AllocError> {
    let mut rows = Vec::with_room(leaves.len())?;
    for leaf in leaves {
        rows.try_push(try_list([try_list([Node::Hash(*leaf)])?])?)?;
    }
    Ok(rows)
}
