// Made from crates/p3_merkle_prover/src/pruned_opener.rt by tools/erase.

//! What is read from a tree for several leaves at once: their rows, and the digests of the boundary. A node is covered
//! if it is one of these leaves or above one. The boundary is the children of covered nodes that are not covered
//! themselves.

use crate::erased::p3_merkle_core::covered_nodes::Covered;
use crate::erased::p3_merkle_core::error::MerkleTreeError;
use crate::erased::p3_merkle_core::geometry::position_of;
use crate::erased::p3_merkle_core::group::append_siblings;
use crate::erased::p3_merkle_core::pruning::distinct_indices;
use crate::erased::p3_merkle_prover::opener::{rows_of_index, tree_schedule};
use crate::erased::p3_merkle_prover::tree::Tree;
use crate::erased::p3_support::matrix::Matrix;
use crate::fallible::VecExt;
use alloc::vec::Vec;

/// The rows of each of some leaves, in the order of the indices. Each index must be below
/// [`max_height`](crate::erased::p3_merkle_prover::opener::max_height).
///
/// # Errors
///
/// Only `OutOfMemory`.
pub(crate) fn rows_of_indices<F: Copy, X, G, M: Matrix<F>, const N: usize>(
    tree: &Tree<F, X, G, M, N>,
    indices: &[usize],
) -> Result<Vec<Vec<Vec<F>>>, MerkleTreeError> {
    let mut rows = Vec::with_room(indices.len())?;
    for index in indices {
        rows.try_push(rows_of_index(tree, *index)?)?;
    }
    Ok(rows)
}

/// The digests of a pruned proof of some leaves: those of the boundary below layer `cap_layer`, level by level from the
/// leaves up, ascending. Each index must be below [`max_height`](crate::erased::p3_merkle_prover::opener::max_height), and `cap_layer` at most
/// the number of levels. It sorts a copy of the indices, and allocates the digests once, at their number.
///
/// # Errors
///
/// Only `OutOfMemory`.
pub(crate) fn boundary_digests<F, X: Copy, G, M: Matrix<F>, const N: usize>(
    tree: &Tree<F, X, G, M, N>,
    indices: &[usize],
    cap_layer: usize,
) -> Result<Vec<X>, MerkleTreeError> {
    let schedule = tree_schedule(tree);
    let mut covered = Covered::new(&schedule, indices, distinct_indices(indices)?);
    let len = covered.try_clone()?.boundary_len(cap_layer);
    let mut digests = Vec::with_room(len)?;
    for level in 0..cap_layer {
        let step = schedule.step(level);
        extend_with_boundary(&mut digests, &tree.layers[level], &covered.nodes, step)?;
        covered.climb();
    }
    Ok(digests)
}

/// Appends to `digests` those of the boundary in one layer, ascending: of each group of `step` nodes that has a covered
/// one, the digests of the nodes that are not covered. `covered` must have the covered nodes, each once, ascending, and
/// is gone through once. `step` must be at least 1, and `layer` must have the digests of the whole group of each
/// covered node. The only error is `OutOfMemory`.
fn extend_with_boundary<X: Copy>(
    digests: &mut Vec<X>,
    layer: &[X],
    covered: &[usize],
    step: usize,
) -> Result<(), MerkleTreeError> {
    // A slice of the layer has one covered node. It starts with the node's group, or where the slice before it ended.
    // It ends with the group, or ahead of the next covered node.
    let mut next = 0;
    for place in 0..covered.len() {
        let node = covered[place];
        let first = node - position_of(node, step);
        let mut end = first + step;
        if place + 1 < covered.len() {
            end = end.min(covered[place + 1]);
        }
        let start = first.max(next);
        append_siblings(digests, &layer[start..end], node - start)?;
        next = end;
    }
    Ok(())
}
