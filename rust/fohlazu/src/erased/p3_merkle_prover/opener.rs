// Made from crates/p3_merkle_prover/src/opener.rt by tools/erase.

//! What is read from a tree: its cap, and for one leaf a row of each matrix and the siblings on the leaf's path. Layer
//! 0 is the leaves. Level `l` leads to layer `l + 1`; its step is how many children a node of that layer has.

use crate::erased::p3_merkle_core::error::MerkleTreeError;
use crate::erased::p3_merkle_core::geometry::{bits_reduced_of, parent_of, position_of};
use crate::erased::p3_merkle_core::group::append_siblings;
use crate::erased::p3_merkle_core::schedule::Schedule;
use crate::erased::p3_merkle_prover::tree::{MerkleTree, Tree};
use crate::erased::p3_support::matrix::Matrix;
use crate::erased::p3_support::opening::MerkleCap;
use crate::fallible::{AllocError, VecExt};
use alloc::vec::Vec;

/// The steps of a tree, from the leaves to the root, which it stores.
pub(crate) fn tree_schedule<F, X, G, M: Matrix<F>, const N: usize>(tree: &Tree<F, X, G, M, N>) -> Schedule<'_> {
    tree.schedule.schedule()
}

/// The height of the tallest matrix of a tree, in rows. It is the number of leaves, without padding.
pub(crate) fn max_height<F, X, G, M: Matrix<F>, const N: usize>(tree: &Tree<F, X, G, M, N>) -> usize {
    tree.schedule.max_height
}

/// The cap that is layer `layer` of a tree, padding included. `layer` must be at most the number of levels.
///
/// # Errors
///
/// `AllocError` if memory runs out.
pub(crate) fn cap_at<F, W: Copy, M: Matrix<F>, const N: usize, const D: usize>(
    tree: &MerkleTree<F, W, M, N, D>,
    layer: usize,
) -> Result<MerkleCap<F, [W; D]>, AllocError> {
    Ok(MerkleCap::new(Vec::try_from_slice(&tree.layers[layer])?))
}

/// The row of each matrix that belongs to leaf `index`, in input order: row `index >> k` of a matrix whose height is
/// the tallest one halved and rounded up `k` times. The index must be below [`max_height`].
///
/// # Errors
///
/// Only `OutOfMemory`.
pub(crate) fn rows_of_index<F: Copy, X, G, M: Matrix<F>, const N: usize>(
    tree: &Tree<F, X, G, M, N>,
    index: usize,
) -> Result<Vec<Vec<F>>, MerkleTreeError> {
    let max_height = max_height(tree);
    let mut rows = Vec::with_room(tree.matrices.len())?;
    for matrix in &tree.matrices {
        let row = index >> bits_reduced_of(max_height, matrix.height());
        let mut words = Vec::with_room(matrix.width())?;
        matrix.append_row(row, &mut words)?;
        rows.push_reserved(words);
    }
    Ok(rows)
}

/// The matrices of a tree, in input order.
///
/// # Errors
///
/// Only `OutOfMemory`.
pub(crate) fn matrix_refs<'a, F, X, G, M: Matrix<F>, const N: usize>(
    tree: &'a Tree<F, X, G, M, N>,
) -> Result<Vec<&'a M>, MerkleTreeError> {
    let mut matrices = Vec::with_room(tree.matrices.len())?;
    for matrix in &tree.matrices {
        matrices.try_push(matrix)?;
    }
    Ok(matrices)
}

/// The siblings on the path of leaf `index` up to layer `layer`, level by level from the leaves up: the other children
/// of the parent of the path's node, ascending. `schedule` must be that of the tree, the index below [`max_height`],
/// and the layer at most the number of levels.
///
/// # Errors
///
/// Only `OutOfMemory`.
pub(crate) fn siblings_of_index<F, X: Copy, G, M: Matrix<F>, const N: usize>(
    tree: &Tree<F, X, G, M, N>,
    schedule: &Schedule<'_>,
    index: usize,
    layer: usize,
) -> Result<Vec<X>, MerkleTreeError> {
    let mut siblings = Vec::with_room(schedule.siblings_below(layer))?;
    let mut node = index;
    for level in 0..layer {
        let step = schedule.step(level);
        let position = position_of(node, step);
        let first = node - position;
        let group = &tree.layers[level][first..first + step];
        append_siblings(&mut siblings, group, position)?;
        node = parent_of(node, step);
    }
    Ok(siblings)
}
