// Made from crates/p3_merkle_prover/src/checked.rt by tools/erase.

//! Matrices that a tree can be built over, and the tree over them. Their heights are lawful: each is the tallest one
//! halved, and each time rounded up, some number of times.

use crate::erased::p3_merkle_core::error::MerkleTreeError;
use crate::erased::p3_merkle_core::gate::check_heights;
use crate::erased::p3_merkle_core::schedule::OwnedSchedule;
use crate::erased::p3_merkle_prover::layers::MerkleTreeBuilder;
use crate::erased::p3_merkle_prover::tree::{MerkleTree, Tree};
use crate::erased::p3_support::compress::PseudoCompressionFunction;
use crate::erased::p3_support::hasher::CryptographicHasher;
use crate::erased::p3_support::matrix::{Dimensions, Matrix, dimensions_of};
use crate::erased::p3_support::packed::PackedValue;
use crate::fallible::AllocError;
use alloc::vec::Vec;
use core::marker::PhantomData;

/// Matrices of lawful heights, and their dimensions, in input order.
pub(crate) struct CheckedMatrices<T, M: Matrix<T>> {
    /// The matrices.
    pub matrices: Vec<M>,
    /// The dimensions of each.
    pub dimensions: Vec<Dimensions>,
    /// Marks the type of the values.
    pub item: PhantomData<T>,
}

/// Checks that heights of matrices are lawful, and returns the matrices with their dimensions.
///
/// # Errors
///
/// Those of [`check_heights`]. `OutOfMemory` may come at any time.
pub(crate) fn checked_matrices<T, M: Matrix<T>>(matrices: Vec<M>) -> Result<CheckedMatrices<T, M>, MerkleTreeError> {
    let dimensions = dimensions_of(&matrices)?;
    check_heights(&dimensions)?;
    Ok(CheckedMatrices { matrices, dimensions, item: PhantomData })
}

/// Builds the tree over the matrices of `checked`: computes how many children the nodes of each layer have, then the
/// layers. `N` must be a power of two from 2 to 2^62, and both packings must have equally many lanes, at least one.
///
/// # Errors
///
/// `AllocError` if memory runs out.
pub(crate) fn tree_over<
    P: PackedValue,
    PW: PackedValue,
    H: CryptographicHasher<P, PW, D>,
    C: PseudoCompressionFunction<PW, N, D>,
    M: Matrix<P::Value>,
    const N: usize,
    const D: usize,
>(
    hash: &H,
    compress: &C,
    checked: CheckedMatrices<P::Value, M>,
) -> Result<MerkleTree<P::Value, PW::Value, M, N, D>, AllocError> {
    let CheckedMatrices { matrices, dimensions, .. } = checked;
    let kept = OwnedSchedule::new(dimensions, N);
    let schedule = kept.schedule();
    let builder = MerkleTreeBuilder::<P, PW, H, C, M, N, D> {
        hash,
        compress,
        matrices: &matrices,
        schedule: &schedule,
        item: PhantomData,
    };
    let layers = builder.layers()?;
    Ok(Tree { matrices, schedule: kept, layers, item: PhantomData })
}
