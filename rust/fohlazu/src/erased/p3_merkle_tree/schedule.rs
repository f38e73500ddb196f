// Made from crates/p3_merkle_tree/src/schedule.rt by tools/erase.

//! What dimensions alone say: the steps and positions on paths, level by level, the size of pruned proofs, and which
//! matrices a cap authenticates; and the matrices of a tree. A level's step is how many children a node above it has.

use crate::erased::p3_merkle_core::covered_nodes::Covered;
use crate::erased::p3_merkle_core::error::MerkleTreeError;
use crate::erased::p3_merkle_core::gate::check_heights;
use crate::erased::p3_merkle_core::geometry::{ArityAndPositions, exponent_of};
use crate::erased::p3_merkle_core::pruning::{check_indices, distinct_indices};
use crate::erased::p3_merkle_core::schedule::schedule_of;
use crate::erased::p3_merkle_prover::opener::{matrix_refs, max_height};
use crate::erased::p3_merkle_prover::tree::Tree;
use crate::erased::p3_merkle_tree::mmcs::Scheme;
use crate::erased::p3_support::compress::PseudoCompressionFunction;
use crate::erased::p3_support::hasher::CryptographicHasher;
use crate::erased::p3_support::matrix::{Dimensions, Matrix};
use crate::erased::p3_support::packed::PackedValue;
use alloc::vec::Vec;

impl<
    P: PackedValue,
    PW: PackedValue,
    H: CryptographicHasher<P, PW, D>,
    C: PseudoCompressionFunction<PW, N, D>,
    X,
    G,
    const N: usize,
    const D: usize,
> Scheme<P, PW, H, C, X, G, N, D>
{
    /// The step of each level below the cap, from the leaves up: how many children a node above it has, in the tree
    /// over matrices of these dimensions. An opening of one index has one sibling less than the step on each level, so
    /// at most `N - 1` for each of the steps.
    ///
    /// # Errors
    ///
    /// The first of these that applies, or `OutOfMemory` if none of them does:
    ///
    /// - `EmptyBatch` if no matrix has a row;
    /// - `TooLarge` for the first height above 2^62;
    /// - `IncompatibleHeights` for the first height that is not the tallest one halved and rounded up some number of
    ///   times.
    pub fn proof_arity_schedule(&self, dimensions: &[Dimensions]) -> Result<Vec<usize>, MerkleTreeError> {
        let schedule = schedule_of(dimensions, N);
        check_heights(schedule.dimensions)?;
        let cap_layer = schedule.cap_layer(self.cap_rule, self.cap_height);
        Ok(schedule.schedule_below(cap_layer)?)
    }

    /// The path of the leaf `index` to the cap, for a proof of `num_siblings` digests: the steps of
    /// [`proof_arity_schedule`](Self::proof_arity_schedule), and for each level the position, from 0, of the leaf's
    /// ancestor there among the children of its parent.
    ///
    /// # Errors
    ///
    /// The first of these that applies, or `OutOfMemory` if none of them does:
    ///
    /// - `EmptyBatch`, `TooLarge` or `IncompatibleHeights`: [`commit`](Self::commit) refuses such heights;
    /// - `IndexOutOfBounds`: the index is not below the tallest height;
    /// - `WrongHeight`: `num_siblings` is not what the levels below the cap need.
    pub fn replay_arity_and_positions(
        &self,
        dimensions: &[Dimensions],
        index: usize,
        num_siblings: usize,
    ) -> Result<ArityAndPositions, MerkleTreeError> {
        let schedule = schedule_of(dimensions, N);
        check_heights(schedule.dimensions)?;
        let max_height = schedule.max_height;
        if index >= max_height {
            return Err(MerkleTreeError::IndexOutOfBounds { max_height, index });
        }
        let cap_layer = schedule.cap_layer(self.cap_rule, self.cap_height);
        let expected_proof_len = schedule.siblings_below(cap_layer);
        if num_siblings != expected_proof_len {
            return Err(MerkleTreeError::WrongHeight { expected_proof_len, num_siblings });
        }
        Ok(ArityAndPositions {
            arity_schedule: schedule.schedule_below(cap_layer)?,
            query_positions: schedule.positions_below(cap_layer, index)?,
        })
    }

    /// The number of digests in a pruned proof of these indices, over matrices of these dimensions. On each level below
    /// the cap these are the digests of the children of covered nodes that are not covered themselves, padding too. A
    /// node is covered if it is a queried leaf or above one. If padding counts as unknown, no smaller set of digests of
    /// uncovered nodes is enough to compute the covered nodes of the cap's layer.
    ///
    /// The indices may be in any order, with repeats. The digests are at most as many as the siblings in an opening of
    /// one index, times the number of distinct indices; for one index they are as many as its siblings.
    ///
    /// # Errors
    ///
    /// The first of these that applies, or `OutOfMemory` if none of them does:
    ///
    /// - `EmptyBatch`, `TooLarge` or `IncompatibleHeights`: [`commit`](Self::commit) refuses such heights;
    /// - `IndexOutOfBounds`, for the highest index: it is not below the tallest height.
    pub fn pruned_len(&self, dimensions: &[Dimensions], indices: &[usize]) -> Result<usize, MerkleTreeError> {
        let schedule = schedule_of(dimensions, N);
        check_heights(schedule.dimensions)?;
        check_indices(schedule.max_height, indices)?;
        let cap_layer = schedule.cap_layer(self.cap_rule, self.cap_height);
        let leaves = distinct_indices(indices)?;
        Ok(Covered::new(&schedule, indices, leaves).boundary_len(cap_layer))
    }

    /// Whether a cap over matrices of these dimensions authenticates the rows of one of them: its rows are hashed into
    /// the cap's layer, or into a layer below it. `matrix` is its position in `dimensions`, from 0, and must be below
    /// their number. Rows of a matrix that is not authenticated are not hashed: a verifier checks their width, and that
    /// queries of one index have the same. Under the rule `Lowered` every matrix is authenticated. The call does not
    /// allocate.
    ///
    /// # Errors
    ///
    /// The first of these that applies:
    ///
    /// - `EmptyBatch` if no matrix has a row;
    /// - `TooLarge` for the first height above 2^62;
    /// - `IncompatibleHeights` for the first height that is not the tallest one halved and rounded up some number of
    ///   times.
    ///
    /// # Panics
    ///
    /// - By `matrix_in` unless `matrix < dimensions.len()`.
    pub fn is_authenticated(&self, dimensions: &[Dimensions], matrix: usize) -> Result<bool, MerkleTreeError> {
        assert!(matrix < dimensions.len(), "matrix_in");
        let schedule = schedule_of(dimensions, N);
        check_heights(schedule.dimensions)?;
        let cap_layer = schedule.cap_layer(self.cap_rule, self.cap_height);
        let height = dimensions[matrix].height;
        Ok(exponent_of(height) >= schedule.layer_exponent(cap_layer))
    }

    /// The matrices of a tree, in input order.
    ///
    /// # Errors
    ///
    /// Only `OutOfMemory`.
    pub fn get_matrices<'a, M: Matrix<P::Value>>(
        &self,
        tree: &'a Tree<P::Value, X, G, M, N>,
    ) -> Result<Vec<&'a M>, MerkleTreeError> {
        matrix_refs(tree)
    }

    /// The height of the tallest matrix of a tree, in rows: one more than the greatest index that can be opened.
    pub fn get_max_height<M: Matrix<P::Value>>(&self, tree: &Tree<P::Value, X, G, M, N>) -> usize {
        max_height(tree)
    }
}
