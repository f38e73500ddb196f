// Made from crates/p3_merkle_tree/src/pruned.rt by tools/erase.

//! Pruned openings: the rows of several leaves by one proof. A query is one index of a list, and its row set has one
//! row of each matrix. Its restored path is its siblings, each from the proof or computed.

use crate::erased::p3_merkle_core::error::MerkleTreeError;
use crate::erased::p3_merkle_core::pruning::{
    MerkleAuthPath, PrunedBatchOpening, PrunedMerklePaths, PrunedProof, PrunedRows,
};
use crate::erased::p3_merkle_prover::opener::tree_schedule;
use crate::erased::p3_merkle_prover::pruned_opener::{boundary_digests, rows_of_indices};
use crate::erased::p3_merkle_prover::tree::MerkleTree;
use crate::erased::p3_merkle_tree::mmcs::MerkleTreeMmcs;
use crate::erased::p3_merkle_verifier::openings::PrunedOpeningRef;
use crate::erased::p3_support::compress::PseudoCompressionFunction;
use crate::erased::p3_support::hasher::CryptographicHasher;
use crate::erased::p3_support::matrix::{Dimensions, Matrix};
use crate::erased::p3_support::opening::MerkleCap;
use crate::erased::p3_support::packed::PackedValue;
use crate::erased::p3_support::row_parts::RowSets;
use alloc::vec::Vec;

impl<
    P: PackedValue,
    PW: PackedValue,
    H: CryptographicHasher<P, PW, D>,
    C: PseudoCompressionFunction<PW, N, D>,
    const N: usize,
    const D: usize,
> MerkleTreeMmcs<P, PW, H, C, N, D>
{
    /// Opens several leaves of a tree by one pruned proof. For each index, in query order, the opening has one row of
    /// each matrix: the one that belongs to the leaf. [`pruned_len`](Self::pruned_len) says how many digests the proof
    /// has, and that fewer are not enough.
    ///
    /// The indices count rows of the tallest matrix and must be below its height, in any order; repeats are allowed.
    /// The digests are read from the tree. If the tree was built with this scheme's hasher and compression, the opening
    /// is accepted under its cap, and its restored paths are those that [`open_batch`](Self::open_batch) opens. Of one
    /// index the digests are the siblings that `open_batch` opens, in their order.
    ///
    /// # Errors
    ///
    /// Only `OutOfMemory`.
    ///
    /// # Panics
    ///
    /// - By `indices_in` unless `indices.iter().all(|&index| index < self.get_max_height(tree))`.
    pub fn open_batch_pruned<M: Matrix<P::Value>>(
        &self,
        indices: &[usize],
        tree: &MerkleTree<P::Value, PW::Value, M, N, D>,
    ) -> Result<PrunedBatchOpening<P::Value, PW::Value, D>, MerkleTreeError> {
        assert!(indices.iter().all(|&index| index < self.get_max_height(tree)), "indices_in");
        let cap_layer = tree_schedule(tree).cap_layer(self.cap_rule, self.cap_height);
        let opened_values = rows_of_indices(tree, indices)?;
        let sibling_hashes = boundary_digests(tree, indices, cap_layer)?;
        Ok(PrunedRows { opened_values, pruned_proof: PrunedProof { sibling_hashes } })
    }

    /// Opens several leaves as [`open_batch_pruned`](Self::open_batch_pruned) does, under its condition on the indices,
    /// in the form of the trait `Mmcs`: the row set of each index, in query order, and the proof.
    ///
    /// # Errors
    ///
    /// Only `OutOfMemory`.
    ///
    /// # Panics
    ///
    /// - By `indices_in` unless `indices.iter().all(|&index| index < self.get_max_height(tree))`.
    pub fn open_multi_batch<M: Matrix<P::Value>>(
        &self,
        indices: &[usize],
        tree: &MerkleTree<P::Value, PW::Value, M, N, D>,
    ) -> Result<(Vec<Vec<Vec<P::Value>>>, PrunedMerklePaths<PW::Value, D>), MerkleTreeError> {
        assert!(indices.iter().all(|&index| index < self.get_max_height(tree)), "indices_in");
        let PrunedRows { opened_values, pruned_proof } = self.open_batch_pruned(indices, tree)?;
        Ok((opened_values, pruned_proof))
    }

    /// Verifies the openings of several leaves by one pruned proof against a cap: computes the digests above the leaves
    /// from the rows and the digests of the proof, and compares the last ones with the cap's entries. If the opening is
    /// accepted, [`verify_batch`](Self::verify_batch) accepts each query with its restored path. An opening of one
    /// index is accepted exactly if `verify_batch` accepts its row set with the digests of the proof as siblings.
    ///
    /// An accepted opening has a row set for each index: one row for each of `dimensions`, of that width. Queries of
    /// one index have the same rows. Queries under one node, at most as high as the cap, have the same rows of the
    /// matrices that belong to the node's layer. `dimensions` are those of the matrices, in input order. They must come
    /// from the verifier, never from the proof: a cap does not bind them.
    ///
    /// # Errors
    ///
    /// The first of these that applies, where `OutOfMemory` never takes the place of one of the first four:
    ///
    /// - `EmptyBatch`, `TooLarge` or `IncompatibleHeights`: [`commit`](Self::commit) refuses such heights;
    /// - `WrongBatchSize`: the number of row sets is not that of the indices;
    /// - `SiblingCountMismatch`: the proof has digests, and there are no indices;
    /// - `IndexOutOfBounds`, for the highest index: it is not below the tallest height;
    /// - `InconsistentDuplicateOpenings`: the rows of a query are not those of the first query of its index;
    /// - `SiblingCountMismatch`: the number of digests is not [`pruned_len`](Self::pruned_len);
    /// - in ascending order of the indices, for each row set: `WrongBatchSize` if the number of rows is not that of the
    ///   dimensions, `WrongWidth` for the first row whose length is not the width of its matrix;
    /// - `InconsistentGroupOpening`, layer by layer up to the cap's, by ascending indices and in input order of the
    ///   layer's matrices: a row is not that of the lowest index under the same node;
    /// - `CapMismatch`: the cap has no entry above a leaf, or another digest than the one computed.
    ///
    /// `SiblingCountMismatch` and the two `Inconsistent` errors come within `MalformedPrunedProof`.
    pub fn verify_batch_pruned(
        &self,
        commit: &MerkleCap<P::Value, [PW::Value; D]>,
        dimensions: &[Dimensions],
        indices: &[usize],
        rows: &[Vec<Vec<P::Value>>],
        proof: &PrunedMerklePaths<PW::Value, D>,
    ) -> Result<(), MerkleTreeError> {
        let rows = RowSets::Vecs(rows);
        let digests = &proof.sibling_hashes;
        self.verify_row_sets(commit.roots(), dimensions, indices, rows, digests)
    }

    /// Verifies the openings of several leaves as [`verify_batch_pruned`](Self::verify_batch_pruned) does, with the
    /// same errors, wherever their rows lie: see [`RowSets`]. `roots` are those of the cap, and `digests` are those of
    /// the pruned proof, in wire order. It copies no row: it allocates lists of nodes and of their digests.
    pub fn verify_row_sets(
        &self,
        roots: &[[PW::Value; D]],
        dimensions: &[Dimensions],
        indices: &[usize],
        rows: RowSets<'_, P::Value>,
        digests: &[[PW::Value; D]],
    ) -> Result<(), MerkleTreeError> {
        let opening = PrunedOpeningRef { indices, sets: rows, sent: digests };
        self.checker(dimensions).check_pruned_opening(roots, opening)
    }

    /// The same as [`verify_batch_pruned`](Self::verify_batch_pruned), by the name that the trait `Mmcs` has for it.
    ///
    /// # Errors
    ///
    /// Those of [`verify_batch_pruned`](Self::verify_batch_pruned).
    pub fn verify_multi_batch(
        &self,
        commit: &MerkleCap<P::Value, [PW::Value; D]>,
        dimensions: &[Dimensions],
        indices: &[usize],
        rows: &[Vec<Vec<P::Value>>],
        proof: &PrunedMerklePaths<PW::Value, D>,
    ) -> Result<(), MerkleTreeError> {
        self.verify_batch_pruned(commit, dimensions, indices, rows, proof)
    }

    /// Restores the path of each query, in query order, with its index: its siblings, computed from the rows of all
    /// queries and the digests of a pruned proof. From an honest opening it restores the siblings that
    /// [`open_batch`](Self::open_batch) opens. The parameters are as in
    /// [`verify_batch_pruned`](Self::verify_batch_pruned), and an opening whose paths are restored has the form of an
    /// accepted one.
    ///
    /// No cap is compared, so a restored path proves nothing by itself. `verify_batch_pruned` accepts an opening under
    /// a cap exactly if its paths are restored and [`verify_batch`](Self::verify_batch) accepts each query with its
    /// rows and its path. `dimensions` must come from the verifier, never from the proof.
    ///
    /// # Errors
    ///
    /// Those of `verify_batch_pruned`, in the same order, without `CapMismatch`.
    pub fn restore_and_recompute_paths(
        &self,
        dimensions: &[Dimensions],
        indices: &[usize],
        rows: &[Vec<Vec<P::Value>>],
        proof: &PrunedMerklePaths<PW::Value, D>,
    ) -> Result<Vec<MerkleAuthPath<PW::Value, D>>, MerkleTreeError> {
        let rows = RowSets::Vecs(rows);
        self.restore_row_sets(dimensions, indices, rows, &proof.sibling_hashes)
    }

    /// Restores the path of each query as [`restore_and_recompute_paths`](Self::restore_and_recompute_paths) does, with
    /// the same errors, wherever their rows lie: see [`RowSets`]. `digests` are those of the pruned proof, in wire
    /// order. It copies no row.
    pub fn restore_row_sets(
        &self,
        dimensions: &[Dimensions],
        indices: &[usize],
        rows: RowSets<'_, P::Value>,
        digests: &[[PW::Value; D]],
    ) -> Result<Vec<MerkleAuthPath<PW::Value, D>>, MerkleTreeError> {
        let opening = PrunedOpeningRef { indices, sets: rows, sent: digests };
        self.checker(dimensions).restored_paths(opening)
    }
}
