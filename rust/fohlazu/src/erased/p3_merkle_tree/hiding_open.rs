// Made from crates/p3_merkle_tree/src/hiding_open.rt by tools/erase.

//! Salted openings: those of the plain scheme, with each row split into the matrix's own words and its salts. A check
//! reads both where they lie, one after the other. A row set has one row of each matrix, a salt set one list of salts
//! for each row. A matrix is authenticated if the cap's digests are computed from its rows. Openings conflict in a row
//! if both have it, with other words or salts.

use crate::erased::p3_merkle_core::collision::Collision;
use crate::erased::p3_merkle_core::error::MerkleTreeError;
use crate::erased::p3_merkle_core::pruning::MerkleAuthPath;
use crate::erased::p3_merkle_prover::opener::matrix_refs;
use crate::erased::p3_merkle_prover::tree::Tree;
use crate::erased::p3_merkle_tree::hiding_mmcs::{MerkleTreeHidingMmcs, SaltedMultiProof, SaltedProof, SaltedTree};
use crate::erased::p3_merkle_tree::salts::{check_salted_rows, check_salted_sets, widened_dimensions};
use crate::erased::p3_merkle_verifier::openings::{OpeningRef, PrunedOpeningRef};
use crate::erased::p3_support::compress::PseudoCompressionFunction;
use crate::erased::p3_support::hasher::CryptographicHasher;
use crate::erased::p3_support::matrix::{Dimensions, Matrix};
use crate::erased::p3_support::opening::{BatchOpening, BatchOpeningRef, MerkleCap};
use crate::erased::p3_support::packed::PackedValue;
use crate::erased::p3_support::pair::HorizontalPair;
use crate::erased::p3_support::row_parts::{RowParts, RowSets};
use crate::fallible::{AllocError, VecExt};
use alloc::vec::Vec;

/// Splits each of `rows`, those of one index, into the matrix's own words and its salts, and returns the row set and
/// the salt set. `pairs` has the matrix of each row beside its salts. Only the salts are copied. `AllocError` if memory
/// runs out.
fn split_rows<F: Copy, A: Matrix<F>, B: Matrix<F>>(
    pairs: &[&HorizontalPair<F, A, B>],
    rows: Vec<Vec<F>>,
) -> Result<(Vec<Vec<F>>, Vec<Vec<F>>), AllocError> {
    let mut unsalted = Vec::with_room(rows.len())?;
    let mut salts = Vec::with_room(rows.len())?;
    for (mut row, pair) in rows.into_iter().zip(pairs) {
        let width = pair.left().width().min(row.len());
        salts.try_push(row.try_split_off(width)?)?;
        unsalted.try_push(row)?;
    }
    Ok((unsalted, salts))
}

/// Splits `sets`, the rows of several indices, each as [`split_rows`] does, and returns the row sets and the salt sets.
/// The rows are those of the matrices of `tree` beside their salts. The only error is `OutOfMemory`.
fn split_row_sets<F: Copy, X, G, A: Matrix<F>, B: Matrix<F>, const N: usize>(
    tree: &Tree<F, X, G, HorizontalPair<F, A, B>, N>,
    sets: Vec<Vec<Vec<F>>>,
) -> Result<(Vec<Vec<Vec<F>>>, Vec<Vec<Vec<F>>>), MerkleTreeError> {
    let pairs = matrix_refs(tree)?;
    let mut unsalted = Vec::with_room(sets.len())?;
    let mut salts = Vec::with_room(sets.len())?;
    for rows in sets {
        let (front, back) = split_rows(&pairs, rows)?;
        unsalted.try_push(front)?;
        salts.try_push(back)?;
    }
    Ok((unsalted, salts))
}

impl<
    P: PackedValue,
    PW: PackedValue,
    H: CryptographicHasher<P, PW, D>,
    C: PseudoCompressionFunction<PW, N, D>,
    R,
    const N: usize,
    const D: usize,
    const SALT_ELEMS: usize,
> MerkleTreeHidingMmcs<P, PW, H, C, R, N, D, SALT_ELEMS>
{
    /// Opens the leaf `index` of a tree. The index must be below the tallest height. The opening has the row of each
    /// matrix that belongs to the leaf, in input order; its proof has the salts of each row, and the siblings on the
    /// leaf's path to the cap.
    ///
    /// It is the plain scheme's opening, with each row split into the matrix's own words and its salts. The opening is
    /// accepted under the cap of the tree if the tree has `SALT_ELEMS` salts a row and was built with this scheme's
    /// hasher and compression.
    ///
    /// # Errors
    ///
    /// Only `OutOfMemory`.
    ///
    /// # Panics
    ///
    /// - By `index_in` unless `index < self.get_max_height(tree)`.
    pub fn open_batch<M: Matrix<P::Value>>(
        &self,
        index: usize,
        tree: &SaltedTree<P::Value, PW::Value, M, N, D>,
    ) -> Result<BatchOpening<P::Value, SaltedProof<P::Value, PW::Value, D>>, MerkleTreeError> {
        assert!(index < self.get_max_height(tree), "index_in");
        let opening = self.plain.open_batch(index, tree)?;
        let pairs = matrix_refs(tree)?;
        let (rows, salts) = split_rows(&pairs, opening.opened_values)?;
        Ok(BatchOpening::new(rows, (salts, opening.opening_proof)))
    }

    /// Opens several leaves of a tree by one pruned proof. The indices count rows of the tallest matrix and must be
    /// below its height, in any order; repeats are allowed. For each index, in query order, the opening has the row of
    /// each matrix that belongs to the leaf; its proof has the salts of each row, and one pruned proof.
    ///
    /// It is the plain scheme's opening, with each row split into the matrix's own words and its salts. The opening is
    /// accepted under the cap of the tree if the tree has `SALT_ELEMS` salts a row and was built with this scheme's
    /// hasher and compression.
    ///
    /// # Errors
    ///
    /// Only `OutOfMemory`.
    ///
    /// # Panics
    ///
    /// - By `indices_in` unless `indices.iter().all(|&index| index < self.get_max_height(tree))`.
    pub fn open_multi_batch<M: Matrix<P::Value>>(
        &self,
        indices: &[usize],
        tree: &SaltedTree<P::Value, PW::Value, M, N, D>,
    ) -> Result<(Vec<Vec<Vec<P::Value>>>, SaltedMultiProof<P::Value, PW::Value, D>), MerkleTreeError> {
        assert!(indices.iter().all(|&index| index < self.get_max_height(tree)), "indices_in");
        let opening = self.plain.open_batch_pruned(indices, tree)?;
        let (rows, salts) = split_row_sets(tree, opening.opened_values)?;
        Ok((rows, (salts, opening.pruned_proof)))
    }

    /// The matrices of a tree without their salts, in input order.
    ///
    /// # Errors
    ///
    /// Only `OutOfMemory`.
    pub fn get_matrices<'a, M: Matrix<P::Value>>(
        &self,
        tree: &'a SaltedTree<P::Value, PW::Value, M, N, D>,
    ) -> Result<Vec<&'a M>, MerkleTreeError> {
        let pairs = matrix_refs(tree)?;
        let mut matrices = Vec::with_room(pairs.len())?;
        for pair in &pairs {
            matrices.try_push(pair.left())?;
        }
        Ok(matrices)
    }

    /// The height of the tallest matrix of a tree, in rows: one more than the greatest index that can be opened.
    pub fn get_max_height<M: Matrix<P::Value>>(&self, tree: &SaltedTree<P::Value, PW::Value, M, N, D>) -> usize {
        self.plain.get_max_height(tree)
    }

    /// Checks an opening of the leaf `index` with its salts against the roots of a cap, with the errors of
    /// [`verify_batch`](Self::verify_batch). Returns the opening as the plain scheme's checker reads it, each row
    /// followed by its salts.
    fn checked_opening<'b>(
        &self,
        roots: &[[PW::Value; D]],
        dimensions: &[Dimensions],
        index: usize,
        opening: BatchOpeningRef<'b, P::Value, SaltedProof<P::Value, PW::Value, D>>,
    ) -> Result<OpeningRef<'b, P::Value, [PW::Value; D]>, MerkleTreeError> {
        let (rows, (salts, siblings)) = opening.unpack();
        check_salted_rows(dimensions, SALT_ELEMS, rows, salts)?;
        let opening = OpeningRef { index, rows: RowParts::Salted { rows, salts }, siblings };
        self.plain.checker(dimensions).check_opening(roots, SALT_ELEMS, opening)?;
        Ok(opening)
    }

    /// Verifies an opening of the leaf `index` with its salts against a cap: the plain scheme's verification of each
    /// row followed by its salts, under dimensions with `SALT_ELEMS` more columns. A cap binds salts as it binds rows.
    /// Rows and salts are read where they lie: nothing is copied, and nothing is allocated.
    ///
    /// An accepted opening has one row for each of `dimensions`, of that width, and `SALT_ELEMS` salts for each row.
    /// For each level below the cap it has the siblings of the path's node. `dimensions` are those of the matrices
    /// without salts, in input order; they must come from the verifier, never from the proof.
    ///
    /// # Errors
    ///
    /// The first of these that applies:
    ///
    /// - `WrongBatchSize`: the number of rows is not that of the dimensions;
    /// - `WrongWidth`, for the first row whose length is not the width of its matrix;
    /// - `WrongBatchSize`: the number of lists of salts is not that of the rows;
    /// - `TooLarge`, for the first matrix whose width with its salts does not fit `usize`;
    /// - the error of the plain [`verify_batch`](crate::erased::p3_merkle_tree::mmcs::Scheme::verify_batch) for the rows with their salts, so
    ///   that a wrong number of salts is a `WrongWidth` of the row with its salts.
    pub fn verify_batch(
        &self,
        commit: &MerkleCap<P::Value, [PW::Value; D]>,
        dimensions: &[Dimensions],
        index: usize,
        opening: BatchOpeningRef<'_, P::Value, SaltedProof<P::Value, PW::Value, D>>,
    ) -> Result<(), MerkleTreeError> {
        self.checked_opening(commit.roots(), dimensions, index, opening)?;
        Ok(())
    }

    /// Verifies the rows and salts of several leaves by one pruned proof against a cap: the plain scheme's verification
    /// of each row followed by its salts, under dimensions with `SALT_ELEMS` more columns.
    ///
    /// An accepted opening has a row set and a salt set for each index: one row for each of `dimensions`, of that
    /// width, and `SALT_ELEMS` salts for each row. Queries of one index have the same rows and salts. Queries under one
    /// node, at most as high as the cap, have the same rows and salts of the matrices that belong to the node's layer.
    /// `dimensions` are those of the matrices without salts, in input order; they must come from the verifier, never
    /// from the proof. Rows and salts are read where they lie: the call allocates lists of nodes and of their digests,
    /// and the dimensions with salts.
    ///
    /// # Errors
    ///
    /// The first of these that applies, where `OutOfMemory` never takes the place of one of the first three:
    ///
    /// - `WrongBatchSize`: the number of salt sets is not that of the row sets;
    /// - in query order, for each row set with its salts: `WrongBatchSize` if the number of rows is not that of the
    ///   dimensions, `WrongWidth` for the first row whose length is not the width of its matrix, `WrongBatchSize` if
    ///   the number of lists of salts is not that of the rows;
    /// - `TooLarge`, for the first matrix whose width with its salts does not fit `usize`;
    /// - the error of the plain [`verify_multi_batch`](crate::erased::p3_merkle_tree::mmcs::Scheme::verify_multi_batch) for the rows
    ///   with their salts.
    pub fn verify_multi_batch(
        &self,
        commit: &MerkleCap<P::Value, [PW::Value; D]>,
        dimensions: &[Dimensions],
        indices: &[usize],
        rows: &[Vec<Vec<P::Value>>],
        proof: &SaltedMultiProof<P::Value, PW::Value, D>,
    ) -> Result<(), MerkleTreeError> {
        let (salts, pruned) = proof;
        check_salted_sets(dimensions, SALT_ELEMS, rows, salts)?;
        let wider = widened_dimensions(dimensions, SALT_ELEMS)?;
        let rows = RowSets::Salted { sets: rows, salts };
        let digests = &pruned.sibling_hashes;
        self.plain.verify_row_sets(commit.roots(), &wider, indices, rows, digests)
    }

    /// Restores the path of each query, in query order, with its index: its siblings, computed from the rows and salts
    /// of all queries and the digests of a pruned proof. It is the plain scheme's
    /// [`restore_and_recompute_paths`](crate::erased::p3_merkle_tree::mmcs::Scheme::restore_and_recompute_paths) of the rows followed by their
    /// salts. The parameters are as in [`verify_multi_batch`](Self::verify_multi_batch).
    ///
    /// No cap is compared, so a restored path proves nothing by itself. `verify_multi_batch` accepts an opening under a
    /// cap exactly if its paths are restored and [`verify_batch`](Self::verify_batch) accepts each query with its rows,
    /// its salts and its path. `dimensions` must come from the verifier, never from the proof.
    ///
    /// # Errors
    ///
    /// Those of `verify_multi_batch`, in the same order, without `CapMismatch`.
    pub fn restore_and_recompute_paths(
        &self,
        dimensions: &[Dimensions],
        indices: &[usize],
        rows: &[Vec<Vec<P::Value>>],
        proof: &SaltedMultiProof<P::Value, PW::Value, D>,
    ) -> Result<Vec<MerkleAuthPath<PW::Value, D>>, MerkleTreeError> {
        let (salts, pruned) = proof;
        check_salted_sets(dimensions, SALT_ELEMS, rows, salts)?;
        let wider = widened_dimensions(dimensions, SALT_ELEMS)?;
        let rows = RowSets::Salted { sets: rows, salts };
        let digests = &pruned.sibling_hashes;
        self.plain.restore_row_sets(&wider, indices, rows, digests)
    }

    /// Extracts a collision from two accepted openings of one cap: two different inputs of the hasher or of the
    /// compression with one digest, or `None` if the openings agree.
    ///
    /// It is the plain scheme's [`extract_collision`](crate::erased::p3_merkle_tree::mmcs::Scheme::extract_collision) of the rows
    /// followed by their salts. Both openings are verified as by [`verify_batch`](Self::verify_batch). Two openings of
    /// one index give a collision exactly if they differ in a sibling, or in a row or the salts of an authenticated
    /// matrix. Openings of any two indices give one if they conflict in a row of such a matrix. Under the rule
    /// `Lowered` every matrix is authenticated.
    ///
    /// # Errors
    ///
    /// The first of these that applies:
    ///
    /// - the error of `verify_batch` for the first opening;
    /// - the error of `verify_batch` for the second opening;
    /// - `OutOfMemory`, only if the checks differ at a place that both share.
    pub fn extract_collision(
        &self,
        commit: &MerkleCap<P::Value, [PW::Value; D]>,
        dimensions: &[Dimensions],
        index1: usize,
        first: BatchOpeningRef<'_, P::Value, SaltedProof<P::Value, PW::Value, D>>,
        index2: usize,
        second: BatchOpeningRef<'_, P::Value, SaltedProof<P::Value, PW::Value, D>>,
    ) -> Result<Option<Collision<P::Value, PW::Value, D>>, MerkleTreeError> {
        let roots = commit.roots();
        let first = self.checked_opening(roots, dimensions, index1, first)?;
        let second = self.checked_opening(roots, dimensions, index2, second)?;
        let checker = self.plain.checker(dimensions);
        Ok(checker.last_difference(first, second)?)
    }

    /// Extracts a collision from two accepted pruned openings of one cap: the first pair of queries that gives a
    /// collision, in the order of the first list, then of the second. Returns the position of each query in its list,
    /// from 0, and two different inputs of the hasher or of the compression with one digest; or `None` if all agree.
    ///
    /// The first opening is `indices1`, `rows1` and `proof1`, the second `indices2`, `rows2` and `proof2`: a row set
    /// for each index, and a proof with a salt set for each. Both are verified as by
    /// [`verify_multi_batch`](Self::verify_multi_batch). The call is the plain scheme's
    /// [`extract_collision_multi`](crate::erased::p3_merkle_tree::mmcs::Scheme::extract_collision_multi) of the rows followed by their
    /// salts. It finds a collision wherever two queries conflict in a row of an authenticated matrix. Two openings of
    /// one list of indices give a collision exactly if they differ in a digest of the proof, or in a row or the salts
    /// of an authenticated matrix. Under the rule `Lowered` every matrix is authenticated.
    ///
    /// # Errors
    ///
    /// The first of these that applies, where `OutOfMemory` never takes the place of one of the first three that
    /// `verify_multi_batch` lists, for the first opening:
    ///
    /// - the error of `verify_multi_batch` for the first opening;
    /// - the error of `verify_multi_batch` for the second opening.
    pub fn extract_collision_multi(
        &self,
        commit: &MerkleCap<P::Value, [PW::Value; D]>,
        dimensions: &[Dimensions],
        indices1: &[usize],
        rows1: &[Vec<Vec<P::Value>>],
        proof1: &SaltedMultiProof<P::Value, PW::Value, D>,
        indices2: &[usize],
        rows2: &[Vec<Vec<P::Value>>],
        proof2: &SaltedMultiProof<P::Value, PW::Value, D>,
    ) -> Result<Option<(usize, usize, Collision<P::Value, PW::Value, D>)>, MerkleTreeError> {
        let roots = commit.roots();
        check_salted_sets(dimensions, SALT_ELEMS, rows1, &proof1.0)?;
        let wider = widened_dimensions(dimensions, SALT_ELEMS)?;
        let first = opening_with_salts(indices1, rows1, proof1);
        // A refusal of the first opening comes before one of the second.
        if let Err(error) = check_salted_sets(dimensions, SALT_ELEMS, rows2, &proof2.0) {
            let (indices, rows, digests) = (first.indices, first.sets, first.sent);
            let checked = self.plain.verify_row_sets(roots, &wider, indices, rows, digests);
            return Err(checked.err().unwrap_or(error));
        }
        let second = opening_with_salts(indices2, rows2, proof2);
        self.plain.pruned_extraction(roots, &wider, first, second)
    }

    /// Compares two trees with one cap, over matrices of the same dimensions, with `SALT_ELEMS` salts a row. Returns
    /// `None` if each authenticated matrix has the same rows and salts in both; else a collision: two different inputs
    /// of the hasher or of the compression with one digest. Under the rule `Lowered` every matrix is authenticated.
    ///
    /// It is the plain scheme's comparison of the rows followed by their salts, and takes as much time and memory. For
    /// trees that [`commit`](Self::commit) returned with this cap no opening is refused.
    ///
    /// # Errors
    ///
    /// Those of the plain [`commitment_collision`](crate::erased::p3_merkle_tree::mmcs::Scheme::commitment_collision).
    pub fn commitment_collision<A: Matrix<P::Value>, B: Matrix<P::Value>>(
        &self,
        commit: &MerkleCap<P::Value, [PW::Value; D]>,
        first: &SaltedTree<P::Value, PW::Value, A, N, D>,
        second: &SaltedTree<P::Value, PW::Value, B, N, D>,
    ) -> Result<Option<(usize, Collision<P::Value, PW::Value, D>)>, MerkleTreeError> {
        self.plain.commitment_collision(commit, first, second)
    }
}

/// The pruned opening of `indices`, with the row sets `rows` and the salts and digests of `proof`, as the plain
/// scheme's checker reads it: each row is followed by its salts.
fn opening_with_salts<'a, T, W, const D: usize>(
    indices: &'a [usize],
    rows: &'a [Vec<Vec<T>>],
    proof: &'a SaltedMultiProof<T, W, D>,
) -> PrunedOpeningRef<'a, T, [W; D]> {
    let (salts, pruned) = proof;
    PrunedOpeningRef { indices, sets: RowSets::Salted { sets: rows, salts }, sent: &pruned.sibling_hashes }
}
