// Made from crates/p3_support/src/mmcs.rt by tools/erase.

//! Schemes that commit to matrices of different heights.

use crate::erased::p3_support::matrix::{Dimensions, Matrix};
use crate::erased::p3_support::opening::{BatchOpening, BatchOpeningRef};
use alloc::vec::Vec;

/// A scheme that commits to several matrices `M` of words `T` at once, opens the rows that belong to an index, and
/// verifies an opening against the commitment (`Mmcs` in Plonky3).
///
/// An index counts the rows of the tallest matrix, from 0. The verifier has the commitment and the dimensions of the
/// matrices, and no matrix.
///
/// An accepted opening fits the dimensions: its index is below the tallest height, and it has one row of the right
/// width for each matrix. The trait does not promise that a commitment fixes the rows: two different openings of one
/// index may both be accepted. Each scheme says what follows from two such openings, by a call of its own such as
/// `extract_collision`.
pub trait Mmcs<T, M: Matrix<T>> {
    /// What the prover stores, to open rows from.
    type ProverData;
    /// What the verifier gets, beside the dimensions.
    type Commitment;
    /// The proof of the rows of one index.
    type Proof;
    /// The proof of the rows of several indices.
    type MultiProof;
    /// Why a call refuses its input, or fails.
    type Error;

    /// Commits to matrices. Returns the commitment, for verifiers, and the prover's data, from which rows are opened.
    /// Only the scheme's random generator changes, so earlier commitments stay valid.
    ///
    /// # Errors
    ///
    /// The scheme's reason for refusing the matrices, which leaves the scheme and its generator unchanged. Matrices
    /// that the scheme can commit to fail only if memory runs out. That may come at any time, and the generator may
    /// have drawn by then.
    fn commit(&mut self, matrices: Vec<M>) -> Result<(Self::Commitment, Self::ProverData), Self::Error>;

    /// Opens an index of the matrices that `prover_data` has. The index must be below their tallest height. The opening
    /// has one row of each matrix, in input order, and a proof of them. It is accepted under a commitment to this data
    /// by this scheme.
    ///
    /// # Errors
    ///
    /// The scheme's error that memory ran out, and no other.
    fn open_batch(
        &self,
        index: usize,
        prover_data: &Self::ProverData,
    ) -> Result<BatchOpening<T, Self::Proof>, Self::Error>;

    /// The matrices that `prover_data` has, in input order: those that were committed to.
    ///
    /// # Errors
    ///
    /// The scheme's error that memory ran out, and no other.
    fn get_matrices<'a>(&self, prover_data: &'a Self::ProverData) -> Result<Vec<&'a M>, Self::Error>;

    /// The tallest height of the matrices, in rows.
    fn get_max_height(&self, prover_data: &Self::ProverData) -> usize;

    /// Verifies an opening of an index against a commitment. `dimensions` are those of the matrices, in input order;
    /// they must come from the verifier, never from the proof. An accepted opening has one row for each matrix, as long
    /// as the matrix is wide.
    ///
    /// # Errors
    ///
    /// The scheme's reason for refusing the opening. An accepted opening fails only if memory runs out, which may be
    /// reported at any time.
    fn verify_batch(
        &self,
        commitment: &Self::Commitment,
        dimensions: &[Dimensions],
        index: usize,
        opening: BatchOpeningRef<'_, T, Self::Proof>,
    ) -> Result<(), Self::Error>;

    /// Opens several indices by one proof. The indices must be below the tallest height, in any order; repeats are
    /// allowed. The result has a row set for each index, in query order, and the proof. A row set has the rows of
    /// [`open_batch`](Self::open_batch) for its index. It is accepted under the same commitments.
    ///
    /// # Errors
    ///
    /// The scheme's error that memory ran out, and no other.
    fn open_multi_batch(
        &self,
        indices: &[usize],
        prover_data: &Self::ProverData,
    ) -> Result<(Vec<Vec<Vec<T>>>, Self::MultiProof), Self::Error>;

    /// Verifies the rows of several indices by one proof against a commitment. `rows` has a row set for each index, in
    /// query order; `dimensions` are as in [`verify_batch`](Self::verify_batch). In an accepted opening each index is
    /// below the tallest height, and its row set has one row of the right width for each matrix.
    ///
    /// # Errors
    ///
    /// The scheme's reason for refusing the opening. An accepted opening fails only if memory runs out, which may be
    /// reported at any time.
    fn verify_multi_batch(
        &self,
        commitment: &Self::Commitment,
        dimensions: &[Dimensions],
        indices: &[usize],
        rows: &[Vec<Vec<T>>],
        proof: &Self::MultiProof,
    ) -> Result<(), Self::Error>;
}
