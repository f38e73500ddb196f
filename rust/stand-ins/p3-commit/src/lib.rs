//! A stand-in for `p3-commit` 0.8, for tests where no registry is reached: the trait of commitments to matrices, as far
//! as this repository uses it. The names, the signatures and what each call returns are those that p3-merkle-tree 0.8.0
//! relies on.
#![no_std]
#![forbid(unsafe_code)]

extern crate alloc;

use alloc::vec::Vec;
use core::fmt::Debug;
use p3_matrix::{Dimensions, Matrix};
use serde::Serialize;
use serde::de::DeserializeOwned;

/// A scheme that commits to several matrices at once, and opens a row of each by one index.
pub trait Mmcs<T: Send + Sync + Clone>: Clone {
    /// What the prover keeps.
    type ProverData<M>;
    /// What the verifier has.
    type Commitment: Clone + Serialize + DeserializeOwned;
    /// The proof of the rows of one index.
    type Proof: Clone + Serialize + DeserializeOwned;
    /// The proof of the rows of several indices.
    type MultiProof: Clone + Serialize + DeserializeOwned;
    /// Why an opening is refused.
    type Error: Debug;

    /// Commits to matrices.
    fn commit<M: Matrix<T>>(&self, inputs: Vec<M>) -> (Self::Commitment, Self::ProverData<M>);

    /// Commits to one matrix.
    fn commit_matrix<M: Matrix<T>>(&self, input: M) -> (Self::Commitment, Self::ProverData<M>) {
        self.commit([input].into())
    }

    /// Opens the rows of an index.
    fn open_batch<M: Matrix<T>>(&self, index: usize, prover_data: &Self::ProverData<M>) -> BatchOpening<T, Self>;

    /// The matrices.
    fn get_matrices<'a, M: Matrix<T>>(&self, prover_data: &'a Self::ProverData<M>) -> Vec<&'a M>;

    /// The height of the tallest matrix.
    fn get_max_height<M: Matrix<T>>(&self, prover_data: &Self::ProverData<M>) -> usize {
        let heights = self.get_matrices(prover_data).into_iter().map(|matrix| matrix.height());
        heights.max().expect("a matrix")
    }

    /// Checks the rows of an index.
    fn verify_batch(
        &self,
        commit: &Self::Commitment,
        dimensions: &[Dimensions],
        index: usize,
        batch_opening: BatchOpeningRef<'_, T, Self>,
    ) -> Result<(), Self::Error>;

    /// Opens the rows of several indices by one proof.
    fn open_multi_batch<M: Matrix<T>>(
        &self,
        indices: &[usize],
        prover_data: &Self::ProverData<M>,
    ) -> (Vec<Vec<Vec<T>>>, Self::MultiProof);

    /// Checks the rows of several indices.
    fn verify_multi_batch<R: AsRef<[T]> + PartialEq>(
        &self,
        commit: &Self::Commitment,
        dimensions: &[Dimensions],
        indices: &[usize],
        opened_values: &[Vec<R>],
        proof: &Self::MultiProof,
    ) -> Result<(), Self::Error>;
}

/// The rows of an index and their proof.
#[derive(Clone, Debug)]
pub struct BatchOpening<T: Send + Sync + Clone, InputMmcs: Mmcs<T>> {
    /// A row of each matrix.
    pub opened_values: Vec<Vec<T>>,
    /// Their proof.
    pub opening_proof: InputMmcs::Proof,
}

impl<T: Send + Sync + Clone, InputMmcs: Mmcs<T>> BatchOpening<T, InputMmcs> {
    /// The opening of these rows by this proof.
    pub const fn new(opened_values: Vec<Vec<T>>, opening_proof: InputMmcs::Proof) -> Self {
        BatchOpening { opened_values, opening_proof }
    }

    /// The rows and the proof.
    pub fn unpack(self) -> (Vec<Vec<T>>, InputMmcs::Proof) {
        (self.opened_values, self.opening_proof)
    }
}

/// A borrowed opening.
#[derive(Copy, Clone, Debug)]
pub struct BatchOpeningRef<'a, T: Send + Sync + Clone, InputMmcs: Mmcs<T>> {
    /// A row of each matrix.
    pub opened_values: &'a [Vec<T>],
    /// Their proof.
    pub opening_proof: &'a InputMmcs::Proof,
}

impl<'a, T: Send + Sync + Clone, InputMmcs: Mmcs<T>> BatchOpeningRef<'a, T, InputMmcs> {
    /// The opening of these rows by this proof.
    pub const fn new(opened_values: &'a [Vec<T>], opening_proof: &'a InputMmcs::Proof) -> Self {
        BatchOpeningRef { opened_values, opening_proof }
    }

    /// The rows and the proof.
    pub const fn unpack(&self) -> (&'a [Vec<T>], &'a InputMmcs::Proof) {
        (self.opened_values, self.opening_proof)
    }
}

impl<'a, T: Send + Sync + Clone, InputMmcs: Mmcs<T>> From<&'a BatchOpening<T, InputMmcs>>
    for BatchOpeningRef<'a, T, InputMmcs>
{
    fn from(opening: &'a BatchOpening<T, InputMmcs>) -> Self {
        BatchOpeningRef::new(&opening.opened_values, &opening.opening_proof)
    }
}
