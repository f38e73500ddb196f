// Made from crates/p3_merkle_tree/src/mmcs_trait.rt by tools/erase.

//! The trait `Mmcs` for the scheme, so that callers can be generic in the scheme.

use crate::erased::p3_merkle_core::error::MerkleTreeError;
use crate::erased::p3_merkle_core::pruning::PrunedMerklePaths;
use crate::erased::p3_merkle_prover::tree::MerkleTree;
use crate::erased::p3_merkle_tree::mmcs::MerkleTreeMmcs;
use crate::erased::p3_support::compress::PseudoCompressionFunction;
use crate::erased::p3_support::hasher::CryptographicHasher;
use crate::erased::p3_support::matrix::{Dimensions, Matrix};
use crate::erased::p3_support::mmcs::Mmcs;
use crate::erased::p3_support::opening::{BatchOpening, BatchOpeningRef, MerkleCap};
use crate::erased::p3_support::packed::PackedValue;
use alloc::vec::Vec;

/// The scheme as an `Mmcs`. The prover's data is the tree, and the commitment is its cap. Each call is the scheme's own
/// call of its name, with the same errors: `self.open_batch` means the method of the type, which comes before the
/// trait's.
impl<
    P: PackedValue,
    PW: PackedValue,
    H: CryptographicHasher<P, PW, D>,
    C: PseudoCompressionFunction<PW, N, D>,
    M: Matrix<P::Value>,
    const N: usize,
    const D: usize,
> Mmcs<P::Value, M> for MerkleTreeMmcs<P, PW, H, C, N, D>
{
    type ProverData = MerkleTree<P::Value, PW::Value, M, N, D>;

    type Commitment = MerkleCap<P::Value, [PW::Value; D]>;

    type Proof = Vec<[PW::Value; D]>;

    type MultiProof = PrunedMerklePaths<PW::Value, D>;

    type Error = MerkleTreeError;

    fn commit(&mut self, matrices: Vec<M>) -> Result<(Self::Commitment, Self::ProverData), Self::Error> {
        Self::commit(self, matrices)
    }

    fn open_batch(
        &self,
        index: usize,
        prover_data: &Self::ProverData,
    ) -> Result<BatchOpening<P::Value, Self::Proof>, Self::Error> {
        self.open_batch(index, prover_data)
    }

    fn get_matrices<'a>(&self, prover_data: &'a Self::ProverData) -> Result<Vec<&'a M>, Self::Error> {
        self.get_matrices(prover_data)
    }

    fn get_max_height(&self, prover_data: &Self::ProverData) -> usize {
        self.get_max_height(prover_data)
    }

    fn verify_batch(
        &self,
        commitment: &Self::Commitment,
        dimensions: &[Dimensions],
        index: usize,
        opening: BatchOpeningRef<'_, P::Value, Self::Proof>,
    ) -> Result<(), Self::Error> {
        self.verify_batch(commitment, dimensions, index, opening)
    }

    fn open_multi_batch(
        &self,
        indices: &[usize],
        prover_data: &Self::ProverData,
    ) -> Result<(Vec<Vec<Vec<P::Value>>>, Self::MultiProof), Self::Error> {
        self.open_multi_batch(indices, prover_data)
    }

    fn verify_multi_batch(
        &self,
        commitment: &Self::Commitment,
        dimensions: &[Dimensions],
        indices: &[usize],
        rows: &[Vec<Vec<P::Value>>],
        proof: &Self::MultiProof,
    ) -> Result<(), Self::Error> {
        self.verify_multi_batch(commitment, dimensions, indices, rows, proof)
    }
}
