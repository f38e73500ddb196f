//! The salted scheme: each row is followed by random words before it is hashed.
//!
//! It draws and stores salts as p3-merkle-tree 0.8.0 does, so its trees have the same type. All else is the proved
//! scheme without salts, which commits to the salted matrices, opens their rows, and verifies rows and salts where they
//! lie.

use crate::geometry::{check_len, check_rows_and_salts, verdict, widened};
use crate::pruning::slices_of;
use crate::{MerkleTree, MerkleTreeError, MerkleTreeMmcs, PrunedMerklePaths};
use alloc::vec::Vec;
use fohlazu::support::{RowParts, RowSets};
use p3_commit::{BatchOpening, BatchOpeningRef, Mmcs};
use p3_field::PackedValue;
use p3_matrix::dense::RowMajorMatrix;
use p3_matrix::stack::HorizontalPair;
use p3_matrix::{Dimensions, Matrix};
use p3_symmetric::{CryptographicHasher, MerkleCap, PseudoCompressionFunction};
use rand::distr::{Distribution, StandardUniform};
use rand::{CryptoRng, SeedableRng};
use serde::de::DeserializeOwned;
use serde::{Deserialize, Serialize};
use spin::Mutex;

/// A scheme that commits to matrices of words `P::Value`, each row followed by `SALT_ELEMS` random words. The generator
/// `R` stands behind a lock, so that a commitment takes a shared reference. The other parameters are as in
/// [`MerkleTreeMmcs`].
#[derive(Debug)]
pub struct MerkleTreeHidingMmcs<P, PW, H, C, R, const N: usize, const DIGEST_ELEMS: usize, const SALT_ELEMS: usize> {
    inner: MerkleTreeMmcs<P, PW, H, C, N, DIGEST_ELEMS>,
    rng: Mutex<R>,
}

impl<P, PW, H, C, R, const N: usize, const DIGEST_ELEMS: usize, const SALT_ELEMS: usize>
    MerkleTreeHidingMmcs<P, PW, H, C, R, N, DIGEST_ELEMS, SALT_ELEMS>
{
    /// The salted scheme of a hasher and a compression, with a cap as by [`MerkleTreeMmcs::new`]. Salts are drawn from
    /// `rng`.
    pub const fn new(hash: H, compress: C, cap_height: usize, rng: R) -> Self {
        MerkleTreeHidingMmcs { inner: MerkleTreeMmcs::new(hash, compress, cap_height), rng: Mutex::new(rng) }
    }

    /// The salted scheme with a cap as by [`MerkleTreeMmcs::with_lowered_cap`], which authenticates each row and salt.
    pub const fn with_lowered_cap(hash: H, compress: C, cap_height: usize, rng: R) -> Self {
        let inner = MerkleTreeMmcs::with_lowered_cap(hash, compress, cap_height);
        MerkleTreeHidingMmcs { inner, rng: Mutex::new(rng) }
    }

    /// The cap height, in levels below the root.
    pub const fn cap_height(&self) -> usize {
        self.inner.cap_height()
    }
}

/// The clone has a generator of its own, whose seed this scheme's generator draws: so both salt differently.
impl<P, PW, H, C, R, const N: usize, const DIGEST_ELEMS: usize, const SALT_ELEMS: usize> Clone
    for MerkleTreeHidingMmcs<P, PW, H, C, R, N, DIGEST_ELEMS, SALT_ELEMS>
where
    MerkleTreeMmcs<P, PW, H, C, N, DIGEST_ELEMS>: Clone,
    R: CryptoRng + SeedableRng,
{
    fn clone(&self) -> Self {
        let rng = R::from_rng(&mut *self.rng.lock());
        MerkleTreeHidingMmcs { inner: self.inner.clone(), rng: Mutex::new(rng) }
    }
}

/// Splits salted rows into their own words, which stay where they are, and the salts at their end, which are copied.
fn split<T: Copy>(mut rows: Vec<Vec<T>>, salts: usize) -> (Vec<Vec<T>>, Vec<Vec<T>>) {
    let salts = rows.iter_mut().map(|row| row.split_off(row.len() - salts)).collect();
    (rows, salts)
}

impl<P, PW, H, C, R, const N: usize, const DIGEST_ELEMS: usize, const SALT_ELEMS: usize> Mmcs<P::Value>
    for MerkleTreeHidingMmcs<P, PW, H, C, R, N, DIGEST_ELEMS, SALT_ELEMS>
where
    P: PackedValue,
    P::Value: Serialize + DeserializeOwned,
    PW: PackedValue,
    H: CryptographicHasher<P::Value, [PW::Value; DIGEST_ELEMS]> + CryptographicHasher<P, [PW; DIGEST_ELEMS]> + Sync,
    C: PseudoCompressionFunction<[PW::Value; DIGEST_ELEMS], N>
        + PseudoCompressionFunction<[PW; DIGEST_ELEMS], N>
        + Sync,
    R: CryptoRng + SeedableRng + Send,
    PW::Value: Eq + Clone,
    [PW::Value; DIGEST_ELEMS]: Serialize + for<'de> Deserialize<'de>,
    StandardUniform: Distribution<P::Value>,
{
    type ProverData<M> = MerkleTree<P::Value, PW::Value, HorizontalPair<M, RowMajorMatrix<P::Value>>, N, DIGEST_ELEMS>;
    type Commitment = MerkleCap<P::Value, [PW::Value; DIGEST_ELEMS]>;
    /// The salts of each row, and the siblings on the path.
    type Proof = (Vec<Vec<P::Value>>, Vec<[PW::Value; DIGEST_ELEMS]>);
    /// The salts of each row of each query, and one pruned proof.
    type MultiProof = (Vec<Vec<Vec<P::Value>>>, PrunedMerklePaths<PW::Value, DIGEST_ELEMS>);
    type Error = MerkleTreeError;

    fn commit<M: Matrix<P::Value>>(&self, inputs: Vec<M>) -> (Self::Commitment, Self::ProverData<M>) {
        let mut rng = self.rng.lock();
        let salted = |matrix: M| {
            let salts = RowMajorMatrix::rand(&mut *rng, matrix.height(), SALT_ELEMS);
            HorizontalPair::new(matrix, salts)
        };
        self.inner.commit(inputs.into_iter().map(salted).collect())
    }

    fn open_batch<M: Matrix<P::Value>>(
        &self,
        index: usize,
        prover_data: &Self::ProverData<M>,
    ) -> BatchOpening<P::Value, Self> {
        let (rows, siblings) = self.inner.open_batch(index, prover_data).unpack();
        let (rows, salts) = split(rows, SALT_ELEMS);
        BatchOpening::new(rows, (salts, siblings))
    }

    fn get_matrices<'a, M: Matrix<P::Value>>(&self, prover_data: &'a Self::ProverData<M>) -> Vec<&'a M> {
        self.inner.get_matrices(prover_data).into_iter().map(|pair| &pair.left).collect()
    }

    fn verify_batch(
        &self,
        commit: &Self::Commitment,
        dimensions: &[Dimensions],
        index: usize,
        batch_opening: BatchOpeningRef<'_, P::Value, Self>,
    ) -> Result<(), Self::Error> {
        let (rows, (salts, siblings)) = batch_opening.unpack();
        check_rows_and_salts(dimensions, rows, salts)?;
        let (dimensions, rows) = (widened(dimensions, SALT_ELEMS), RowParts::Salted { rows, salts });
        verdict(self.inner.proved().verify_rows(commit.roots(), &dimensions, index, rows, siblings))
    }

    fn open_multi_batch<M: Matrix<P::Value>>(
        &self,
        indices: &[usize],
        prover_data: &Self::ProverData<M>,
    ) -> (Vec<Vec<Vec<P::Value>>>, Self::MultiProof) {
        let (sets, proof) = self.inner.open_multi_batch(indices, prover_data);
        let (sets, salts) = sets.into_iter().map(|rows| split(rows, SALT_ELEMS)).unzip();
        (sets, (salts, proof))
    }

    fn verify_multi_batch<S: AsRef<[P::Value]> + PartialEq>(
        &self,
        commit: &Self::Commitment,
        dimensions: &[Dimensions],
        indices: &[usize],
        opened_values: &[Vec<S>],
        (salts, proof): &Self::MultiProof,
    ) -> Result<(), Self::Error> {
        check_len(opened_values.len(), salts.len())?;
        for (rows, salts) in opened_values.iter().zip(salts) {
            check_rows_and_salts(dimensions, rows, salts)?;
        }
        let (dimensions, slices) = (widened(dimensions, SALT_ELEMS), slices_of(opened_values));
        let sets: Vec<_> =
            slices.iter().zip(salts).map(|(rows, salts)| RowParts::SaltedSlices { rows, salts }).collect();
        let (sets, digests) = (RowSets::Parts(&sets), &proof.sibling_hashes);
        verdict(self.inner.proved().verify_row_sets(commit.roots(), &dimensions, indices, sets, digests))
    }
}
