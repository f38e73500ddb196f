// Made from crates/p3_merkle_tree/src/binding.rt by tools/erase.

//! What a cap binds: two trees with one cap have the same rows in each authenticated matrix, or a collision is
//! extracted from their openings. A matrix is authenticated if the cap's digests are computed from its rows.

use crate::erased::p3_merkle_core::collision::Collision;
use crate::erased::p3_merkle_core::error::MerkleTreeError;
use crate::erased::p3_merkle_prover::opener::{max_height, tree_schedule};
use crate::erased::p3_merkle_prover::tree::MerkleTree;
use crate::erased::p3_merkle_tree::mmcs::MerkleTreeMmcs;
use crate::erased::p3_support::compress::PseudoCompressionFunction;
use crate::erased::p3_support::hasher::CryptographicHasher;
use crate::erased::p3_support::matrix::Matrix;
use crate::erased::p3_support::opening::{BatchOpeningRef, MerkleCap};
use crate::erased::p3_support::packed::PackedValue;

impl<
    P: PackedValue,
    PW: PackedValue,
    H: CryptographicHasher<P, PW, D>,
    C: PseudoCompressionFunction<PW, N, D>,
    const N: usize,
    const D: usize,
> MerkleTreeMmcs<P, PW, H, C, N, D>
{
    /// Compares two trees with one cap, over matrices of the same dimensions. Returns `None` if each
    /// [authenticated](Self::is_authenticated) matrix has the same rows in both; else a collision: two different inputs
    /// of the hasher or of the compression with one digest. Under the rule `Lowered` every matrix is authenticated, so
    /// without a collision a cap belongs to one batch of matrices alone.
    ///
    /// For each index, from 0 on, both trees are opened, and [`extract_collision`](Self::extract_collision) compares
    /// both openings under the cap. The first collision is returned with its index: its
    /// [`Place`](crate::erased::p3_merkle_core::collision::Place) is a node on the path of that leaf. For trees that
    /// [`commit`](Self::commit) returned with this cap no opening is refused. The call takes the time of four checks
    /// for each leaf, so each level of the tree costs as much as the leaves, and the memory of two openings and of
    /// their inputs.
    ///
    /// # Errors
    ///
    /// The first of these that applies, index by index, where `OutOfMemory` may come at any time:
    ///
    /// - `IndexOutOfBounds`: the second tree has fewer leaves than the first;
    /// - the error of [`verify_batch`](Self::verify_batch) for what the first tree opens, under the cap and the
    ///   dimensions of the first tree;
    /// - the same error for what the second tree opens.
    pub fn commitment_collision<A: Matrix<P::Value>, B: Matrix<P::Value>>(
        &self,
        commit: &MerkleCap<P::Value, [PW::Value; D]>,
        first: &MerkleTree<P::Value, PW::Value, A, N, D>,
        second: &MerkleTree<P::Value, PW::Value, B, N, D>,
    ) -> Result<Option<(usize, Collision<P::Value, PW::Value, D>)>, MerkleTreeError> {
        for index in 0..max_height(first) {
            let found = self.index_collision(commit, index, first, second)?;
            if let Some(collision) = found {
                return Ok(Some((index, collision)));
            }
        }
        Ok(None)
    }

    /// Compares what two trees open at `index`, which must be below the height of the first one. The errors are those
    /// of [`commitment_collision`](Self::commitment_collision).
    fn index_collision<A: Matrix<P::Value>, B: Matrix<P::Value>>(
        &self,
        commit: &MerkleCap<P::Value, [PW::Value; D]>,
        index: usize,
        first: &MerkleTree<P::Value, PW::Value, A, N, D>,
        second: &MerkleTree<P::Value, PW::Value, B, N, D>,
    ) -> Result<Option<Collision<P::Value, PW::Value, D>>, MerkleTreeError> {
        let max_height = max_height(second);
        if index >= max_height {
            return Err(MerkleTreeError::IndexOutOfBounds { max_height, index });
        }
        let opening = self.open_batch(index, first)?;
        let other = self.open_batch(index, second)?;
        let dimensions = tree_schedule(first).dimensions;
        self.extract_collision(
            commit,
            dimensions,
            index,
            BatchOpeningRef::from(&opening),
            index,
            BatchOpeningRef::from(&other),
        )
    }
}
