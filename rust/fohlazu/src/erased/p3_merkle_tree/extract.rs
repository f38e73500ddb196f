// Made from crates/p3_merkle_tree/src/extract.rt by tools/erase.

//! Extraction of collisions from two openings of one cap, single or pruned. A check goes from the leaf up, level by
//! level, and has an input of the hash or of the compression at each place. Openings conflict in a row if both have it
//! and its words differ.

use crate::erased::p3_merkle_core::collision::Collision;
use crate::erased::p3_merkle_core::error::MerkleTreeError;
use crate::erased::p3_merkle_core::pruning::PrunedMerklePaths;
use crate::erased::p3_merkle_tree::mmcs::MerkleTreeMmcs;
use crate::erased::p3_merkle_verifier::openings::{OpeningRef, PrunedOpeningRef};
use crate::erased::p3_support::compress::PseudoCompressionFunction;
use crate::erased::p3_support::hasher::CryptographicHasher;
use crate::erased::p3_support::matrix::Dimensions;
use crate::erased::p3_support::opening::{BatchOpeningRef, MerkleCap};
use crate::erased::p3_support::packed::PackedValue;
use alloc::vec::Vec;

impl<
    P: PackedValue,
    PW: PackedValue,
    H: CryptographicHasher<P, PW, D>,
    C: PseudoCompressionFunction<PW, N, D>,
    const N: usize,
    const D: usize,
> MerkleTreeMmcs<P, PW, H, C, N, D>
{
    /// Extracts a collision from two accepted openings of one cap: two different inputs of the hasher or of the
    /// compression with one digest, or `None` if the openings agree.
    ///
    /// Both openings are verified as by [`verify_batch`](Self::verify_batch). A check hashes the leaf's rows. On each
    /// level it compresses a group: a node with its siblings. Where matrices belong to the layer above, it hashes their
    /// rows, and compresses a pair: both digests. These inputs are at different
    /// [`Place`](crate::erased::p3_merkle_core::collision::Place)s. Checks of one index share all places, those of two indices the
    /// places from the level on where their paths meet. The collision is at the last shared place where the inputs
    /// differ: it has the input of the first opening and that of the second. The call allocates only at shared places.
    ///
    /// Two openings of one index give a collision exactly if they differ in a sibling, or in a row of an
    /// [authenticated](Self::is_authenticated) matrix. Openings of any two indices give one if they conflict in a row
    /// of such a matrix. Under the rule `Lowered` every matrix is authenticated, so any two different openings of one
    /// index give a collision.
    ///
    /// # Errors
    ///
    /// The first of these that applies:
    ///
    /// - the error of `verify_batch` for the first opening;
    /// - the error of `verify_batch` for the second opening;
    /// - `OutOfMemory`, only if the checks differ at a place that both share.
    pub fn extract_collision(
        &self,
        commit: &MerkleCap<P::Value, [PW::Value; D]>,
        dimensions: &[Dimensions],
        index1: usize,
        first: BatchOpeningRef<'_, P::Value, Vec<[PW::Value; D]>>,
        index2: usize,
        second: BatchOpeningRef<'_, P::Value, Vec<[PW::Value; D]>>,
    ) -> Result<Option<Collision<P::Value, PW::Value, D>>, MerkleTreeError> {
        let first = OpeningRef::new(index1, first);
        let second = OpeningRef::new(index2, second);
        self.checker(dimensions).extraction(commit.roots(), first, second)
    }

    /// Extracts a collision from two accepted pruned openings of one cap: two different inputs of the hasher or of the
    /// compression with one digest, with the queries that lead to it, or `None` if all queries agree.
    ///
    /// The first opening is `indices1`, `rows1` and `proof1`, the second `indices2`, `rows2` and `proof2`: a row set
    /// for each index, and one proof. Both are verified as by [`verify_batch_pruned`](Self::verify_batch_pruned), and
    /// the siblings of each query are computed. Returns the first pair of queries, in the order of the first list, then
    /// of the second, for which [`extract_collision`](Self::extract_collision) gives a collision: the position of each
    /// query in its list, from 0, and the collision. Not every pair is compared: beside both verifications the call
    /// takes the time of at most four checks for each query of the first opening, and two for each of the second.
    ///
    /// Two openings of one list of indices give a collision exactly if they differ in a digest of the proof, or in a
    /// row of an [authenticated](Self::is_authenticated) matrix. Under the rule `Lowered` every matrix is
    /// authenticated, so any two different openings of one list give a collision.
    ///
    /// # Errors
    ///
    /// The first of these that applies, where `OutOfMemory` may come once the first opening's indices are known to be
    /// in range:
    ///
    /// - the error of `verify_batch_pruned` for the first opening;
    /// - the error of `verify_batch_pruned` for the second opening.
    pub fn extract_collision_multi(
        &self,
        commit: &MerkleCap<P::Value, [PW::Value; D]>,
        dimensions: &[Dimensions],
        indices1: &[usize],
        rows1: &[Vec<Vec<P::Value>>],
        proof1: &PrunedMerklePaths<PW::Value, D>,
        indices2: &[usize],
        rows2: &[Vec<Vec<P::Value>>],
        proof2: &PrunedMerklePaths<PW::Value, D>,
    ) -> Result<Option<(usize, usize, Collision<P::Value, PW::Value, D>)>, MerkleTreeError> {
        let first = PrunedOpeningRef::new(indices1, rows1, proof1);
        let second = PrunedOpeningRef::new(indices2, rows2, proof2);
        self.pruned_extraction(commit.roots(), dimensions, first, second)
    }

    /// Extracts a collision from two pruned openings under the roots of a cap as
    /// [`extract_collision_multi`](Self::extract_collision_multi) does, with the same errors, wherever their rows lie.
    pub(crate) fn pruned_extraction(
        &self,
        roots: &[[PW::Value; D]],
        dimensions: &[Dimensions],
        first: PrunedOpeningRef<'_, P::Value, [PW::Value; D]>,
        second: PrunedOpeningRef<'_, P::Value, [PW::Value; D]>,
    ) -> Result<Option<(usize, usize, Collision<P::Value, PW::Value, D>)>, MerkleTreeError> {
        self.checker(dimensions).pruned_extraction(roots, first, second)
    }
}
