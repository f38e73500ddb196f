// Made from crates/p3_merkle_tree/src/lib.rt by tools/erase.

//! Merkle commitments to matrices of different heights: one tree of any arity over a batch of matrices, and openings of
//! its rows, which a verifier checks against a cap. Each public name of the library stands here; traits, matrices and
//! openings as lists of rows are in `p3_support`, hashes in `p3_hashes`.
//!
//! The salted scheme is this crate's own: each row is followed by random words before it is hashed. That this hides the
//! rows is not proved. Salts are drawn beside the matrices. What the plain scheme opens is split into rows and salts;
//! its checks read each row and its salts where they lie, one after the other.
//!
//! Some names are aliases at digests of words: `MerkleTree`, `MerkleTreeMmcs`, `MerkleTreeHidingMmcs`, `Hash`,
//! `PrunedMerklePaths`, `PrunedBatchOpening`, `MerkleAuthPath` and `Collision`. The structs that they name, which are
//! what a message of the compiler says, stand beside them: `Tree`, `Scheme`, `HidingScheme`, `DigestRef`,
//! `PrunedProof`, `PrunedRows`, `AuthPath` and `InputPair`.

pub(crate) mod binding;
pub(crate) mod extract;
pub(crate) mod hiding_mmcs;
pub(crate) mod hiding_open;
pub(crate) mod hiding_trait;
pub(crate) mod mmcs;
pub(crate) mod mmcs_trait;
pub(crate) mod pruned;
pub(crate) mod salts;
pub(crate) mod schedule;

pub use crate::erased::p3_merkle_core::cap::CapRule;
pub use crate::erased::p3_merkle_core::collision::{Collision, InputPair, Place};
pub use crate::erased::p3_merkle_core::error::{MerkleTreeError, PrunedProofError};
pub use crate::erased::p3_merkle_core::geometry::{ArityAndPositions, MAX_HEIGHT};
pub use crate::erased::p3_merkle_core::pruning::{
    AuthPath, MerkleAuthPath, PrunedBatchOpening, PrunedMerklePaths, PrunedProof, PrunedRows, check_indices,
};
pub use crate::erased::p3_merkle_prover::tree::{MerkleTree, Tree};
pub use crate::erased::p3_support::opening::{BatchOpening, BatchOpeningRef, DigestRef, Hash, MerkleCap};
pub use hiding_mmcs::{HidingScheme, MerkleTreeHidingMmcs, SaltedMultiProof, SaltedProof, SaltedTree};
pub use mmcs::{MerkleTreeMmcs, Scheme};
