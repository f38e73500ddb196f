#![doc = include_str!("../README.md")]
#![no_std]
#![forbid(unsafe_code)]

extern crate alloc;

mod adapt;
mod error;
mod geometry;
mod hiding_mmcs;
mod merkle_tree;
mod mmcs;
mod pruning;

pub use error::MerkleTreeError;
pub use fohlazu::merkle_tree::PrunedProofError;
pub use hiding_mmcs::MerkleTreeHidingMmcs;
pub use merkle_tree::MerkleTree;
pub use mmcs::MerkleTreeMmcs;
pub use p3_symmetric::MerkleCap;
pub use pruning::{MerkleAuthPath, PrunedBatchOpening, PrunedMerklePaths};
