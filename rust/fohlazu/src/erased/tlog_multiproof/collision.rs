// Made from crates/tlog_multiproof/src/collision.rt by tools/erase.

//! What an accepted proof of several entries shows of them, or else a collision of the hash function.

use crate::erased::p3_merkle_core::error::MerkleTreeError;
use crate::erased::p3_merkle_core::pruning::MerkleAuthPath;
use crate::erased::p3_merkle_verifier::openings::PrunedOpeningRef;
use crate::erased::tlog::collision::Collision;
use crate::erased::tlog::honest_proofs::root;
use crate::erased::tlog::{LogHash, leaf_collision};
use crate::erased::tlog_multiproof::error::EntriesError;
use crate::erased::tlog_multiproof::opening::opening_of;
use crate::erased::tlog_multiproof::tree::{LogTree, Node};
use crate::fallible::{AllocError, VecExt};
use alloc::vec::Vec;

/// A collision, if one proof of several leaf hashes is accepted under the root of the entries, and one of them is not
/// that of the entry at its index, counted from 0; else `None`. The hash function may be any whose values have 32
/// bytes.
///
/// # Errors
///
/// `AllocError` if memory runs out.
pub fn entries_collision<H: LogHash<32>>(
    entries: &[Vec<u8>],
    indices: &[usize],
    leaves: &[[u8; 32]],
    proof: &[[u8; 32]],
) -> Result<Option<Collision>, AllocError> {
    let root = root::<H, 32>(entries);
    let accepted = accepted_paths::<H>(entries.len(), indices, leaves, proof, &root)?;
    let Some(paths) = accepted else {
        return Ok(None);
    };
    path_collision::<H>(entries, indices, leaves, &paths)
}

/// The path of each of `leaves`, as `leaves` and `proof` give it, if they are accepted under `root` as the leaf hashes
/// at `indices`, counted from 0, of a log of `size` entries; else `None`. `AllocError` if memory runs out.
fn accepted_paths<H: LogHash<32>>(
    size: usize,
    indices: &[usize],
    leaves: &[[u8; 32]],
    proof: &[[u8; 32]],
    root: &[u8; 32],
) -> Result<Option<Vec<MerkleAuthPath<Node, 1>>>, AllocError> {
    let opening = match opening_of(size, indices, leaves, proof) {
        Ok(opening) => opening,
        Err(EntriesError::OutOfMemory) => return Err(AllocError),
        Err(_) => return Ok(None),
    };
    let tree = LogTree::<H>::new(size);
    let checker = tree.checker();
    let opening = PrunedOpeningRef::new(indices, &opening.opened_values, &opening.pruned_proof);
    let paths = match checker.restored_paths(opening) {
        Ok(paths) => paths,
        Err(MerkleTreeError::OutOfMemory) => return Err(AllocError),
        Err(_) => return Ok(None),
    };
    match checker.check_pruned_opening(&[[Node::Hash(*root)]], opening) {
        Ok(()) => Ok(Some(paths)),
        Err(MerkleTreeError::OutOfMemory) => Err(AllocError),
        Err(_) => Ok(None),
    }
}

/// A collision, if one of `leaves` is accepted with its path under the root of `entries`, and is not the leaf hash of
/// the entry at its index, counted from 0; else `None`. `indices` and `paths` have the index and the path of each of
/// `leaves`. `AllocError` if memory runs out.
fn path_collision<H: LogHash<32>>(
    entries: &[Vec<u8>],
    indices: &[usize],
    leaves: &[[u8; 32]],
    paths: &[MerkleAuthPath<Node, 1>],
) -> Result<Option<Collision>, AllocError> {
    for k in 0..indices.len() {
        let path = present(&paths[k].siblings)?;
        let found = leaf_collision::<H, 32>(entries, indices[k], &leaves[k], &path)?;
        if found.is_some() {
            return Ok(found);
        }
    }
    Ok(None)
}

/// The hashes among `digests`, in order, without those that are absent. `AllocError` if memory runs out.
fn present(digests: &[[Node; 1]]) -> Result<Vec<[u8; 32]>, AllocError> {
    let mut hashes = Vec::new();
    for digest in digests {
        if let Node::Hash(hash) = digest[0] {
            hashes.try_push(hash)?;
        }
    }
    Ok(hashes)
}
