// Made from crates/tlog/src/binding.rt by tools/erase.

//! What accepted proofs fix, under one root or under that of entries, or else a collision of the hash function.

use crate::erased::tlog::collision::{Collision, leaf_input, node_input, root_collision};
use crate::erased::tlog::consistency::{self, Climb};
use crate::erased::tlog::hash::LogHash;
use crate::erased::tlog::honest_proofs::{consistency_proof, inclusion_proof, root};
use crate::erased::tlog::inclusion::{sibling_is_left, verify};
use crate::fallible::AllocError;
use alloc::vec::Vec;

/// A collision, if two nodes with different children have one hash; else `None`. `AllocError` if memory runs out.
pub(crate) fn node_collision<H: LogHash<D>, const D: usize>(
    left: &[u8; D],
    right: &[u8; D],
    other_left: &[u8; D],
    other_right: &[u8; D],
) -> Result<Option<Collision>, AllocError> {
    if left == other_left && right == other_right {
        return Ok(None);
    }
    if H::node_hash(left, right) != H::node_hash(other_left, other_right) {
        return Ok(None);
    }
    let first = node_input(left, right)?;
    let second = node_input(other_left, other_right)?;
    Ok(Some(Collision { first, second }))
}

/// A collision, if two proofs of inclusion of one index, size and root are accepted, and their leaf hashes or their
/// digests differ; else `None`.
///
/// # Errors
///
/// `AllocError` if memory runs out.
pub fn proof_collision<H: LogHash<D>, const D: usize>(
    index: usize,
    size: usize,
    leaf: &[u8; D],
    proof: &[[u8; D]],
    other_leaf: &[u8; D],
    other_proof: &[[u8; D]],
    root: &[u8; D],
) -> Result<Option<Collision>, AllocError> {
    if verify::<H, D>(index, size, leaf, proof, root).is_err() {
        return Ok(None);
    }
    if verify::<H, D>(index, size, other_leaf, other_proof, root).is_err() {
        return Ok(None);
    }
    let mut node = index;
    let mut last = size - 1;
    let mut value = *leaf;
    let mut other = *other_leaf;
    for i in 0..proof.len() {
        let (mut left, mut right) = (value, proof[i]);
        let (mut other_left, mut other_right) = (other, other_proof[i]);
        if sibling_is_left(node, last) {
            let zeros = node.trailing_zeros();
            node >>= zeros;
            last >>= zeros;
            (left, right) = (right, left);
            (other_left, other_right) = (other_right, other_left);
        }
        if let Some(found) = node_collision::<H, D>(&left, &right, &other_left, &other_right)? {
            return Ok(Some(found));
        }
        node >>= 1;
        last >>= 1;
        value = H::node_hash(&left, &right);
        other = H::node_hash(&other_left, &other_right);
    }
    Ok(None)
}

/// A collision, if two proofs of consistency between the same sizes are accepted to one new root, and their old roots
/// or their digests differ; else `None`.
///
/// # Errors
///
/// `AllocError` if memory runs out.
pub fn consistency_collision<H: LogHash<D>, const D: usize>(
    old_size: usize,
    new_size: usize,
    old_root: &[u8; D],
    proof: &[[u8; D]],
    other_root: &[u8; D],
    other_proof: &[[u8; D]],
    new_root: &[u8; D],
) -> Result<Option<Collision>, AllocError> {
    if consistency::verify::<H, D>(old_size, new_size, proof, old_root, new_root).is_err() {
        return Ok(None);
    }
    if consistency::verify::<H, D>(old_size, new_size, other_proof, other_root, new_root).is_err() {
        return Ok(None);
    }
    if old_size == 0 {
        return Ok(None);
    }
    let Some(climb) = Climb::of_proof(old_size, proof, old_root) else {
        return Ok(None);
    };
    let Some(other) = Climb::of_proof(old_size, other_proof, other_root) else {
        return Ok(None);
    };
    // Both lead from one node to the new root, as proofs of inclusion of it.
    proof_collision::<H, D>(
        climb.node,
        ((new_size - 1) >> climb.layer) + 1,
        climb.value,
        climb.digests,
        other.value,
        other.digests,
        new_root,
    )
}

/// A collision, if a proof of inclusion of `leaf` at `index`, counted from 0, is accepted under the root of the
/// entries, and the entry there has another leaf hash; else `None`.
///
/// # Errors
///
/// `AllocError` if memory runs out.
pub fn leaf_collision<H: LogHash<D>, const D: usize>(
    entries: &[Vec<u8>],
    index: usize,
    leaf: &[u8; D],
    proof: &[[u8; D]],
) -> Result<Option<Collision>, AllocError> {
    if index >= entries.len() {
        return Ok(None);
    }
    let expected = H::leaf_hash(&entries[index]);
    if *leaf == expected {
        return Ok(None);
    }
    let honest = inclusion_proof::<H, D>(entries, index)?;
    let own_root = root::<H, D>(entries);
    proof_collision::<H, D>(index, entries.len(), leaf, proof, &expected, &honest, &own_root)
}

/// A collision, if a proof of inclusion of `entry` at `index`, counted from 0, is accepted under the root of the
/// entries, and these have another entry there; else `None`.
///
/// # Errors
///
/// `AllocError` if memory runs out.
pub fn entry_collision<H: LogHash<D>, const D: usize>(
    entries: &[Vec<u8>],
    index: usize,
    entry: &[u8],
    proof: &[[u8; D]],
) -> Result<Option<Collision>, AllocError> {
    let leaf = H::leaf_hash(entry);
    if verify::<H, D>(index, entries.len(), &leaf, proof, &root::<H, D>(entries)).is_err() {
        return Ok(None);
    }
    let expected = &entries[index];
    if entry == expected.as_slice() {
        return Ok(None);
    }
    if leaf != H::leaf_hash(expected) {
        return leaf_collision::<H, D>(entries, index, &leaf, proof);
    }
    let first = leaf_input(entry)?;
    let second = leaf_input(expected)?;
    Ok(Some(Collision { first, second }))
}

/// A collision, if a proof of consistency is accepted between the roots of two lists of entries, and the new list does
/// not begin with the old one; else `None`.
///
/// # Errors
///
/// `AllocError` if memory runs out.
pub fn prefix_collision<H: LogHash<D>, const D: usize>(
    old: &[Vec<u8>],
    new: &[Vec<u8>],
    proof: &[[u8; D]],
) -> Result<Option<Collision>, AllocError> {
    let old_root = root::<H, D>(old);
    let new_root = root::<H, D>(new);
    if consistency::verify::<H, D>(old.len(), new.len(), proof, &old_root, &new_root).is_err() {
        return Ok(None);
    }
    // The proof is accepted, so the old list is not the longer one.
    let (prefix, _) = new.split_at(old.len());
    let prefix_root = root::<H, D>(prefix);
    if old_root == prefix_root {
        return root_collision::<H, D>(old, prefix);
    }
    let honest = consistency_proof::<H, D>(new, old.len())?;
    consistency_collision::<H, D>(old.len(), new.len(), &old_root, proof, &prefix_root, &honest, &new_root)
}
