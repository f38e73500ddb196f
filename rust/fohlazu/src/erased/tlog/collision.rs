// Made from crates/tlog/src/collision.rt by tools/erase.

//! The byte strings that a log hashes, and what two lists of entries with one root show of the hash function.

use crate::erased::tlog::hash::LogHash;
use crate::erased::tlog::honest_proofs::{root, split};
use crate::fallible::{AllocError, VecExt};
use alloc::vec::Vec;

/// Two different byte strings with one hash.
#[derive(Debug, Clone, PartialEq, Eq)]
pub struct Collision {
    /// The first.
    pub first: Vec<u8>,
    /// The second.
    pub second: Vec<u8>,
}

/// Whether two lists of entries are equal, entry by entry.
fn are_equal(entries: &[Vec<u8>], other_entries: &[Vec<u8>]) -> bool {
    entries == other_entries
}

/// The byte string whose hash is the leaf hash of an entry: a byte 0 and the entry (RFC 9162, 2.1.1).
///
/// # Errors
///
/// `AllocError` if memory runs out.
pub fn leaf_input(entry: &[u8]) -> Result<Vec<u8>, AllocError> {
    let mut input = Vec::try_from_slice(&[0])?;
    input.try_extend_from_slice(entry)?;
    Ok(input)
}

/// The byte string whose hash is that of a node: a byte 1 and the hashes of its children (RFC 9162, 2.1.1). `D` must be
/// at most 64.
///
/// # Errors
///
/// `AllocError` if memory runs out.
///
/// The compiler refuses a call that breaks one of these:
///
/// - `short`: `D <= 64`.
pub fn node_input<const D: usize>(left: &[u8; D], right: &[u8; D]) -> Result<Vec<u8>, AllocError> {
    const { assert!(D <= 64, "short") };
    let mut input = Vec::try_from_slice(&[1])?;
    input.try_extend_from_slice(left)?;
    input.try_extend_from_slice(right)?;
    Ok(input)
}

/// The byte string whose hash is the root of entries: nothing, the input of a leaf, or that of a node. `AllocError` if
/// memory runs out.
fn root_input<H: LogHash<D>, const D: usize>(entries: &[Vec<u8>]) -> Result<Vec<u8>, AllocError> {
    match entries {
        [] => Ok(Vec::new()),
        [entry] => leaf_input(entry),
        entries => {
            let (left, right) = entries.split_at(split(entries.len()));
            node_input(&root::<H, D>(left), &root::<H, D>(right))
        }
    }
}

/// A collision, if two different lists of entries, of any lengths, have one root; else `None`.
///
/// # Errors
///
/// `AllocError` if memory runs out.
pub fn root_collision<H: LogHash<D>, const D: usize>(
    entries: &[Vec<u8>],
    other_entries: &[Vec<u8>],
) -> Result<Option<Collision>, AllocError> {
    if are_equal(entries, other_entries) || root::<H, D>(entries) != root::<H, D>(other_entries) {
        return Ok(None);
    }
    // Both parts are different lists of entries with one root.
    let mut part = entries;
    let mut other_part = other_entries;
    loop {
        let first = root_input::<H, D>(part)?;
        let second = root_input::<H, D>(other_part)?;
        if first != second {
            return Ok(Some(Collision { first, second }));
        }
        let (left, right) = part.split_at(split(part.len()));
        let (other_left, other_right) = other_part.split_at(split(other_part.len()));
        if are_equal(left, other_left) {
            part = right;
            other_part = other_right;
        } else {
            part = left;
            other_part = other_left;
        }
    }
}
