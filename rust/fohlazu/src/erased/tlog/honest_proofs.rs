// Made from crates/tlog/src/honest_proofs.rt by tools/erase.

//! The root of entries, and honest proofs of inclusion and of consistency, computed from the entries.

use crate::erased::tlog::hash::LogHash;
use crate::fallible::{AllocError, VecExt};
use alloc::vec::Vec;

/// The largest power of two below `n`, where RFC 9162 (2.1.1) splits a list of `n` entries. `n` must be above 1.
///
/// # Panics
///
/// - By `two_entries` unless `1 < n`.
pub fn split(n: usize) -> usize {
    assert!(1 < n, "two_entries");
    1 << (n - 1).ilog2()
}

/// The root of entries (RFC 9162, 2.1.1); of no entries the hash of nothing.
pub fn root<H: LogHash<D>, const D: usize>(entries: &[Vec<u8>]) -> [u8; D] {
    match entries {
        [] => H::empty_root(),
        [entry] => H::leaf_hash(entry),
        entries => {
            let (left, right) = entries.split_at(split(entries.len()));
            H::node_hash(&root::<H, D>(left), &root::<H, D>(right))
        }
    }
}

/// The proof of inclusion of entry `index`, counted from 0, under the root of the entries (RFC 9162, 2.1.3.1). The
/// index must be below their number.
///
/// # Errors
///
/// `AllocError` if memory runs out.
///
/// # Panics
///
/// - By `index_in` unless `index < entries.len()`.
pub fn inclusion_proof<H: LogHash<D>, const D: usize>(
    entries: &[Vec<u8>],
    index: usize,
) -> Result<Vec<[u8; D]>, AllocError> {
    assert!(index < entries.len(), "index_in");
    if entries.len() == 1 {
        return Ok(Vec::new());
    }
    let middle = split(entries.len());
    let (left, right) = entries.split_at(middle);
    if index < middle {
        let mut proof = inclusion_proof::<H, D>(left, index)?;
        proof.try_push(root::<H, D>(right))?;
        Ok(proof)
    } else {
        let mut proof = inclusion_proof::<H, D>(right, index - middle)?;
        proof.try_push(root::<H, D>(left))?;
        Ok(proof)
    }
}

/// The proof of consistency from the first `old_size` entries to all (RFC 9162, 2.1.4.1). `old_size` must be at least 1
/// and at most their number. If it is their number, the proof has no digests.
///
/// # Errors
///
/// `AllocError` if memory runs out.
///
/// # Panics
///
/// - By `some` unless `0 < old_size`.
/// - By `within` unless `old_size <= entries.len()`.
pub fn consistency_proof<H: LogHash<D>, const D: usize>(
    entries: &[Vec<u8>],
    old_size: usize,
) -> Result<Vec<[u8; D]>, AllocError> {
    assert!(0 < old_size, "some");
    assert!(old_size <= entries.len(), "within");
    subproof::<H, D>(entries, old_size, true)
}

/// SUBPROOF of RFC 9162 (2.1.4.1): the digests by which the root of the entries, and that of the first `old_size`, can
/// be computed. `is_known`, the flag `b` there, says whether the verifier may know the root of the entries. `old_size`
/// must be at least 1 and at most their number. `AllocError` if memory runs out.
fn subproof<H: LogHash<D>, const D: usize>(
    entries: &[Vec<u8>],
    old_size: usize,
    is_known: bool,
) -> Result<Vec<[u8; D]>, AllocError> {
    if old_size == entries.len() {
        let mut proof = Vec::new();
        if !is_known {
            proof.try_push(root::<H, D>(entries))?;
        }
        return Ok(proof);
    }
    let middle = split(entries.len());
    let (left, right) = entries.split_at(middle);
    if old_size <= middle {
        let mut proof = subproof::<H, D>(left, old_size, is_known)?;
        proof.try_push(root::<H, D>(right))?;
        Ok(proof)
    } else {
        let mut proof = subproof::<H, D>(right, old_size - middle, false)?;
        proof.try_push(root::<H, D>(left))?;
        Ok(proof)
    }
}
