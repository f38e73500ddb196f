// Made from crates/tlog/src/inclusion.rt by tools/erase.

//! The verifier of inclusion (RFC 9162, 2.1.3.2).

use crate::erased::tlog::error::ProofError;
use crate::erased::tlog::hash::LogHash;
use crate::sha256::Sha256;

/// The greatest size of a log: the verifiers take no greater one.
pub const SIZE_LIMIT: usize = 1 << 62;

/// Checks that a proof of inclusion shows that the log of `size` entries under `root` has `leaf` as the leaf hash of
/// its entry `index`, counted from 0 (RFC 9162, 2.1.3.2). It allocates nothing.
///
/// # Errors
///
/// The first of these that applies:
///
/// - `SizeTooLarge` if the size is above 2^62;
/// - `IndexPastEnd` if the index is not below the size;
/// - `TooManyDigests` if the proof has more digests than a path from this index;
/// - `TooFewDigests` if it has fewer;
/// - `RootMismatch` if the proof leads to another root.
pub fn verify_inclusion(
    index: usize,
    size: usize,
    leaf: &[u8; 32],
    proof: &[[u8; 32]],
    root: &[u8; 32],
) -> Result<(), ProofError> {
    verify::<Sha256, 32>(index, size, leaf, proof, root)
}

/// [`verify_inclusion`] under any hash function, with hashes of `D` bytes.
///
/// # Errors
///
/// Those of [`verify_inclusion`], in the same order.
pub fn verify<H: LogHash<D>, const D: usize>(
    index: usize,
    size: usize,
    leaf: &[u8; D],
    proof: &[[u8; D]],
    root: &[u8; D],
) -> Result<(), ProofError> {
    if size > SIZE_LIMIT {
        return Err(ProofError::SizeTooLarge);
    }
    if index >= size {
        return Err(ProofError::IndexPastEnd);
    }
    let mut node = index;
    let mut last = size - 1;
    let mut value = *leaf;
    for digest in proof {
        if last == 0 {
            return Err(ProofError::TooManyDigests);
        }
        if sibling_is_left(node, last) {
            // A last node without a sibling is passed on to the layer where it has one. It is not 0, since `last` is
            // not.
            let zeros = node.trailing_zeros();
            node >>= zeros;
            last >>= zeros;
            value = H::node_hash(digest, &value);
        } else {
            value = H::node_hash(&value, digest);
        }
        node >>= 1;
        last >>= 1;
    }
    if last > 0 {
        return Err(ProofError::TooFewDigests);
    }
    if value != *root {
        return Err(ProofError::RootMismatch);
    }
    Ok(())
}

/// Whether the next digest of a path is a left sibling: of node `node` of a layer whose last node is `last`, or, if
/// that is a last node without a sibling, of the ancestor that it is passed on as (RFC 9162, 2.1.3.2).
pub(crate) fn sibling_is_left(node: usize, last: usize) -> bool {
    node % 2 == 1 || node == last
}
