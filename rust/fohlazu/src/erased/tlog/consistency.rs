// Made from crates/tlog/src/consistency.rt by tools/erase.

//! The verifier of consistency (RFC 9162, 2.1.4.2).

use crate::erased::tlog::error::ProofError;
use crate::erased::tlog::hash::LogHash;
use crate::erased::tlog::inclusion::{SIZE_LIMIT, sibling_is_left};
use crate::sha256::Sha256;

/// Checks that a proof of consistency shows that a log of `new_size` entries under `new_root` begins with the
/// `old_size` entries under `old_root` (RFC 9162, 2.1.4.2). It allocates nothing. From size 0, whose root is
/// [`EMPTY_ROOT`](crate::erased::tlog::EMPTY_ROOT), there are no digests, and any root of a size above 0 is accepted. Between equal
/// sizes there are no digests, and the roots must be equal.
///
/// # Errors
///
/// The first of these that applies:
///
/// - `SizeTooLarge` if the new size is above 2^62;
/// - `SmallerNewSize` if it is below the old size;
/// - `TooManyDigests` if the proof has more digests than one between these sizes;
/// - `TooFewDigests` if it has fewer;
/// - `OldRootMismatch` if the proof leads to another old root;
/// - `RootMismatch` if it leads to another new root.
pub fn verify_consistency(
    old_size: usize,
    new_size: usize,
    proof: &[[u8; 32]],
    old_root: &[u8; 32],
    new_root: &[u8; 32],
) -> Result<(), ProofError> {
    verify::<Sha256, 32>(old_size, new_size, proof, old_root, new_root)
}

/// [`verify_consistency`] under any hash function, with hashes of `D` bytes. The root of size 0 is `H::empty_root()`.
///
/// # Errors
///
/// Those of [`verify_consistency`], in the same order.
pub fn verify<H: LogHash<D>, const D: usize>(
    old_size: usize,
    new_size: usize,
    proof: &[[u8; D]],
    old_root: &[u8; D],
    new_root: &[u8; D],
) -> Result<(), ProofError> {
    if new_size > SIZE_LIMIT {
        return Err(ProofError::SizeTooLarge);
    }
    if new_size < old_size {
        return Err(ProofError::SmallerNewSize);
    }
    let (old, new) = roots_of_proof::<H, D>(old_size, new_size, proof, old_root, new_root)?;
    if old != *old_root {
        return Err(ProofError::OldRootMismatch);
    }
    if new != *new_root {
        return Err(ProofError::RootMismatch);
    }
    Ok(())
}

/// The old and the new root that a proof leads to. From size 0 the old one is `H::empty_root()`, and the new one is the
/// same at size 0, else `new_root` itself, which may be any. Between equal sizes above 0 both are `old_root`. The new
/// size must be at least the old one and at most 2^62. `TooManyDigests` or `TooFewDigests` if the proof has not as many
/// digests as one between these sizes.
fn roots_of_proof<H: LogHash<D>, const D: usize>(
    old_size: usize,
    new_size: usize,
    proof: &[[u8; D]],
    old_root: &[u8; D],
    new_root: &[u8; D],
) -> Result<([u8; D], [u8; D]), ProofError> {
    if old_size > 0 && old_size < new_size {
        let Some(climb) = Climb::of_proof(old_size, proof, old_root) else {
            return Err(ProofError::TooFewDigests);
        };
        return climb.roots::<H>(new_size);
    }
    if !proof.is_empty() {
        return Err(ProofError::TooManyDigests);
    }
    if old_size > 0 {
        return Ok((*old_root, *old_root));
    }
    let empty = H::empty_root();
    if new_size > 0 {
        return Ok((empty, *new_root));
    }
    Ok((empty, empty))
}

/// A node of a tree, and the digests that lead from it to the root.
#[derive(Clone, Copy)]
pub(crate) struct Climb<'a, const D: usize> {
    /// The node's layer: leaves stand in layer 0.
    pub layer: u32,
    /// Its index in its layer.
    pub node: usize,
    /// Its hash.
    pub value: &'a [u8; D],
    /// The digests, from below.
    pub digests: &'a [[u8; D]],
}

impl<'a, const D: usize> Climb<'a, D> {
    /// The climb of a proof of consistency: from the node where the proof begins, the last whole one of the old tree
    /// (RFC 9162, 2.1.4.2, 1 to 5), by the digests that lead on from it. `None` if the proof has no digests. The old
    /// size must be above 0.
    pub(crate) fn of_proof(old_size: usize, proof: &'a [[u8; D]], old_root: &'a [u8; D]) -> Option<Self> {
        let (first, rest) = proof.split_first()?;
        let layer = (old_size - 1).trailing_ones();
        let node = (old_size - 1) >> layer;
        if old_size.is_power_of_two() {
            return Some(Climb { layer, node, value: old_root, digests: proof });
        }
        Some(Climb { layer, node, value: first, digests: rest })
    }

    /// Both roots to which the digests lead in a tree of `size` entries: that of the entries up to the last one below
    /// the node, then that of all. `size` must be above 0, and the node's layer below 64.
    ///
    /// # Errors
    ///
    /// - `TooManyDigests` if there are more digests than a path from this node has;
    /// - `TooFewDigests` if there are fewer.
    pub(crate) fn roots<H: LogHash<D>>(&self, size: usize) -> Result<([u8; D], [u8; D]), ProofError> {
        let mut node = self.node;
        let mut last = (size - 1) >> self.layer;
        let mut old = *self.value;
        let mut new = *self.value;
        for digest in self.digests {
            if last == 0 {
                return Err(ProofError::TooManyDigests);
            }
            if sibling_is_left(node, last) {
                let zeros = node.trailing_zeros();
                node >>= zeros;
                last >>= zeros;
                old = H::node_hash(digest, &old);
                new = H::node_hash(digest, &new);
            } else {
                new = H::node_hash(&new, digest);
            }
            node >>= 1;
            last >>= 1;
        }
        if last > 0 {
            return Err(ProofError::TooFewDigests);
        }
        Ok((old, new))
    }
}
