// Made from crates/tlog/src/error.rt by tools/erase.

//! Why a proof is refused, and why two are not composed.

use crate::erased::tlog::collision::Collision;
use crate::fallible::{AllocError, TryClone};

/// Why a proof is refused: the first reason that applies, in the order of the variants.
#[derive(Clone, Copy, Debug, PartialEq, Eq)]
pub enum ProofError {
    /// The size is above 2^62, in a proof of consistency the new one.
    SizeTooLarge,
    /// The index is not below the size.
    IndexPastEnd,
    /// The new size is below the old one.
    SmallerNewSize,
    /// The proof ends before it leads to a root.
    TooFewDigests,
    /// The proof leads to a root before it ends.
    TooManyDigests,
    /// The proof leads to another old root.
    OldRootMismatch,
    /// The proof leads to another root, in a proof of consistency another new one.
    RootMismatch,
}

impl core::fmt::Display for ProofError {
    fn fmt(&self, f: &mut core::fmt::Formatter<'_>) -> core::fmt::Result {
        match self {
            Self::SizeTooLarge => f.write_str("the size is above 2^62"),
            Self::IndexPastEnd => f.write_str("the index is not below the size"),
            Self::SmallerNewSize => f.write_str("the new size is below the old size"),
            Self::TooFewDigests => f.write_str("the proof has too few digests"),
            Self::TooManyDigests => f.write_str("the proof has too many digests"),
            Self::OldRootMismatch => f.write_str("the proof is of another old root"),
            Self::RootMismatch => f.write_str("the proof is of another root"),
        }
    }
}

impl core::error::Error for ProofError {}

impl TryClone for ProofError {
    fn try_clone(&self) -> Result<Self, AllocError> {
        Ok(*self)
    }
}

/// Why two proofs of consistency are not composed: the first reason that applies, in the order of the variants.
#[derive(Debug, Clone, PartialEq, Eq)]
pub enum ComposeError {
    /// The first proof is not accepted.
    First(ProofError),
    /// The second proof is not accepted.
    Second(ProofError),
    /// The hash function has a collision, by which both proofs compute one middle root.
    Collision(Collision),
    /// Memory ran out, which may come in place of `Collision`.
    OutOfMemory,
}

impl core::fmt::Display for ComposeError {
    fn fmt(&self, f: &mut core::fmt::Formatter<'_>) -> core::fmt::Result {
        match self {
            Self::First(inner) => write!(f, "the first proof is refused: {inner}"),
            Self::Second(inner) => write!(f, "the second proof is refused: {inner}"),
            Self::Collision(..) => f.write_str("two different byte strings have one hash"),
            Self::OutOfMemory => f.write_str("out of memory"),
        }
    }
}

impl core::error::Error for ComposeError {}

impl From<AllocError> for ComposeError {
    fn from(_error: AllocError) -> ComposeError {
        ComposeError::OutOfMemory
    }
}
