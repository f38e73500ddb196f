// Made from crates/tlog_multiproof/src/error.rt by tools/erase.

//! Why entries are refused.

use crate::fallible::{AllocError, TryClone};

/// Why entries are refused: the first reason that applies, in the order of the variants.
#[derive(Clone, Copy, Debug, PartialEq, Eq)]
pub enum EntriesError {
    /// The size is above 2^62.
    SizeTooLarge,
    /// There are no indices.
    NoIndices,
    /// The number of leaf hashes is not that of the indices.
    LeafCountMismatch,
    /// An index is not below the size.
    IndexPastEnd,
    /// The proof has too few digests.
    TooFewDigests,
    /// The proof has too many digests.
    TooManyDigests,
    /// One index has two leaf hashes.
    TwoLeafHashes,
    /// The proof leads to another root.
    RootMismatch,
    /// Memory ran out. It may come in place of any reason but the first four.
    OutOfMemory,
}

impl core::fmt::Display for EntriesError {
    fn fmt(&self, f: &mut core::fmt::Formatter<'_>) -> core::fmt::Result {
        match self {
            Self::SizeTooLarge => f.write_str("the size is above 2^62"),
            Self::NoIndices => f.write_str("there are no indices"),
            Self::LeafCountMismatch => f.write_str("the number of leaf hashes is not that of the indices"),
            Self::IndexPastEnd => f.write_str("an index is not below the size"),
            Self::TooFewDigests => f.write_str("the proof has too few digests"),
            Self::TooManyDigests => f.write_str("the proof has too many digests"),
            Self::TwoLeafHashes => f.write_str("one index has two leaf hashes"),
            Self::RootMismatch => f.write_str("the proof is of another root"),
            Self::OutOfMemory => f.write_str("out of memory"),
        }
    }
}

impl core::error::Error for EntriesError {}

impl TryClone for EntriesError {
    fn try_clone(&self) -> Result<Self, AllocError> {
        Ok(*self)
    }
}

impl From<AllocError> for EntriesError {
    fn from(_error: AllocError) -> EntriesError {
        EntriesError::OutOfMemory
    }
}
