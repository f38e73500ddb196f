// Made from crates/tlog_tree/src/error.rt by tools/erase.

//! Why a log does not grow.

use crate::fallible::{AllocError, TryClone};

/// Why a log does not grow, or is not begun.
#[derive(Clone, Copy, Debug, PartialEq, Eq)]
pub enum TreeError {
    /// The log would have more than 2^62 entries.
    SizeTooLarge,
    /// A log of this size has another number of whole nodes.
    NodeCountMismatch,
    /// Memory ran out.
    OutOfMemory,
}

impl core::fmt::Display for TreeError {
    fn fmt(&self, f: &mut core::fmt::Formatter<'_>) -> core::fmt::Result {
        match self {
            Self::SizeTooLarge => f.write_str("the size is above 2^62"),
            Self::NodeCountMismatch => f.write_str("the number of nodes is not that of the size"),
            Self::OutOfMemory => f.write_str("out of memory"),
        }
    }
}

impl core::error::Error for TreeError {}

impl TryClone for TreeError {
    fn try_clone(&self) -> Result<Self, AllocError> {
        Ok(*self)
    }
}

impl From<AllocError> for TreeError {
    fn from(_error: AllocError) -> TreeError {
        TreeError::OutOfMemory
    }
}
