//! Why a batch, an index or an opening is refused.

use core::error::Error;
use core::fmt;
use fohlazu::merkle_tree::{self as proved, PrunedProofError};

/// Why a batch of matrices, an index or an opening is refused, with the variants and texts of p3-merkle-tree 0.8.0.
#[derive(Debug)]
pub enum MerkleTreeError {
    /// Two lists that belong together differ in length.
    WrongBatchSize {
        /// How many there should be.
        expected: usize,
        /// How many there are.
        got: usize,
    },
    /// The length of an opened row is not the width of its matrix.
    WrongWidth {
        /// The position of the matrix, from 0.
        matrix: usize,
        /// Its width.
        expected: usize,
        /// How many words the row has.
        got: usize,
    },
    /// The number of siblings is not what the levels below the cap need.
    WrongHeight {
        /// How many siblings the levels need.
        expected_proof_len: usize,
        /// How many there are.
        num_siblings: usize,
    },
    /// A height is not the tallest one halved and rounded up some number of times.
    IncompatibleHeights {
        /// The height that is refused.
        height: usize,
        /// The tallest height.
        max_height: usize,
        /// The tallest height after `bits_reduced` halvings, each rounded up.
        expected_height: usize,
        /// How often the tallest height is halved.
        bits_reduced: usize,
    },
    /// An index is not below the tallest height.
    IndexOutOfBounds {
        /// The tallest height.
        max_height: usize,
        /// The index that is refused.
        index: usize,
    },
    /// There are no matrices, or none of them has a row.
    EmptyBatch,
    /// The cap has no entry above the index, or another digest than the one computed from the opening.
    CapMismatch,
    /// The pruned proof does not fit its queries and rows.
    MalformedPrunedProof(PrunedProofError),
}

impl MerkleTreeError {
    /// The proved code's variant of the same name.
    fn proved(&self) -> proved::MerkleTreeError {
        use proved::MerkleTreeError as Proved;
        match *self {
            Self::WrongBatchSize { expected, got } => Proved::WrongBatchSize { expected, got },
            Self::WrongWidth { matrix, expected, got } => Proved::WrongWidth { matrix, expected, got },
            Self::WrongHeight { expected_proof_len, num_siblings } => {
                Proved::WrongHeight { expected_proof_len, num_siblings }
            }
            Self::IncompatibleHeights { height, max_height, expected_height, bits_reduced } => {
                Proved::IncompatibleHeights { height, max_height, expected_height, bits_reduced }
            }
            Self::IndexOutOfBounds { max_height, index } => Proved::IndexOutOfBounds { max_height, index },
            Self::EmptyBatch => Proved::EmptyBatch,
            Self::CapMismatch => Proved::CapMismatch,
            Self::MalformedPrunedProof(error) => Proved::MalformedPrunedProof(error),
        }
    }
}

impl fmt::Display for MerkleTreeError {
    fn fmt(&self, f: &mut fmt::Formatter<'_>) -> fmt::Result {
        self.proved().fmt(f)
    }
}

impl Error for MerkleTreeError {
    fn source(&self) -> Option<&(dyn Error + 'static)> {
        match self {
            Self::MalformedPrunedProof(error) => Some(error),
            _ => None,
        }
    }
}

impl From<PrunedProofError> for MerkleTreeError {
    fn from(error: PrunedProofError) -> Self {
        Self::MalformedPrunedProof(error)
    }
}

/// The error of this name. For `TooLarge` and `OutOfMemory`, which p3-merkle-tree 0.8.0 has not, it panics.
#[track_caller]
pub(crate) fn refused(error: proved::MerkleTreeError) -> MerkleTreeError {
    use proved::MerkleTreeError as Proved;
    match error {
        Proved::WrongBatchSize { expected, got } => MerkleTreeError::WrongBatchSize { expected, got },
        Proved::WrongWidth { matrix, expected, got } => MerkleTreeError::WrongWidth { matrix, expected, got },
        Proved::WrongHeight { expected_proof_len, num_siblings } => {
            MerkleTreeError::WrongHeight { expected_proof_len, num_siblings }
        }
        Proved::IncompatibleHeights { height, max_height, expected_height, bits_reduced } => {
            MerkleTreeError::IncompatibleHeights { height, max_height, expected_height, bits_reduced }
        }
        Proved::IndexOutOfBounds { max_height, index } => MerkleTreeError::IndexOutOfBounds { max_height, index },
        Proved::EmptyBatch => MerkleTreeError::EmptyBatch,
        Proved::CapMismatch => MerkleTreeError::CapMismatch,
        Proved::MalformedPrunedProof(error) => MerkleTreeError::MalformedPrunedProof(error),
        Proved::TooLarge { .. } | Proved::OutOfMemory => panic!("{error}"),
    }
}

/// The value, or a panic with the text of the error: of calls for which p3-merkle-tree 0.8.0 returns no error.
#[track_caller]
pub(crate) fn built<T>(result: Result<T, proved::MerkleTreeError>) -> T {
    result.unwrap_or_else(|error| panic!("{error}"))
}
