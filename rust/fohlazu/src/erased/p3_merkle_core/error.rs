// Made from crates/p3_merkle_core/src/error.rt by tools/erase.

//! Why a batch, an index or an opening is refused.

use crate::fallible::AllocError;

/// Why a pruned proof does not fit the queries and rows that it comes with.
#[derive(Debug, PartialEq, Eq, Clone, Copy)]
pub enum PrunedProofError {
    /// The proof's digest count differs from what the queries require.
    SiblingCountMismatch {
        /// How many digests the queries require.
        expected: usize,
        /// How many digests the proof has.
        got: usize,
    },
    /// Two queries of one index have different rows.
    InconsistentDuplicateOpenings {
        /// The position of the index, from 0, among the distinct queried indices, ascending.
        slot: usize,
    },
    /// Two queries under one node have different rows of a matrix that belongs to the node's layer.
    InconsistentGroupOpening {
        /// The position, from 0, among the distinct queried indices, ascending, of the index whose row differs from
        /// that of the lowest index under the node.
        slot: usize,
        /// The position of the matrix in input order, from 0.
        matrix: usize,
    },
}

impl core::fmt::Display for PrunedProofError {
    fn fmt(&self, f: &mut core::fmt::Formatter<'_>) -> core::fmt::Result {
        match self {
            Self::SiblingCountMismatch { expected, got, .. } => {
                write!(f, "wrong pruned sibling count: expected {expected}, got {got}")
            }
            Self::InconsistentDuplicateOpenings { slot, .. } => {
                write!(f, "duplicate queries for path slot {slot} disagree on opened values")
            }
            Self::InconsistentGroupOpening { slot, matrix, .. } => {
                write!(f, "unique path slot {slot} disagrees with its group's lead on matrix {matrix}'s opened row")
            }
        }
    }
}

impl core::error::Error for PrunedProofError {}

/// Why a batch of matrices, an index or an opening is refused.
#[derive(Debug, PartialEq, Eq, Clone, Copy)]
pub enum MerkleTreeError {
    /// Two lists that belong together differ in length: rows and matrices, row sets and indices, salts and rows, or
    /// salt sets and row sets.
    WrongBatchSize {
        /// How many there should be.
        expected: usize,
        /// How many there are.
        got: usize,
    },
    /// The length of an opened row is not the width of its matrix.
    WrongWidth {
        /// The position of the matrix in input order, from 0.
        matrix: usize,
        /// Its width.
        expected: usize,
        /// How many words the row has.
        got: usize,
    },
    /// The number of siblings is not what the levels below the cap need.
    WrongHeight {
        /// How many siblings the levels need.
        expected_proof_len: usize,
        /// How many there are.
        num_siblings: usize,
    },
    /// A height is not the tallest one halved and rounded up some number of times.
    IncompatibleHeights {
        /// The height that is refused.
        height: usize,
        /// The tallest height.
        max_height: usize,
        /// The tallest height after `bits_reduced` halvings, each rounded up.
        expected_height: usize,
        /// The exponent of the tallest height less that of this one. An exponent is log2, rounded up.
        bits_reduced: usize,
    },
    /// An index is not below the tallest height.
    IndexOutOfBounds {
        /// The tallest height.
        max_height: usize,
        /// The index that is refused.
        index: usize,
    },
    /// There are no matrices, or none of them has a row.
    EmptyBatch,
    /// The cap has no entry above the index, or another digest than the one computed from the opening.
    CapMismatch,
    /// The pruned proof does not fit its queries and rows.
    MalformedPrunedProof(PrunedProofError),
    /// A height is above 2^62, the greatest one allowed; or, with salts, a width does not fit `usize`.
    TooLarge {
        /// The position of the matrix in input order, from 0.
        matrix: usize,
        /// Its height in rows if that is above 2^62; else its width without the salts.
        size: usize,
    },
    /// Memory ran out.
    OutOfMemory,
}

impl core::fmt::Display for MerkleTreeError {
    fn fmt(&self, f: &mut core::fmt::Formatter<'_>) -> core::fmt::Result {
        match self {
            Self::WrongBatchSize { expected, got, .. } => {
                write!(f, "batch size mismatch: expected {expected} entries, got {got}")
            }
            Self::WrongWidth { matrix, expected, got, .. } => {
                write!(f, "wrong width: matrix {matrix} expected {expected} values, got {got}")
            }
            Self::WrongHeight { expected_proof_len, num_siblings, .. } => {
                write!(f, "wrong height: expected {expected_proof_len} siblings, got {num_siblings}")
            }
            Self::IncompatibleHeights { height, max_height, bits_reduced, expected_height, .. } => write!(
                f,
                "matrix height {height} incompatible with tallest height {max_height}; expected ceil_div({max_height}, 2^{bits_reduced}) = {expected_height} so every global index maps to a row at depth {bits_reduced}"
            ),
            Self::IndexOutOfBounds { index, max_height, .. } => {
                write!(f, "index out of bounds: index {index} exceeds max height {max_height}")
            }
            Self::EmptyBatch => f.write_str("empty batch: attempted to open an empty batch with no committed matrices"),
            Self::CapMismatch => {
                f.write_str("cap mismatch: computed digest does not match any entry in the Merkle cap")
            }
            Self::MalformedPrunedProof(inner) => write!(f, "malformed pruned proof: {inner}"),
            Self::TooLarge { matrix, size, .. } => write!(f, "matrix {matrix}: size {size} is too large"),
            Self::OutOfMemory => f.write_str("out of memory"),
        }
    }
}

impl core::error::Error for MerkleTreeError {}

impl From<PrunedProofError> for MerkleTreeError {
    fn from(error: PrunedProofError) -> MerkleTreeError {
        MerkleTreeError::MalformedPrunedProof(error)
    }
}

impl From<AllocError> for MerkleTreeError {
    fn from(_error: AllocError) -> MerkleTreeError {
        MerkleTreeError::OutOfMemory
    }
}
