//! The sizes of matrices, the steps of a path, and the lengths of rows.

use crate::MerkleTreeError;
use crate::error::refused;
use alloc::vec::Vec;
use fohlazu::support;
use p3_matrix::Dimensions;
use serde::{Deserialize, Serialize};

/// The path of an index to the cap: for each level below the cap, from the leaves up, how many children a node has, and
/// the position of the index's ancestor among them.
#[derive(Debug, Clone, Serialize, Deserialize)]
pub struct ArityAndPositions {
    /// How many children a node has, level by level.
    pub arity_schedule: Vec<usize>,
    /// The position of the ancestor among them, from 0.
    pub query_positions: Vec<usize>,
}

/// The dimensions in the proved code's type, each matrix with `salts` columns more.
#[track_caller]
pub(crate) fn widened(dimensions: &[Dimensions], salts: usize) -> Vec<support::Dimensions> {
    let widened = |&Dimensions { width, height }: &Dimensions| {
        let width = width.checked_add(salts).expect("a width with its salts fits usize");
        support::Dimensions { width, height }
    };
    dimensions.iter().map(widened).collect()
}

/// Checks that two lists are of one length: one that there should be, and one that there is.
pub(crate) fn check_len(expected: usize, got: usize) -> Result<(), MerkleTreeError> {
    if expected == got { Ok(()) } else { Err(MerkleTreeError::WrongBatchSize { expected, got }) }
}

/// Checks that there is one row for each matrix, of its width, and one list of salts for each row.
pub(crate) fn check_rows_and_salts<T, R: AsRef<[T]>>(
    dimensions: &[Dimensions],
    rows: &[R],
    salts: &[Vec<T>],
) -> Result<(), MerkleTreeError> {
    check_len(dimensions.len(), rows.len())?;
    for (matrix, (size, row)) in dimensions.iter().zip(rows).enumerate() {
        let (expected, got) = (size.width, row.as_ref().len());
        if expected != got {
            return Err(MerkleTreeError::WrongWidth { matrix, expected, got });
        }
    }
    check_len(rows.len(), salts.len())
}

/// The result of a call that verifies, with its error in this package's type.
#[track_caller]
pub(crate) fn verdict<T>(result: Result<T, fohlazu::merkle_tree::MerkleTreeError>) -> Result<T, MerkleTreeError> {
    result.map_err(refused)
}
