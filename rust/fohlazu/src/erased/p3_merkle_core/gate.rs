// Made from crates/p3_merkle_core/src/gate.rt by tools/erase.

//! The heights over which a tree can be built: each is the tallest one halved, and each time rounded up, some number of
//! times.

use crate::erased::p3_merkle_core::error::MerkleTreeError;
use crate::erased::p3_merkle_core::geometry::{exponent_of, extremes_of, first_too_large_of, height_of_exponent};
use crate::erased::p3_support::matrix::Dimensions;

/// Checks that a tree can be built over matrices of these heights (`validate_commit_reachable_heights` in Plonky3).
///
/// # Errors
///
/// The first of these that applies:
///
/// - `EmptyBatch` if no matrix has a row;
/// - `TooLarge` for the first height above [`MAX_HEIGHT`];
/// - `IncompatibleHeights` for the first height that is not the tallest one halved and rounded up some number of times.
pub(crate) fn check_heights(dimensions: &[Dimensions]) -> Result<(), MerkleTreeError> {
    let (max_height, _) = extremes_of(dimensions);
    if max_height == 0 {
        return Err(MerkleTreeError::EmptyBatch);
    }
    if let Some(matrix) = first_too_large_of(dimensions, max_height) {
        let size = dimensions[matrix].height;
        return Err(MerkleTreeError::TooLarge { matrix, size });
    }
    // A height that equals the last lawful one is not checked again: short matrices often have one height.
    let mut lawful_height = max_height;
    for matrix in dimensions {
        let height = matrix.height;
        if height != lawful_height {
            let exponent = exponent_of(height);
            let expected_height = height_of_exponent(max_height, exponent);
            if height != expected_height {
                return Err(MerkleTreeError::IncompatibleHeights {
                    height,
                    max_height,
                    expected_height,
                    bits_reduced: exponent_of(max_height).saturating_sub(exponent),
                });
            }
            lawful_height = height;
        }
    }
    Ok(())
}
