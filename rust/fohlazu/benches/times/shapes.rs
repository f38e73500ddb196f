//! The matrices that are committed to.

use crate::case::Outcome;
use fohlazu::support::{Dimensions, RowMajorMatrix};

/// The rows of the tallest matrix, but in the parts `sizes` and `short`.
const ROWS: usize = 65_536;

/// The heights of the part `sizes`. The part `short` ends at `SHORT_ROWS`.
const SIZES: [usize; 6] = [1024, 4096, 16_384, 65_536, 262_144, 1_048_576];

/// The tallest matrix of the part `short`.
const SHORT_ROWS: usize = 16_384;

/// The widths of the part `sizes`.
const WIDTHS: [usize; 4] = [1, 8, 64, 1000];

/// A matrix of the part `sizes` has at most so many words.
const MOST_WORDS: usize = 16_777_216;

/// Matrices of one size.
pub fn equal(count: usize, width: usize, height: usize) -> Vec<Dimensions> {
    vec![Dimensions { width, height }; count]
}

/// A matrix of width 8, and beside it 256 of one row and one word.
fn beside_short() -> Vec<Dimensions> {
    let mut dimensions = equal(1, 8, ROWS);
    dimensions.extend(equal(256, 1, 1));
    dimensions
}

/// Matrices of width 8 at eight heights, each half of the one before.
fn eight_heights() -> Vec<Dimensions> {
    (0..8).map(|halvings| Dimensions { width: 8, height: ROWS >> halvings }).collect()
}

/// One matrix of each height up to `tallest` and each width.
fn sizes(tallest: usize) -> Vec<Vec<Dimensions>> {
    let mut shapes = Vec::new();
    for height in SIZES.into_iter().filter(|height| *height <= tallest) {
        for width in WIDTHS.into_iter().filter(|width| width * height <= MOST_WORDS) {
            shapes.push(equal(1, width, height));
        }
    }
    shapes
}

/// The batches of a part.
pub fn shapes(part: &str) -> Outcome<Vec<Vec<Dimensions>>> {
    match part {
        "short" => Ok(sizes(SHORT_ROWS)),
        "sizes" => Ok(sizes(usize::MAX)),
        "batches" => Ok(vec![eight_heights(), beside_short(), equal(4, 8, ROWS), equal(4, 64, ROWS)]),
        "openings" => Ok(vec![equal(1, 8, ROWS), equal(1, 1000, ROWS), eight_heights(), beside_short()]),
        _ => Err(format!("no such part: {part}").into()),
    }
}

/// Matrices of these dimensions, whose words are computed from their numbers.
pub fn matrices<W: Copy + From<u8>>(dimensions: &[Dimensions]) -> Outcome<Vec<RowMajorMatrix<W>>> {
    let mut matrices = Vec::new();
    for Dimensions { width, height } in dimensions {
        let words = (0..width * height).map(|number| W::from((number.wrapping_mul(31) % 251) as u8));
        matrices.push(RowMajorMatrix::try_new(words.collect(), *width)?);
    }
    Ok(matrices)
}
