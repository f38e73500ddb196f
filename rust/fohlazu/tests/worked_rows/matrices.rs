//! The matrices of cases, written out or by their dimensions.

use crate::field::Item;
use fohlazu::support::{Dimensions, RowMajorMatrix};

/// A word of rows.
pub trait Word: Item + Copy + Default + Eq + std::fmt::Debug {
    /// Whether rows of two words or more have twins: others with the same digest.
    const HAS_TWINS: bool;

    /// The word at a place of a matrix that is given by its dimensions: the place modulo 251.
    fn at(place: usize) -> Self;

    /// Makes the twin of a row.
    fn make_twin(row: &mut [Self]);
}

impl Word for u32 {
    const HAS_TWINS: bool = true;

    fn at(place: usize) -> u32 {
        (place % 251) as u32
    }

    fn make_twin(row: &mut [u32]) {
        if let [first, second, ..] = row {
            *first = first.wrapping_add(1);
            *second = second.wrapping_sub(31);
        }
    }
}

impl Word for u8 {
    const HAS_TWINS: bool = false;

    fn at(place: usize) -> u8 {
        (place % 251) as u8
    }

    fn make_twin(_row: &mut [u8]) {}
}

/// Matrices of these dimensions.
pub fn matrices_by<T: Word>(dimensions: &[Dimensions]) -> Vec<RowMajorMatrix<T>> {
    let matrix_by = |&Dimensions { width, height }: &Dimensions| {
        let words = (0..width * height).map(T::at).collect();
        RowMajorMatrix::try_new(words, width).expect("a matrix has words")
    };
    dimensions.iter().map(matrix_by).collect()
}

/// The matrix whose rows stand in a text, with `,` between them.
fn written_matrix<T: Word>(text: &str) -> RowMajorMatrix<T> {
    let rows: Vec<Vec<T>> = text.split(", ").map(Vec::parse).collect();
    let width = rows[0].len();
    assert!(rows.iter().all(|row| row.len() == width), "rows of a matrix have different widths");
    RowMajorMatrix::new(rows.concat(), width)
}

/// The matrices in a text: their rows, with `;` between the matrices, or their dimensions.
pub fn matrices_in<T: Word>(text: &str) -> Vec<RowMajorMatrix<T>> {
    if text.contains('x') {
        return matrices_by(&Vec::parse(text));
    }
    text.split("; ").map(written_matrix).collect()
}

/// Row sets with the twins of the rows of one matrix.
pub fn twin_sets<T: Word>(sets: &[Vec<Vec<T>>], matrix: usize) -> Vec<Vec<Vec<T>>> {
    let mut twins = sets.to_vec();
    for rows in &mut twins {
        T::make_twin(&mut rows[matrix]);
    }
    twins
}
