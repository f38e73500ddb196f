//! The matrices of cases. Unlike a `RowMajorMatrix` they can have rows of no words.

use crate::numbers::{Numbers, Part};
use fohlazu::support::{Dimensions, Matrix};

/// A matrix of these words, row by row.
pub struct Table<T> {
    words: Vec<T>,
    dimensions: Dimensions,
}

impl<T: Copy> Matrix<T> for Table<T> {
    fn height(&self) -> usize {
        self.dimensions.height
    }

    fn width(&self) -> usize {
        self.dimensions.width
    }

    fn get(&self, row: usize, column: usize) -> T {
        self.words[row * self.dimensions.width + column]
    }

    fn piece(&self, row: usize, column: usize) -> &[T] {
        &self.words[row * self.dimensions.width + column..]
    }
}

/// `HEIGHT WIDTH WORDS..`, row by row.
impl<T: Part> Part for Table<T> {
    fn read(numbers: &mut Numbers<'_>) -> Table<T> {
        let dimensions: Dimensions = numbers.read();
        let words = (0..dimensions.height * dimensions.width).map(|_| numbers.read()).collect();
        Table { words, dimensions }
    }

    fn write(&self, answer: &mut Vec<u64>) {
        self.dimensions.write(answer);
        for word in &self.words {
            word.write(answer);
        }
    }
}

/// The state after this one of xorshift32 by 13, 17 and 5.
fn next_state(state: u32) -> u32 {
    let state = state ^ (state << 13);
    let state = state ^ (state >> 17);
    state ^ (state << 5)
}

/// The matrices of these dimensions as the numbers of a case. The words of matrix k, from 0, are the states of
/// xorshift32 after k + 1; bytes are their highest 8 bits.
pub fn computed_matrices(dimensions: &[Dimensions], are_bytes: bool) -> Vec<u64> {
    let mut numbers = Vec::new();
    dimensions.len().write(&mut numbers);
    for (dimensions, seed) in dimensions.iter().zip(1_u32..) {
        dimensions.write(&mut numbers);
        let mut state = seed;
        for _ in 0..dimensions.height * dimensions.width {
            state = next_state(state);
            numbers.push(u64::from(if are_bytes { state >> 24 } else { state }));
        }
    }
    numbers
}
