//! Words of matrices and digests, and a matrix of them.

use crate::random::Random;
use crate::toy_field::ToyField;
use p3_field::Packable;
use p3_matrix::{Dimensions, Matrix};
use std::fmt::Debug;

/// A word of a matrix or a digest.
pub trait Word: Packable + Debug {
    /// The word that is made from a number.
    fn of(number: u64) -> Self;
}

impl Word for u8 {
    fn of(number: u64) -> u8 {
        number as u8
    }
}

impl Word for u32 {
    fn of(number: u64) -> u32 {
        number as u32
    }
}

impl Word for ToyField {
    fn of(number: u64) -> ToyField {
        ToyField::new(number as u32)
    }
}

/// A matrix as a user may write one: also rows of no words have a number.
#[derive(Clone, Debug)]
pub struct Table<T> {
    size: Dimensions,
    words: Vec<T>,
}

impl<T: Word> Table<T> {
    /// The matrix of this size, with random words.
    pub fn random(size: Dimensions, random: &mut Random) -> Table<T> {
        Table { size, words: (0..size.height * size.width).map(|_| T::of(random.number())).collect() }
    }
}

impl<T: Copy + Send + Sync> Matrix<T> for Table<T> {
    fn width(&self) -> usize {
        self.size.width
    }

    fn height(&self) -> usize {
        self.size.height
    }

    unsafe fn get_unchecked(&self, r: usize, c: usize) -> T {
        self.words[r * self.size.width + c]
    }

    unsafe fn row_unchecked(
        &self,
        r: usize,
    ) -> impl IntoIterator<Item = T, IntoIter = impl Iterator<Item = T> + Send + Sync> {
        self.words[r * self.size.width..][..self.size.width].iter().copied()
    }
}
