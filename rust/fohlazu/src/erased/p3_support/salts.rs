// Made from crates/p3_support/src/salts.rt by tools/erase.

//! Random matrices, whose rows serve as salts.

use crate::erased::p3_support::matrix::RowMajorMatrix;
use crate::fallible::{AllocError, VecExt};
use alloc::vec::Vec;
use rand_core::Rng;

/// A type of random values, each computed from one word of a generator.
pub trait SaltWord: Copy {
    /// The value of the random word `w`. It depends on the word alone.
    fn from_salt_word(w: u64) -> Self;
}

/// The lowest 32 bits of a word.
impl SaltWord for u32 {
    #[inline]
    fn from_salt_word(w: u64) -> u32 {
        (w & 0xffff_ffff) as u32
    }
}

/// The lowest 8 bits of a word.
impl SaltWord for u8 {
    #[inline]
    fn from_salt_word(w: u64) -> u8 {
        (w & 0xff) as u8
    }
}

/// The next eight words of a generator.
// If each were stored before the next is drawn, the generator's state would go through memory.
#[inline]
fn next_eight<R: Rng>(rng: &mut R) -> [u64; 8] {
    [
        rng.next_u64(),
        rng.next_u64(),
        rng.next_u64(),
        rng.next_u64(),
        rng.next_u64(),
        rng.next_u64(),
        rng.next_u64(),
        rng.next_u64(),
    ]
}

/// Appends the values of eight words to `values`, which must have room for them.
#[inline]
fn push_eight<T: SaltWord>(values: &mut Vec<T>, words: [u64; 8]) {
    for word in &words {
        values.push_reserved(T::from_salt_word(*word));
    }
}

/// Draws `8 * eights` values, eight at a time, and appends them to `values`, which must have room for them.
#[inline]
fn draw_eights<T: SaltWord, R: Rng>(values: &mut Vec<T>, rng: &mut R, eights: usize) {
    for _ in 0..eights {
        let words = next_eight(rng);
        push_eight(values, words);
    }
}

/// Draws `count` values, one by one, and appends them to `values`, which must have room for them.
#[inline]
fn draw_each<T: SaltWord, R: Rng>(values: &mut Vec<T>, rng: &mut R, count: usize) {
    for _ in 0..count {
        values.push_reserved(T::from_salt_word(rng.next_u64()));
    }
}

impl<T: SaltWord> RowMajorMatrix<T> {
    /// A matrix of random values, drawn row after row: one call of `next_u64` for each, `rows * cols` calls in all.
    /// With no columns it has no rows, as in [`new`](Self::new).
    ///
    /// # Errors
    ///
    /// `AllocError` if `rows * cols` does not fit `usize`, or if memory runs out. Then nothing is drawn from the
    /// generator.
    #[inline]
    pub fn rand<R: Rng>(rng: &mut R, rows: usize, cols: usize) -> Result<RowMajorMatrix<T>, AllocError> {
        let count = rows.checked_mul(cols).ok_or(AllocError)?;
        let mut values = Vec::with_room(count)?;
        draw_eights(&mut values, rng, count / 8);
        draw_each(&mut values, rng, count % 8);
        Ok(RowMajorMatrix::new(values, cols))
    }
}
