//! A stand-in for `p3-matrix` 0.8, for tests where no registry is reached: matrices, as far as this repository uses
//! them. The names, the signatures and what each call returns are those that p3-merkle-tree 0.8.0 relies on.
#![no_std]

extern crate alloc;

use p3_field::PackedValue;

pub mod dense;
pub mod stack;

/// The size of a matrix.
#[derive(Copy, Clone, Debug, PartialEq, Eq)]
pub struct Dimensions {
    /// How many elements a row has.
    pub width: usize,
    /// How many rows there are.
    pub height: usize,
}

/// A matrix: rows of equally many elements.
pub trait Matrix<T: Send + Sync + Clone>: Send + Sync {
    /// How many elements a row has.
    fn width(&self) -> usize;

    /// How many rows there are.
    fn height(&self) -> usize;

    /// Width and height.
    fn dimensions(&self) -> Dimensions {
        Dimensions { width: self.width(), height: self.height() }
    }

    /// The element of a row and a column, if there is one.
    #[inline]
    fn get(&self, r: usize, c: usize) -> Option<T> {
        // SAFETY: both are in the matrix.
        (r < self.height() && c < self.width()).then(|| unsafe { self.get_unchecked(r, c) })
    }

    /// The element of a row and a column.
    ///
    /// # Safety
    ///
    /// The row is below the height, and the column below the width.
    unsafe fn get_unchecked(&self, r: usize, c: usize) -> T;

    /// The elements of a row, if there is one.
    #[inline]
    fn row(
        &self,
        r: usize,
    ) -> Option<impl IntoIterator<Item = T, IntoIter = impl Iterator<Item = T> + Send + Sync>> {
        // SAFETY: the row is in the matrix.
        (r < self.height()).then(|| unsafe { self.row_unchecked(r) })
    }

    /// The elements of a row.
    ///
    /// # Safety
    ///
    /// The row is below the height.
    unsafe fn row_unchecked(
        &self,
        r: usize,
    ) -> impl IntoIterator<Item = T, IntoIter = impl Iterator<Item = T> + Send + Sync>;

    /// `P::WIDTH` rows from `r` on, packed column by column: lane `k` of an item is from row `r + k`.
    fn vertically_packed_row<P>(&self, r: usize) -> impl Iterator<Item = P>
    where
        T: Copy,
        P: PackedValue<Value = T>,
    {
        (0..self.width()).map(move |c| P::from_fn(|k| self.get(r + k, c).expect("a row for each lane")))
    }
}
