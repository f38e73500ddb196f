//! Matrices beside one another.

use crate::Matrix;
use p3_field::PackedValue;
use serde::{Deserialize, Serialize};

/// Two matrices of one height: each row is one of the left matrix, followed by that of the right one.
#[derive(Copy, Clone, Debug, Serialize, Deserialize)]
pub struct HorizontalPair<Left, Right> {
    /// The first columns.
    pub left: Left,
    /// The others.
    pub right: Right,
}

impl<Left, Right> HorizontalPair<Left, Right> {
    /// Both matrices, which have one height.
    pub fn new<T>(left: Left, right: Right) -> Self
    where
        T: Send + Sync + Clone,
        Left: Matrix<T>,
        Right: Matrix<T>,
    {
        assert_eq!(left.height(), right.height(), "matrices of different heights");
        HorizontalPair { left, right }
    }
}

impl<T: Send + Sync + Clone, Left: Matrix<T>, Right: Matrix<T>> Matrix<T> for HorizontalPair<Left, Right> {
    fn width(&self) -> usize {
        self.left.width() + self.right.width()
    }

    fn height(&self) -> usize {
        self.left.height()
    }

    unsafe fn get_unchecked(&self, r: usize, c: usize) -> T {
        let width = self.left.width();
        // SAFETY: the caller answers for the row and the column of the pair, so each is in its own matrix.
        unsafe {
            if c < width { self.left.get_unchecked(r, c) } else { self.right.get_unchecked(r, c - width) }
        }
    }

    unsafe fn row_unchecked(
        &self,
        r: usize,
    ) -> impl IntoIterator<Item = T, IntoIter = impl Iterator<Item = T> + Send + Sync> {
        // SAFETY: the caller answers for the row, and both have one height.
        unsafe { self.left.row_unchecked(r).into_iter().chain(self.right.row_unchecked(r)) }
    }

    fn vertically_packed_row<P>(&self, r: usize) -> impl Iterator<Item = P>
    where
        T: Copy,
        P: PackedValue<Value = T>,
    {
        self.left.vertically_packed_row(r).chain(self.right.vertically_packed_row(r))
    }
}
