// Made from crates/p3_support/src/pair.rt by tools/erase.

//! Two matrices side by side.

use crate::erased::p3_support::matrix::Matrix;
use core::marker::PhantomData;

/// Two matrices of one height, side by side: each row is a row of the left matrix followed by that of the right one.
#[derive(Debug, Clone, Copy)]
pub struct HorizontalPair<T, A: Matrix<T>, B: Matrix<T>> {
    left: A,
    right: B,
    element: PhantomData<T>,
}

impl<T, A: Matrix<T>, B: Matrix<T>> HorizontalPair<T, A, B> {
    /// The matrices `left` and `right`, side by side. Their heights must be equal, and both widths together fit
    /// `usize`.
    ///
    /// # Panics
    ///
    /// - By `one_height` unless `left.height() == right.height()`.
    /// - By `width_fits` unless `left.width().checked_add(right.width()).is_some()`.
    pub fn new(left: A, right: B) -> HorizontalPair<T, A, B> {
        assert!(left.height() == right.height(), "one_height");
        assert!(left.width().checked_add(right.width()).is_some(), "width_fits");
        HorizontalPair { left, right, element: PhantomData }
    }

    /// The left matrix.
    pub fn left(&self) -> &A {
        &self.left
    }

    /// The right matrix.
    pub fn right(&self) -> &B {
        &self.right
    }
}

impl<T, A: Matrix<T>, B: Matrix<T>> Matrix<T> for HorizontalPair<T, A, B> {
    fn height(&self) -> usize {
        self.left.height()
    }

    fn width(&self) -> usize {
        self.left.width() + self.right.width()
    }

    fn get(&self, row: usize, column: usize) -> T {
        assert!(row < self.height(), "row_in");
        assert!(column < self.width(), "column_in");
        let width = self.left.width();
        if column < width { self.left.get(row, column) } else { self.right.get(row, column - width) }
    }

    fn piece(&self, row: usize, column: usize) -> &[T] {
        assert!(row < self.height(), "row_in");
        assert!(column <= self.width(), "column_in");
        // Cut at the row's end: a side's piece may run on into its next row, but the pair goes on in the other side.
        let width = self.left.width();
        if column < width {
            let piece = self.left.piece(row, column);
            &piece[..piece.len().min(width - column)]
        } else {
            let piece = self.right.piece(row, column - width);
            &piece[..piece.len().min(self.width() - column)]
        }
    }
}
