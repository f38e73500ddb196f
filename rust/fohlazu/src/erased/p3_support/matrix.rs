// Made from crates/p3_support/src/matrix.rt by tools/erase.

//! Matrices: a height, a width, and rows.

use crate::erased::p3_support::packed::PackedValue;
use crate::fallible::{AllocError, TryClone, VecExt};
use alloc::vec::Vec;
use core::marker::PhantomData;

/// The longest row, in elements, that is copied one by one: for so few, a call that copies a slice takes longer.
const FEW_WORDS: usize = 4;

/// The size of a matrix.
#[derive(Clone, Copy, Debug, PartialEq, Eq)]
pub struct Dimensions {
    /// How many elements a row has.
    pub width: usize,
    /// How many rows there are.
    pub height: usize,
}

impl TryClone for Dimensions {
    fn try_clone(&self) -> Result<Self, AllocError> {
        Ok(*self)
    }
}

/// A matrix of elements `T`, with `height` rows of `width` elements each. On one matrix each call always returns the
/// same.
pub trait Matrix<T> {
    /// The number of rows.
    fn height(&self) -> usize;

    /// The number of elements of each row.
    fn width(&self) -> usize;

    /// The element in a row and a column, both from 0. The row must be below the height, the column below the width.
    ///
    /// # Panics
    ///
    /// - By `row_in` unless `row < self.height()`.
    /// - By `column_in` unless `column < self.width()`.
    fn get(&self, row: usize, column: usize) -> T;

    /// A slice of elements that the matrix stores one after another, from `column` of `row` on. It may end anywhere,
    /// run on into the next rows, or be empty: the caller reads the elements that it lacks by [`get`](Self::get). The
    /// row must be below the height, and the column at most the width.
    ///
    /// # Panics
    ///
    /// - By `row_in` unless `row < self.height()`.
    /// - By `column_in` unless `column <= self.width()`.
    #[inline]
    fn piece(&self, row: usize, column: usize) -> &[T] {
        assert!(row < self.height(), "row_in");
        assert!(column <= self.width(), "column_in");
        &[]
    }

    /// Width and height.
    #[inline]
    fn dimensions(&self) -> Dimensions {
        Dimensions { width: self.width(), height: self.height() }
    }

    /// The elements of a row, by ascending columns. The row must be below the height.
    ///
    /// # Panics
    ///
    /// - By `row_in` unless `row < self.height()`.
    #[inline]
    fn row(&self, row: usize) -> Row<'_, T, Self>
    where
        Self: Sized,
    {
        assert!(row < self.height(), "row_in");
        Row { matrix: self, row, next: 0, item: PhantomData }
    }

    /// Appends the elements of a row from `column` on to `words`, by ascending columns. The row must be below the
    /// height, and the column at most the width. Each is read by [`get`](Self::get), unless the matrix has a call of
    /// its own.
    ///
    /// # Errors
    ///
    /// `AllocError` if memory runs out. `words` may then have a part of the elements.
    ///
    /// # Panics
    ///
    /// - By `row_in` unless `row < self.height()`.
    /// - By `column_in` unless `column <= self.width()`.
    #[inline]
    fn append_from(&self, row: usize, column: usize, words: &mut Vec<T>) -> Result<(), AllocError> {
        assert!(row < self.height(), "row_in");
        assert!(column <= self.width(), "column_in");
        for next in column..self.width() {
            words.try_push(self.get(row, next))?;
        }
        Ok(())
    }

    /// Writes the elements of a row from `column` on into `out`, by ascending columns. The row must be below the
    /// height, the column at most the width, and `out` as long as these elements are many. Each is read by
    /// [`get`](Self::get), unless the matrix has its own call.
    ///
    /// # Panics
    ///
    /// - By `row_in` unless `row < self.height()`.
    /// - By `row_fills` unless `column <= self.width() && out.len() == self.width() - column`.
    #[inline]
    fn write_from(&self, row: usize, column: usize, out: &mut [T]) {
        assert!(row < self.height(), "row_in");
        assert!(column <= self.width() && out.len() == self.width() - column, "row_fills");
        for (i, word) in out.iter_mut().enumerate() {
            *word = self.get(row, column + i);
        }
    }

    /// Appends the elements of a row to `words`, by ascending columns. The row must be below the height. It copies what
    /// the matrix stores, and takes what is left by [`append_from`](Self::append_from).
    ///
    /// # Errors
    ///
    /// `AllocError` if memory runs out. `words` may then have a part of the row.
    ///
    /// # Panics
    ///
    /// - By `row_in` unless `row < self.height()`.
    #[inline]
    fn append_row(&self, row: usize, words: &mut Vec<T>) -> Result<(), AllocError>
    where
        T: Copy,
    {
        assert!(row < self.height(), "row_in");
        let width = self.width();
        let mut column = 0;
        while width > FEW_WORDS && column < width {
            let piece = self.piece(row, column);
            if piece.is_empty() {
                break;
            }
            let count = piece.len().min(width - column);
            words.try_extend_from_slice(&piece[..count])?;
            column += count;
        }
        self.append_from(row, column, words)
    }

    /// Writes the elements of a row into `out`, by ascending columns. The row must be below the height, and `out` as
    /// long as the matrix is wide. It copies what the matrix stores, and takes what is left by
    /// [`write_from`](Self::write_from).
    ///
    /// # Panics
    ///
    /// - By `row_in` unless `row < self.height()`.
    /// - By `row_fills` unless `out.len() == self.width()`.
    #[inline]
    fn write_row(&self, row: usize, out: &mut [T])
    where
        T: Copy,
    {
        assert!(row < self.height(), "row_in");
        assert!(out.len() == self.width(), "row_fills");
        let width = out.len();
        let mut column = 0;
        while width > FEW_WORDS && column < width {
            let piece = self.piece(row, column);
            if piece.is_empty() {
                break;
            }
            let count = piece.len().min(width - column);
            out[column..column + count].copy_from_slice(&piece[..count]);
            column += count;
        }
        self.write_from(row, column, &mut out[column..]);
    }

    /// `P::WIDTH` rows from `row` on, packed column by column: lane `k` of an item is the element of row `row + k`.
    /// `row + P::WIDTH` must be at most the height.
    ///
    /// # Panics
    ///
    /// - By `rows_in` unless `row <= self.height() && P::WIDTH <= self.height() - row`.
    #[inline]
    fn vertically_packed_row<P: PackedValue<Value = T>>(&self, row: usize) -> PackedRow<'_, T, P, Self>
    where
        Self: Sized,
    {
        assert!(row <= self.height() && P::WIDTH <= self.height() - row, "rows_in");
        PackedRow { matrix: self, row, next: 0, item: PhantomData }
    }
}

// So that a call that takes a slice of matrices also takes a slice of references.
impl<T, M: ?Sized + Matrix<T>> Matrix<T> for &M {
    #[inline]
    fn height(&self) -> usize {
        (**self).height()
    }

    #[inline]
    fn width(&self) -> usize {
        (**self).width()
    }

    #[inline]
    fn get(&self, row: usize, column: usize) -> T {
        (**self).get(row, column)
    }

    #[inline]
    fn piece(&self, row: usize, column: usize) -> &[T] {
        (**self).piece(row, column)
    }

    #[inline]
    fn append_from(&self, row: usize, column: usize, words: &mut Vec<T>) -> Result<(), AllocError> {
        (**self).append_from(row, column, words)
    }

    #[inline]
    fn write_from(&self, row: usize, column: usize, out: &mut [T]) {
        (**self).write_from(row, column, out)
    }
}

/// An iterator over the elements of one row of a matrix, by ascending columns.
pub struct Row<'a, T, M: Matrix<T>> {
    matrix: &'a M,
    row: usize,
    next: usize,
    item: PhantomData<T>,
}

impl<'a, T, M: Matrix<T>> Iterator for Row<'a, T, M> {
    type Item = T;

    #[inline]
    fn next(&mut self) -> Option<T> {
        if self.next == self.matrix.width() {
            return None;
        }
        let item = self.matrix.get(self.row, self.next);
        self.next += 1;
        Some(item)
    }
}

/// An iterator over the columns of `P::WIDTH` rows, each column packed: lane `k` is from row `k` of these.
pub struct PackedRow<'a, T, P: PackedValue<Value = T>, M: Matrix<T>> {
    matrix: &'a M,
    row: usize,
    next: usize,
    item: PhantomData<P>,
}

impl<'a, T, P: PackedValue<Value = T>, M: Matrix<T>> Iterator for PackedRow<'a, T, P, M> {
    type Item = P;

    #[inline]
    fn next(&mut self) -> Option<P> {
        if self.next == self.matrix.width() {
            return None;
        }
        let item = packed_column(self.matrix, self.row, self.next);
        self.next += 1;
        Some(item)
    }
}

/// Packs one column of `P::WIDTH` rows from `row` on: lane `k` is the element of row `row + k`. `row + P::WIDTH` must
/// be at most the height, and the column below the width.
#[inline]
pub(crate) fn packed_column<P: PackedValue, M: Matrix<P::Value>>(matrix: &M, row: usize, column: usize) -> P {
    P::from_fn(|k| -> P::Value { matrix.get(row + k, column) })
}

/// The error of values that cannot be split into rows: the width does not divide their number.
#[derive(Clone, Copy, Debug, PartialEq, Eq)]
pub struct ShapeError {
    /// How many values there are.
    pub len: usize,
    /// How many values a row should have.
    pub width: usize,
}

impl core::fmt::Display for ShapeError {
    fn fmt(&self, f: &mut core::fmt::Formatter<'_>) -> core::fmt::Result {
        let Self { len, width, .. } = self;
        write!(f, "{len} values cannot be split into rows of width {width}")
    }
}

impl core::error::Error for ShapeError {}

impl TryClone for ShapeError {
    fn try_clone(&self) -> Result<Self, AllocError> {
        Ok(*self)
    }
}

/// A matrix that stores its elements row after row.
#[derive(Debug, Default, PartialEq, Eq)]
pub struct RowMajorMatrix<T> {
    values: Vec<T>,
    width: usize,
    height: usize,
}

impl<T> RowMajorMatrix<T> {
    /// The matrix of these values, with `width` of them in a row. The width must divide the number of values, which
    /// [`try_new`](Self::try_new) tests. A width of 0 needs an empty list of values, and the matrix then has no rows.
    ///
    /// # Panics
    ///
    /// - By `divides` unless `values.len().is_multiple_of(width)`.
    #[inline]
    pub fn new(values: Vec<T>, width: usize) -> RowMajorMatrix<T> {
        assert!(values.len().is_multiple_of(width), "divides");
        let height = if width == 0 { 0 } else { values.len() / width };
        RowMajorMatrix { values, width, height }
    }

    /// The matrix of these values, with `width` of them in a row, as [`new`](Self::new) returns it: for values from
    /// outside, whose number is not known to fit.
    ///
    /// # Errors
    ///
    /// `ShapeError` if the width does not divide the number of values. A width of 0 divides 0 alone.
    #[inline]
    pub fn try_new(values: Vec<T>, width: usize) -> Result<RowMajorMatrix<T>, ShapeError> {
        let len = values.len();
        if !len.is_multiple_of(width) {
            return Err(ShapeError { len, width });
        }
        Ok(RowMajorMatrix::new(values, width))
    }

    /// All elements, row after row.
    #[inline]
    pub fn values(&self) -> &[T] {
        self.values.as_slice()
    }
}

/// Clones the elements. The clone has the same height and width.
impl<T: TryClone> TryClone for RowMajorMatrix<T> {
    #[inline]
    fn try_clone(&self) -> Result<RowMajorMatrix<T>, AllocError> {
        Ok(RowMajorMatrix { values: self.values.try_clone()?, width: self.width, height: self.height })
    }
}

impl<T: Clone> Clone for RowMajorMatrix<T> {
    fn clone(&self) -> Self {
        RowMajorMatrix { values: self.values.clone(), width: self.width, height: self.height }
    }
}

impl<T: Copy> Matrix<T> for RowMajorMatrix<T> {
    #[inline]
    fn height(&self) -> usize {
        self.height
    }

    #[inline]
    fn width(&self) -> usize {
        self.width
    }

    #[inline]
    fn get(&self, row: usize, column: usize) -> T {
        assert!(row < self.height(), "row_in");
        assert!(column < self.width(), "column_in");
        self.values[row * self.width + column]
    }

    #[inline]
    fn piece(&self, row: usize, column: usize) -> &[T] {
        assert!(row < self.height(), "row_in");
        assert!(column <= self.width(), "column_in");
        &self.values[row * self.width + column..]
    }
}

/// The width and the height of each matrix, in input order.
///
/// # Errors
///
/// `AllocError` if memory runs out.
#[inline]
pub fn dimensions_of<T, M: Matrix<T>>(matrices: &[M]) -> Result<Vec<Dimensions>, AllocError> {
    let mut dimensions = Vec::with_room(matrices.len())?;
    for matrix in matrices {
        dimensions.try_push(matrix.dimensions())?;
    }
    Ok(dimensions)
}
