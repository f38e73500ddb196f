// Made from crates/p3_support/src/rows.rt by tools/erase.

//! The rows of several matrices of one height, one after another.

use crate::erased::p3_support::matrix::{Matrix, packed_column};
use crate::erased::p3_support::packed::PackedValue;
use core::marker::PhantomData;

/// An iterator over one row of each matrix of one height, in input order, element by element.
pub struct Rows<'a, T, M: Matrix<T>> {
    matrices: &'a [M],
    height: usize,
    row: usize,
    next: usize,
    item: PhantomData<T>,
}

/// The elements of row `row` of each of the `matrices` that have `height` rows, in input order. `row` must be below
/// `height`. The call does not allocate.
///
/// # Panics
///
/// - By `row_in` unless `row < height`.
pub fn rows_of<'a, T, M: Matrix<T>>(matrices: &'a [M], height: usize, row: usize) -> Rows<'a, T, M> {
    assert!(row < height, "row_in");
    Rows { matrices, height, row, next: 0, item: PhantomData }
}

impl<'a, T, M: Matrix<T>> Iterator for Rows<'a, T, M> {
    type Item = T;

    fn next(&mut self) -> Option<T> {
        while let Some((first, others)) = self.matrices.split_first() {
            if first.height() == self.height && self.next < first.width() {
                let item = first.get(self.row, self.next);
                self.next += 1;
                return Some(item);
            }
            self.matrices = others;
            self.next = 0;
        }
        None
    }
}

/// The elements from row `row` on of the first of the `matrices`, if it stores at least `P::WIDTH` rows there in one
/// piece; else `None`. `row + P::WIDTH` must be at most the height of each.
#[inline(always)]
fn stored_rows<P: PackedValue, M: Matrix<P::Value>>(matrices: &[M], row: usize) -> Option<&[P::Value]> {
    let first = matrices.first()?;
    if P::WIDTH == 0 {
        return None;
    }
    let piece = first.piece(row, 0);
    if first.width() > piece.len() / P::WIDTH {
        return None;
    }
    Some(piece)
}

/// Packs one column of `P::WIDTH` rows of `width` elements each, which lie one after another in `rows`: lane `k` is
/// from row `k`. `rows` must reach to the column's element in the last of them.
#[inline(always)]
fn stored_column<P: PackedValue>(rows: &[P::Value], width: usize, column: usize) -> P {
    let lanes = &rows[column..];
    P::from_fn(|k| -> P::Value { lanes[k * width] })
}

/// An iterator over the columns of `P::WIDTH` rows of each of several matrices, one matrix after another, each column
/// packed: lane `k` is from row `k` of these.
pub struct PackedRows<'a, T, P: PackedValue<Value = T>, M: Matrix<T>> {
    matrices: &'a [M],
    stored: Option<&'a [T]>,
    row: usize,
    next: usize,
    item: PhantomData<P>,
}

/// `P::WIDTH` rows from `row` on of each of the `matrices`, packed column by column, one matrix after another: lane `k`
/// of an item is an element of row `row + k`. `row + P::WIDTH` must be at most the height of each.
///
/// # Panics
///
/// - By `rows_in` unless `matrices.iter().all(|matrix| row <= matrix.height() && P::WIDTH <= matrix.height() - row)`.
pub fn packed_rows_of<'a, T, P: PackedValue<Value = T>, M: Matrix<T>>(
    matrices: &'a [M],
    row: usize,
) -> PackedRows<'a, T, P, M> {
    assert!(matrices.iter().all(|matrix| row <= matrix.height() && P::WIDTH <= matrix.height() - row), "rows_in");
    PackedRows { matrices, stored: stored_rows::<P, M>(matrices, row), row, next: 0, item: PhantomData }
}

impl<'a, T, P: PackedValue<Value = T>, M: Matrix<T>> Iterator for PackedRows<'a, T, P, M> {
    type Item = P;

    // Inlined: a call for each column would pass the column and the position through memory.
    #[inline(always)]
    fn next(&mut self) -> Option<P> {
        while let Some((first, others)) = self.matrices.split_first() {
            let width = first.width();
            if self.next < width {
                let item = match self.stored {
                    Some(rows) => stored_column(rows, width, self.next),
                    None => packed_column(first, self.row, self.next),
                };
                self.next += 1;
                return Some(item);
            }
            self.stored = stored_rows::<P, M>(others, self.row);
            self.matrices = others;
            self.next = 0;
        }
        None
    }
}
