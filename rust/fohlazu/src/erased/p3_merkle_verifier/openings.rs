// Made from crates/p3_merkle_verifier/src/openings.rt by tools/erase.

//! Openings as a check reads them: a single one with its index, a pruned one, and the rows of both. The exponent of a
//! matrix is log2 of its height, rounded up. A query is one index of a pruned opening; a row set is its rows.

use crate::erased::p3_merkle_core::geometry::exponent_of;
use crate::erased::p3_merkle_core::pruning::DistinctQueries;
use crate::erased::p3_merkle_core::schedule::Schedule;
use crate::erased::p3_support::matrix::{Dimensions, Matrix};
use crate::erased::p3_support::opening::BatchOpeningRef;
use crate::erased::p3_support::row_parts::{RowParts, RowSets};
use alloc::vec::Vec;

/// A borrowed opening with the index of its leaf.
pub(crate) struct OpeningRef<'a, T, X> {
    /// The index of the leaf.
    pub index: usize,
    /// One row of each matrix, in input order.
    pub rows: RowParts<'a, T>,
    /// The siblings on the leaf's path, level by level from the leaves up.
    pub siblings: &'a [X],
}

impl<'a, T, X> Clone for OpeningRef<'a, T, X> {
    fn clone(&self) -> Self {
        *self
    }
}

impl<'a, T, X> Copy for OpeningRef<'a, T, X> {}

impl<'a, T, W, const D: usize> OpeningRef<'a, T, [W; D]> {
    /// The opening of the leaf `index` that has the rows and siblings of `opening`.
    pub(crate) fn new(index: usize, opening: BatchOpeningRef<'a, T, Vec<[W; D]>>) -> OpeningRef<'a, T, [W; D]> {
        OpeningRef { index, rows: RowParts::Vecs(opening.opened_values), siblings: opening.opening_proof }
    }
}

/// The parts of the rows of the matrices of one exponent, row after row. `rows` has one row of each matrix, in input
/// order. Nothing is copied.
pub(crate) struct OpenedParts<'a, T> {
    /// The dimensions of the matrices.
    pub dimensions: &'a [Dimensions],
    /// Their rows.
    pub rows: RowParts<'a, T>,
    /// The exponent of the matrices whose rows are yielded.
    pub exponent: usize,
    /// The second part of the row whose first part was yielded last; empty if none is due.
    pub second: &'a [T],
}

impl<'a, T> OpenedParts<'a, T> {
    /// The parts of the rows of the matrices of this exponent.
    pub(crate) fn new(dimensions: &'a [Dimensions], rows: RowParts<'a, T>, exponent: usize) -> OpenedParts<'a, T> {
        OpenedParts { dimensions, rows, exponent, second: &[] }
    }
}

impl<'a, T> Iterator for OpenedParts<'a, T> {
    type Item = &'a [T];

    fn next(&mut self) -> Option<&'a [T]> {
        if !self.second.is_empty() {
            let second = self.second;
            self.second = &[];
            return Some(second);
        }
        while let Some((matrix, matrices)) = self.dimensions.split_first() {
            let (first, second) = self.rows.next_row()?;
            self.dimensions = matrices;
            if exponent_of(matrix.height) == self.exponent {
                self.second = second;
                return Some(first);
            }
        }
        None
    }
}

/// The parts that [`OpenedParts`] yields of rows in one piece.
// Through `RowParts` a row takes three times as long, and most rows are vectors.
pub(crate) struct OpenedRows<'a, T> {
    /// The dimensions of the matrices.
    pub dimensions: &'a [Dimensions],
    /// Their rows.
    pub rows: &'a [Vec<T>],
    /// The exponent of the matrices whose rows are yielded.
    pub exponent: usize,
}

impl<'a, T> Iterator for OpenedRows<'a, T> {
    type Item = &'a [T];

    fn next(&mut self) -> Option<&'a [T]> {
        while let Some((matrix, matrices)) = self.dimensions.split_first() {
            let (row, rows) = self.rows.split_first()?;
            self.dimensions = matrices;
            self.rows = rows;
            if exponent_of(matrix.height) == self.exponent {
                return Some(row.as_slice());
            }
        }
        None
    }
}

/// The parts that [`OpenedParts`] yields of rows with salts.
// It takes less time for the same reason as `OpenedRows`.
pub(crate) struct SaltedRows<'a, T> {
    /// The dimensions of the matrices.
    pub dimensions: &'a [Dimensions],
    /// Their rows.
    pub rows: &'a [Vec<T>],
    /// The salts of each row.
    pub salts: &'a [Vec<T>],
    /// The exponent of the matrices whose rows are yielded.
    pub exponent: usize,
    /// The salts of the row that was yielded last; empty if none are due.
    pub due: &'a [T],
}

impl<'a, T> Iterator for SaltedRows<'a, T> {
    type Item = &'a [T];

    fn next(&mut self) -> Option<&'a [T]> {
        if !self.due.is_empty() {
            let due = self.due;
            self.due = &[];
            return Some(due);
        }
        while let Some((matrix, matrices)) = self.dimensions.split_first() {
            let (row, rows) = self.rows.split_first()?;
            let (salt, salts) = self.salts.split_first()?;
            self.dimensions = matrices;
            self.rows = rows;
            self.salts = salts;
            if exponent_of(matrix.height) == self.exponent {
                self.due = salt.as_slice();
                return Some(row.as_slice());
            }
        }
        None
    }
}

/// The words of the rows of the matrices of one exponent, one after another. Nothing is copied.
pub(crate) struct OpenedWords<'a, T> {
    /// The words that are left of a part.
    part: &'a [T],
    /// The parts after it.
    parts: OpenedParts<'a, T>,
}

impl<'a, T> OpenedWords<'a, T> {
    /// The words of the rows of the matrices of this exponent. `rows` has one row of each matrix, in input order.
    pub(crate) fn new(dimensions: &'a [Dimensions], rows: RowParts<'a, T>, exponent: usize) -> OpenedWords<'a, T> {
        OpenedWords { part: &[], parts: OpenedParts::new(dimensions, rows, exponent) }
    }
}

impl<'a, T> Iterator for OpenedWords<'a, T> {
    type Item = &'a T;

    fn next(&mut self) -> Option<&'a T> {
        while self.part.is_empty() {
            self.part = self.parts.next()?;
        }
        let (word, part) = self.part.split_first()?;
        self.part = part;
        Some(word)
    }
}

/// The rows that some queries opened of one matrix, as a matrix of their own: row `j` is that of query `queries[j]`. So
/// the code that hashes the rows of a tree's layer hashes these, too.
pub(crate) struct OpenedMatrix<'a, T> {
    /// The row set of each query.
    pub sets: RowSets<'a, T>,
    /// The queries whose rows these are.
    pub queries: &'a [usize],
    /// The position of the matrix in a row set.
    pub place: usize,
    /// How many elements a row has.
    pub width: usize,
}

impl<'a, T> OpenedMatrix<'a, T> {
    /// Row `row` of the matrix, that of query `queries[row]`: its first and its second part.
    fn parts(&self, row: usize) -> (&'a [T], &'a [T]) {
        self.sets.row(self.queries[row], self.place)
    }
}

impl<'a, T: Copy> Matrix<T> for OpenedMatrix<'a, T> {
    fn height(&self) -> usize {
        self.queries.len()
    }

    fn width(&self) -> usize {
        self.width
    }

    fn get(&self, row: usize, column: usize) -> T {
        let (first, second) = self.parts(row);
        if column < first.len() { first[column] } else { second[column - first.len()] }
    }

    fn piece(&self, row: usize, column: usize) -> &[T] {
        let (first, second) = self.parts(row);
        if column < first.len() { &first[column..] } else { &second[column - first.len()..] }
    }
}

/// A borrowed pruned opening.
pub(crate) struct PrunedOpeningRef<'a, T, X> {
    /// The index of each query.
    pub indices: &'a [usize],
    /// The row set of each query: one row of each matrix, in input order.
    pub sets: RowSets<'a, T>,
    /// The digests of the proof, in wire order.
    pub sent: &'a [X],
}

impl<'a, T, X> Clone for PrunedOpeningRef<'a, T, X> {
    fn clone(&self) -> Self {
        *self
    }
}

impl<'a, T, X> Copy for PrunedOpeningRef<'a, T, X> {}

/// A pruned opening from which the path of each query can be restored, with the steps of its tree. Its form is right,
/// and its rows agree.
pub(crate) struct RestorableOpening<'a, T, X> {
    /// The steps of the tree.
    pub schedule: &'a Schedule<'a>,
    /// The cap's layer.
    pub cap_layer: usize,
    /// The opening.
    pub opening: PrunedOpeningRef<'a, T, X>,
    /// Its distinct indices, with the first query of each.
    pub leaves: DistinctQueries,
}
