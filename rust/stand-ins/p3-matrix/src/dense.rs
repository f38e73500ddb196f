//! Matrices that store their elements row by row.

use crate::Matrix;
use alloc::vec::Vec;
use rand::Rng;
use rand::distr::{Distribution, StandardUniform};
use serde::{Deserialize, Serialize};

/// A matrix of a vector of elements. In the crate it is an alias of `DenseMatrix`, which has other stores as well.
#[derive(Clone, Debug, PartialEq, Eq, Serialize, Deserialize)]
pub struct RowMajorMatrix<T> {
    /// The elements, row by row.
    pub values: Vec<T>,
    /// How many elements a row has.
    pub width: usize,
}

impl<T: Clone + Send + Sync> RowMajorMatrix<T> {
    /// The matrix of these elements. The width divides their number.
    pub fn new(values: Vec<T>, width: usize) -> Self {
        assert!(values.len().is_multiple_of(width), "rows of one width");
        RowMajorMatrix { values, width }
    }

    /// A matrix of random elements, drawn row by row.
    pub fn rand<R: Rng>(rng: &mut R, rows: usize, cols: usize) -> Self
    where
        StandardUniform: Distribution<T>,
    {
        RowMajorMatrix::new((0..rows * cols).map(|_| StandardUniform.sample(rng)).collect(), cols)
    }
}

impl<T: Clone + Send + Sync> Matrix<T> for RowMajorMatrix<T> {
    #[inline]
    fn width(&self) -> usize {
        self.width
    }

    #[inline]
    fn height(&self) -> usize {
        self.values.len().checked_div(self.width).unwrap_or(0)
    }

    #[inline]
    unsafe fn get_unchecked(&self, r: usize, c: usize) -> T {
        self.values[r * self.width + c].clone()
    }

    #[inline]
    unsafe fn row_unchecked(
        &self,
        r: usize,
    ) -> impl IntoIterator<Item = T, IntoIter = impl Iterator<Item = T> + Send + Sync> {
        self.values[r * self.width..][..self.width].iter().cloned()
    }
}
