// Made from crates/p3_merkle_hashing/src/rows.rt by tools/erase.

//! How the rows of one layer's matrices are hashed: one row a call, one in each lane of a call, or many a call.

use crate::erased::p3_merkle_hashing::calls::{messages_per_call, packed_block_count};
use crate::erased::p3_support::hasher::CryptographicHasher;
use crate::erased::p3_support::matrix::Matrix;
use crate::erased::p3_support::packed::{PackedValue, unpack_at};
use crate::erased::p3_support::rows::packed_rows_of;
use crate::fallible::{AllocError, VecExt};
use alloc::vec::Vec;
use core::marker::PhantomData;

/// The rows of one layer, and the hasher that digests them. Row `j` of the layer is row `j` of each of its matrices,
/// one matrix after another. `X` is the type of a digest.
pub(crate) struct LayerRows<'a, P: PackedValue, PW, H, M: Matrix<P::Value>, X> {
    /// The hasher of rows.
    pub hash: &'a H,
    /// The matrices of the layer, in input order.
    pub matrices: &'a [M],
    /// The height of each of these matrices.
    pub height: usize,
    /// The types of packed words and of digests.
    pub item: PhantomData<(P, PW, X)>,
}

impl<'a, P: PackedValue, PW: PackedValue, H: CryptographicHasher<P, PW, D>, M: Matrix<P::Value>, const D: usize>
    LayerRows<'a, P, PW, H, M, [PW::Value; D]>
{
    /// Fills slot `j` with the digest of row `first + j`, for each of these rows that the layer has. All slots must
    /// have default digests before; those without a row keep them. Both packings must have equally many lanes. `staged`
    /// is a buffer for rows: a caller that reuses it for all layers seldom allocates.
    ///
    /// Constants choose how:
    ///
    /// - If the hasher has `LANES` above 1, it takes many rows a call ([`fill_batched`](Self::fill_batched)).
    /// - Else it takes one row in each lane of a call ([`packed_digest`](Self::packed_digest)), as far as the rows fill
    ///   all lanes. With a `WIDTH` of 1 this is none.
    /// - Rows that are left over go to `fill_batched`, where a hasher with `LANES` 1 takes one after another.
    ///
    /// # Errors
    ///
    /// `AllocError` if memory runs out, or if the rows of one call have 2^64 words or more.
    pub(crate) fn fill(
        &self,
        staged: &mut Vec<P::Value>,
        first: usize,
        slots: &mut [[PW::Value; D]],
    ) -> Result<(), AllocError> {
        let count = self.height.saturating_sub(first).min(slots.len());
        let digests = &mut slots[..count];
        let in_lanes = if H::LANES > 1 { 0 } else { count };
        let blocks = packed_block_count::<PW, 1, D>(in_lanes);
        for block in 0..blocks {
            let start = block * PW::WIDTH;
            let packed = self.packed_digest(first + start);
            unpack_at(&packed, digests, start);
        }
        let done = blocks * PW::WIDTH;
        self.fill_batched(staged, first + done, &mut digests[done..])
    }

    /// The digest of row `row`, by a call for it alone. `row` must be below the height, and `len` the number of its
    /// words. A row that a lone matrix stores in two pieces is hashed where it lies, any other as [`contiguous_rows`]
    /// gives it. `staged` is a buffer for a row. `AllocError` if memory runs out.
    fn row_digest(&self, staged: &mut Vec<P::Value>, len: usize, row: usize) -> Result<[PW::Value; D], AllocError> {
        if let [matrix] = self.matrices {
            let left = matrix.piece(row, 0);
            if left.len() < len {
                let right = matrix.piece(row, left.len());
                let rest = len - left.len();
                if rest <= right.len() {
                    let pieces = both(left, &right[..rest]);
                    return Ok(self.hash.hash_iter_slices(pieces.iter().copied()));
                }
            }
        }
        let words = contiguous_rows(staged, self.matrices, self.height, len, row, 1)?;
        Ok(self.hash.hash_slice(words))
    }

    /// The digests of `P::WIDTH` rows from `row` on, by one call: lane `k` is that of row `row + k`, for each lane that
    /// both packings have. `row + P::WIDTH` must be at most the height.
    pub(crate) fn packed_digest(&self, row: usize) -> [PW; D] {
        // The iterator over one matrix doesn't look for a next matrix at each column.
        if let [matrix] = self.matrices {
            return self.hash.hash_packed(matrix.vertically_packed_row::<P>(row));
        }
        self.hash.hash_packed(packed_rows_of::<_, P, _>(self.matrices, row))
    }

    /// Fills each slot `j` with the digest of row `first + j`, many rows a call: at most as many as
    /// [`messages_per_call`] says. There must be at most as many slots as rows from `first` on. `staged` is a buffer
    /// for rows.
    ///
    /// # Errors
    ///
    /// `AllocError` if memory runs out, or if the rows of one call have 2^64 words or more.
    pub(crate) fn fill_batched(
        &self,
        staged: &mut Vec<P::Value>,
        first: usize,
        slots: &mut [[PW::Value; D]],
    ) -> Result<(), AllocError> {
        // With no slots no row is read, however wide the matrices are.
        if slots.is_empty() {
            return Ok(());
        }
        let mut len = 0usize;
        for matrix in self.matrices {
            len = len.checked_add(matrix.width()).ok_or(AllocError)?;
        }
        let bytes = len.saturating_mul(core::mem::size_of_val(&P::Value::default()));
        let stored = match self.matrices {
            [matrix] => matrix.piece(first, 0).len(),
            _ => 0,
        };
        // Stored rows that lie apart are hashed one by one where they lie, if the hasher takes one message at a time.
        let rows = if H::LANES == 1 && stored > 0 && stored / 2 < len { 1 } else { messages_per_call(bytes, H::LANES) };
        // Only the proof in Rattle needs that it is read first: the height bounds the sum in the loop.
        let height = self.height;
        let mut done = 0;
        while done < slots.len() {
            let count = rows.min(slots.len() - done);
            let row = first + done;
            if count == 1 {
                let digest = self.row_digest(staged, len, row)?;
                slots[done] = digest;
            } else {
                let words = contiguous_rows(staged, self.matrices, height, len, row, count)?;
                self.hash.hash_many(words, &mut slots[done..done + count]);
            }
            done += count;
        }
        Ok(())
    }
}

/// The words of `count` rows from `first` on, one row after another, where a row is the row of each matrix, in order.
/// They are borrowed from the matrix if there is only one and it stores them in one piece, else copied into `staged`.
/// All matrices must have the height `height`, and a row `len` words in all of them together. `count` must be at least
/// 1, and `first + count` at most the height. `AllocError` if memory runs out, or if there are 2^64 words or more.
fn contiguous_rows<'b, T: Copy + Default, M: Matrix<T>>(
    staged: &'b mut Vec<T>,
    matrices: &'b [M],
    height: usize,
    len: usize,
    first: usize,
    count: usize,
) -> Result<&'b [T], AllocError> {
    let words = count.checked_mul(len).ok_or(AllocError)?;
    if let [matrix] = matrices {
        let piece = matrix.piece(first, 0);
        if words <= piece.len() {
            return Ok(&piece[..words]);
        }
    }
    if staged.len() < words {
        staged.try_resize(words, T::default())?;
    }
    let rows = &mut staged.as_mut_slice()[..words];
    write_rows(matrices, height, len, first, count, rows);
    Ok(rows)
}

/// Writes `count` rows from `first` on into `out`, one after another, where a row is the row of each matrix, in order.
/// All matrices must have the height `height`, and a row `len` words in all of them together. `first + count` must be
/// at most the height, and `out` as long as these rows are together.
// Matrix by matrix: the compiler then tests the form of a matrix once, and not at each row.
fn write_rows<T: Copy, M: Matrix<T>>(
    matrices: &[M],
    height: usize,
    len: usize,
    first: usize,
    count: usize,
    out: &mut [T],
) {
    let mut start = 0;
    for matrix in matrices {
        write_columns(matrix, len, start, first, count, out);
        start += matrix.width();
    }
}

/// Writes `count` rows of a matrix, from `first` on, into the rows of `len` words that `out` has: each from place
/// `start` of such a row on. `first + count` must be at most the height, `start` and the width together at most `len`,
/// and `out` must have `count` rows.
#[inline(always)]
fn write_columns<T: Copy, M: Matrix<T>>(
    matrix: &M,
    len: usize,
    start: usize,
    first: usize,
    count: usize,
    out: &mut [T],
) {
    let end = start + matrix.width();
    for j in 0..count {
        let row = &mut out[j * len..(j + 1) * len];
        matrix.write_row(first + j, &mut row[start..end]);
    }
}

/// Both slices, with one lifetime, as an array of them needs.
fn both<'b, T>(first: &'b [T], second: &'b [T]) -> [&'b [T]; 2] {
    [first, second]
}
