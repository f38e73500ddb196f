//! Trees whose layers several threads fill, each of them piece by piece as the builder of one thread fills a layer.

use super::{in_pieces, piece_of};
use crate::erased::p3_merkle_core::geometry::padded_len;
use crate::erased::p3_merkle_core::layer_shape::LayerShape;
use crate::erased::p3_merkle_core::schedule::{OwnedSchedule, Schedule};
use crate::erased::p3_merkle_hashing::rows::LayerRows;
use crate::erased::p3_merkle_prover::checked::{CheckedMatrices, checked_matrices};
use crate::erased::p3_merkle_prover::layer::{Buffers, LayerBuilder};
use crate::erased::p3_merkle_prover::opener::{cap_at, tree_schedule};
use crate::fallible::{AllocError, VecExt};
use crate::merkle_tree::{MerkleCap, MerkleTree, MerkleTreeError, MerkleTreeMmcs, Tree};
use crate::support::{CryptographicHasher, Matrix, PackedValue, PseudoCompressionFunction};
use alloc::vec::Vec;
use core::marker::PhantomData;

/// The rows of a matrix from the row `first` on, if there are any.
struct RowsFrom<'a, M> {
    matrix: &'a M,
    first: usize,
}

impl<T, M: Matrix<T>> Matrix<T> for RowsFrom<'_, M> {
    #[inline]
    fn height(&self) -> usize {
        self.matrix.height().saturating_sub(self.first)
    }

    #[inline]
    fn width(&self) -> usize {
        self.matrix.width()
    }

    #[inline]
    fn get(&self, row: usize, column: usize) -> T {
        self.matrix.get(self.first + row, column)
    }

    #[inline]
    fn piece(&self, row: usize, column: usize) -> &[T] {
        self.matrix.piece(self.first + row, column)
    }

    #[inline]
    fn append_from(&self, row: usize, column: usize, words: &mut Vec<T>) -> Result<(), AllocError> {
        self.matrix.append_from(self.first + row, column, words)
    }

    #[inline]
    fn write_from(&self, row: usize, column: usize, out: &mut [T]) {
        self.matrix.write_from(self.first + row, column, out);
    }
}

/// What fills layers: a hasher, a compression, and the matrices of the tree.
struct Builder<'a, P, PW, H, C, M, const N: usize, const D: usize> {
    hash: &'a H,
    compress: &'a C,
    matrices: &'a [M],
    item: PhantomData<fn() -> (P, PW)>,
}

impl<P, PW, H, C, M, const N: usize, const D: usize> Builder<'_, P, PW, H, C, M, N, D>
where
    P: PackedValue<Value: Sync>,
    PW: PackedValue<Value: Send + Sync>,
    H: CryptographicHasher<P, PW, D> + Sync,
    C: PseudoCompressionFunction<PW, N, D> + Sync,
    M: Matrix<P::Value> + Sync,
{
    /// The matrices of a height, each from the row `first` on.
    fn rows_from(&self, height: usize, first: usize) -> Result<Vec<RowsFrom<'_, M>>, AllocError> {
        let mut picked = Vec::new();
        let matrices = self.matrices.iter().filter(|matrix| matrix.height() == height);
        picked.try_extend(matrices.map(|matrix| RowsFrom { matrix, first }))?;
        Ok(picked)
    }

    /// How many of `count` nodes a thread gets, if rows of the matrices of a height are hashed for each, and so many
    /// groups are compressed.
    fn piece(&self, count: usize, height: usize, groups: usize) -> usize {
        let matrices = self.matrices.iter().filter(|matrix| matrix.height() == height);
        let words = matrices.fold(0usize, |words, matrix| words.saturating_add(matrix.width()));
        let bytes = words.saturating_mul(size_of::<P::Value>());
        let lanes = H::LANES.max(C::LANES).max(P::WIDTH);
        piece_of(count, bytes.saturating_add(groups * size_of::<[[PW::Value; D]; N]>()), lanes)
    }

    /// The leaves of a tree of this height.
    fn leaf_layer(&self, height: usize) -> Result<Vec<[PW::Value; D]>, AllocError> {
        let mut leaves = default_digests::<PW, D>(padded_len(height, N))?;
        in_pieces(&mut leaves[..height], 0, self.piece(height, height, 0), &|first, slots: &mut [[PW::Value; D]]| {
            let matrices = self.rows_from(height, first)?;
            let rows = LayerRows { hash: self.hash, matrices: &matrices, height: height - first, item: PhantomData };
            LayerRows::<P, PW, H, _, _>::fill(&rows, &mut Vec::new(), 0, slots)
        })?;
        Ok(leaves)
    }

    /// The layer of the shape `level`, which stands above `below`.
    fn next_layer(&self, level: LayerShape, below: &[[PW::Value; D]]) -> Result<Vec<[PW::Value; D]>, AllocError> {
        let mut slots = default_digests::<PW, D>(level.layer_len)?;
        let count = level.raw_len.min(level.layer_len);
        let piece = self.piece(count, level.height, 1 + usize::from(level.has_rows));
        in_pieces(&mut slots[..count], 0, piece, &|first, slots: &mut [[PW::Value; D]]| {
            // A piece is the layer of what is left of the matrices and of the layer below.
            let matrices = self.rows_from(level.height, first)?;
            let height = level.height.saturating_sub(first);
            let rows = LayerRows { hash: self.hash, matrices: &matrices, height, item: PhantomData };
            let below = &below[level.step * first..];
            let level =
                LayerShape { raw_len: level.raw_len - first, layer_len: level.layer_len - first, height, ..level };
            let compress = self.compress;
            let builder = LayerBuilder::<P, PW, H, C, _, N, D> { rows, compress, level, below, item: PhantomData };
            builder.fill(&mut Buffers::new(), slots)
        })?;
        Ok(slots)
    }

    /// All layers, from the leaves to the root.
    fn layers(&self, schedule: &Schedule<'_>) -> Result<Vec<Vec<[PW::Value; D]>>, AllocError> {
        let mut layers = Vec::with_room(schedule.num_levels + 1)?;
        layers.try_push(self.leaf_layer(schedule.max_height)?)?;
        let (mut exponent, mut len) = (schedule.exponent, schedule.max_height);
        for below in 0..schedule.num_levels {
            let level = schedule.layer_above(below, exponent, len);
            layers.try_push(self.next_layer(level, &layers[below])?)?;
            (exponent, len) = (level.exponent, level.raw_len);
        }
        Ok(layers)
    }
}

/// So many default digests.
fn default_digests<PW: PackedValue, const D: usize>(count: usize) -> Result<Vec<[PW::Value; D]>, AllocError> {
    let mut digests = Vec::new();
    digests.try_resize(count, [PW::Value::default(); D])?;
    Ok(digests)
}

/// Builds the tree that [`MerkleTree::new`] builds, with the same errors, on the threads of `rayon`'s current pool.
///
/// Each layer is split into pieces, and a thread reads, copies and hashes the rows of its pieces. The functions are
/// called as by `MerkleTree::new`, and need not be wrapped in [`Parallel`](super::Parallel).
///
/// The compiler refuses a call that breaks one of the conditions of `MerkleTree::new`.
///
/// # Panics
///
/// A panic of a function or of a matrix is a panic of this call. `rayon` panics where it cannot start its threads, and
/// allocates what it needs itself: want of memory there is not the error `OutOfMemory`, but ends the program.
pub fn tree<P, PW, H, C, M, const N: usize, const D: usize>(
    hash: &H,
    compress: &C,
    matrices: Vec<M>,
) -> Result<MerkleTree<P::Value, PW::Value, M, N, D>, MerkleTreeError>
where
    P: PackedValue<Value: Sync>,
    PW: PackedValue<Value: Send + Sync>,
    H: CryptographicHasher<P, PW, D> + Sync,
    C: PseudoCompressionFunction<PW, N, D> + Sync,
    M: Matrix<P::Value> + Sync,
{
    const { assert!(N.is_power_of_two() && 2 <= N && N <= 1 << 62, "arity") };
    const { assert!(P::WIDTH == PW::WIDTH, "lanes") };
    const { assert!(1 <= P::WIDTH, "some_lane") };
    let CheckedMatrices { matrices, dimensions, .. } = checked_matrices(matrices)?;
    let kept = OwnedSchedule::new(dimensions, N);
    let schedule = kept.schedule();
    let builder = Builder::<P, PW, H, C, M, N, D> { hash, compress, matrices: &matrices, item: PhantomData };
    // A call from outside the pool waits for one of its threads, so there is one such call, not one for each layer.
    let (layers, ()) = rayon::join(|| builder.layers(&schedule), || ());
    let layers = layers?;
    Ok(Tree { matrices, schedule: kept, layers, item: PhantomData })
}

/// Commits as [`MerkleTreeMmcs::commit`] does, with the same errors, on the threads of `rayon`'s current pool: see
/// [`tree`].
#[allow(clippy::type_complexity)]
pub fn commit<P, PW, H, C, M, const N: usize, const D: usize>(
    scheme: &MerkleTreeMmcs<P, PW, H, C, N, D>,
    matrices: Vec<M>,
) -> Result<(MerkleCap<P::Value, [PW::Value; D]>, MerkleTree<P::Value, PW::Value, M, N, D>), MerkleTreeError>
where
    P: PackedValue<Value: Sync>,
    PW: PackedValue<Value: Send + Sync>,
    H: CryptographicHasher<P, PW, D> + Sync,
    C: PseudoCompressionFunction<PW, N, D> + Sync,
    M: Matrix<P::Value> + Sync,
{
    let tree = tree::<P, PW, H, C, M, N, D>(&scheme.hash, &scheme.compress, matrices)?;
    let cap_layer = tree_schedule(&tree).cap_layer(scheme.cap_rule, scheme.cap_height);
    let cap = cap_at(&tree, cap_layer)?;
    Ok((cap, tree))
}
