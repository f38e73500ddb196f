// Made from crates/p3_merkle_prover/src/layers.rt by tools/erase.

//! The layers of a tree, one above the other, from the leaves to the root.
//!
//! Each matrix belongs to one layer by its height, the tallest to the leaves. The matrices of a layer are picked once,
//! and its rows are read from those alone.

use crate::erased::p3_merkle_core::geometry::padded_len;
use crate::erased::p3_merkle_core::layer_shape::LayerShape;
use crate::erased::p3_merkle_core::schedule::Schedule;
use crate::erased::p3_merkle_hashing::rows::LayerRows;
use crate::erased::p3_merkle_prover::layer::{Buffers, LayerBuilder};
use crate::erased::p3_support::compress::PseudoCompressionFunction;
use crate::erased::p3_support::hasher::CryptographicHasher;
use crate::erased::p3_support::matrix::Matrix;
use crate::erased::p3_support::packed::PackedValue;
use crate::fallible::{AllocError, VecExt};
use alloc::vec::Vec;
use core::marker::PhantomData;

/// Builds the layers of a tree, with a hasher for rows and a compression of `N` digests for nodes. `G` is the type of a
/// group. [`MerkleTreeBuilder`] is this builder at digests of words.
///
/// `N` is a power of two from 2 to 2^62, [`check_heights`](crate::erased::p3_merkle_core::gate::check_heights) accepts the heights,
/// and both packings have equally many lanes.
pub(crate) struct GenericTreeBuilder<
    'a,
    P: PackedValue,
    PW: PackedValue,
    H: CryptographicHasher<P, PW, D>,
    C: PseudoCompressionFunction<PW, N, D>,
    M: Matrix<P::Value>,
    G,
    const N: usize,
    const D: usize,
> {
    /// The hasher of rows.
    pub hash: &'a H,
    /// The compression of the children of a node.
    pub compress: &'a C,
    /// The matrices, in input order.
    pub matrices: &'a [M],
    /// The steps of the tree.
    pub schedule: &'a Schedule<'a>,
    /// Marks the packings of words and the type of a group.
    pub item: PhantomData<(P, PW, G)>,
}

/// The builder of layers whose digests have `D` words.
pub(crate) type MerkleTreeBuilder<
    'a,
    P: PackedValue,
    PW: PackedValue,
    H: CryptographicHasher<P, PW, D>,
    C: PseudoCompressionFunction<PW, N, D>,
    M: Matrix<P::Value>,
    const N: usize,
    const D: usize,
> = GenericTreeBuilder<'a, P, PW, H, C, M, [[PW::Value; D]; N], N, D>;

/// Replaces the contents of `picked` by the matrices that have `height` rows, in input order. `AllocError` if memory
/// runs out.
fn pick_matrices<'a, T, M: Matrix<T>>(
    picked: &mut Vec<&'a M>,
    matrices: &'a [M],
    height: usize,
) -> Result<(), AllocError> {
    picked.clear();
    picked.try_extend(matrices.iter().filter(|matrix| matrix.height() == height))
}

/// A list of `count` default digests. `AllocError` if memory runs out.
fn default_digests<PW: PackedValue, const D: usize>(count: usize) -> Result<Vec<[PW::Value; D]>, AllocError> {
    let mut digests = Vec::new();
    digests.try_resize(count, [PW::Value::default(); D])?;
    Ok(digests)
}

impl<
    'a,
    P: PackedValue,
    PW: PackedValue,
    H: CryptographicHasher<P, PW, D>,
    C: PseudoCompressionFunction<PW, N, D>,
    M: Matrix<P::Value>,
    const N: usize,
    const D: usize,
> MerkleTreeBuilder<'a, P, PW, H, C, M, N, D>
{
    /// The leaves: the digests of the rows of the tallest matrices, then default digests. `picked` and `buffers` are
    /// scratch memory that all layers share. `AllocError` if memory runs out.
    fn leaf_layer(
        &self,
        picked: &mut Vec<&'a M>,
        buffers: &mut Buffers<P::Value, [PW::Value; D], [[PW::Value; D]; N]>,
    ) -> Result<Vec<[PW::Value; D]>, AllocError> {
        let height = self.schedule.max_height;
        pick_matrices(picked, self.matrices, height)?;
        let rows = LayerRows { hash: self.hash, matrices: picked.as_slice(), height, item: PhantomData };
        let mut leaves = default_digests::<PW, D>(padded_len(height, N))?;
        rows.fill(&mut buffers.staged, 0, &mut leaves)?;
        Ok(leaves)
    }

    /// The layer of the shape `level`, which stands above `below`. `below` must have the children of each node of that
    /// layer. `picked` and `buffers` are scratch memory that all layers share. `AllocError` if memory runs out.
    fn next_layer(
        &self,
        picked: &mut Vec<&'a M>,
        buffers: &mut Buffers<P::Value, [PW::Value; D], [[PW::Value; D]; N]>,
        level: LayerShape,
        below: &[[PW::Value; D]],
    ) -> Result<Vec<[PW::Value; D]>, AllocError> {
        pick_matrices(picked, self.matrices, level.height)?;
        let rows = LayerRows { hash: self.hash, matrices: picked.as_slice(), height: level.height, item: PhantomData };
        let builder =
            LayerBuilder::<P, PW, H, C, &M, N, D> { rows, compress: self.compress, level, below, item: PhantomData };
        let mut slots = default_digests::<PW, D>(level.layer_len)?;
        builder.fill(buffers, &mut slots)?;
        Ok(slots)
    }

    /// All layers, from the leaves to the root.
    ///
    /// # Errors
    ///
    /// `AllocError` if memory runs out.
    pub(crate) fn layers(&self) -> Result<Vec<Vec<[PW::Value; D]>>, AllocError> {
        let mut exponent = self.schedule.exponent;
        let mut len = self.schedule.max_height;
        let mut picked = Vec::new();
        let mut buffers = Buffers::new();
        let leaves = self.leaf_layer(&mut picked, &mut buffers)?;
        let mut layers = Vec::with_room(self.schedule.num_levels + 1)?;
        layers.try_push(leaves)?;
        for below in 0..self.schedule.num_levels {
            let level = self.schedule.layer_above(below, exponent, len);
            let nodes = layers[below].as_slice();
            let layer = self.next_layer(&mut picked, &mut buffers, level, nodes)?;
            layers.try_push(layer)?;
            exponent = level.exponent;
            len = level.raw_len;
        }
        Ok(layers)
    }
}
