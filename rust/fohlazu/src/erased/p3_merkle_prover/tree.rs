// Made from crates/p3_merkle_prover/src/tree.rt by tools/erase.

//! The tree over a batch of matrices.

use crate::erased::p3_merkle_core::error::MerkleTreeError;
use crate::erased::p3_merkle_core::schedule::OwnedSchedule;
use crate::erased::p3_merkle_prover::checked::{checked_matrices, tree_over};
use crate::erased::p3_merkle_prover::opener::cap_at;
use crate::erased::p3_support::compress::PseudoCompressionFunction;
use crate::erased::p3_support::hasher::CryptographicHasher;
use crate::erased::p3_support::matrix::Matrix;
use crate::erased::p3_support::opening::{Hash, MerkleCap};
use crate::erased::p3_support::packed::PackedValue;
use crate::fallible::{AllocError, TryClone, VecExt};
use alloc::vec::Vec;
use core::marker::PhantomData;

/// A Merkle tree over matrices `M` of values `F`: digests `X` in layers, from the leaves to the root, where each node
/// is a compression of a group `G` of `N` digests. [`MerkleTree`] is this tree at digests of words.
///
/// The heights of its matrices are lawful, and its layers have the lengths that those heights give. It stores the steps
/// between them, so that no opening computes them again.
#[derive(Debug)]
pub struct Tree<F, X, G, M, const N: usize> {
    pub(crate) matrices: Vec<M>,
    pub(crate) schedule: OwnedSchedule,
    pub(crate) layers: Vec<Vec<X>>,
    pub(crate) item: PhantomData<(F, G)>,
}

/// A tree over matrices of values `F`, with digests of `D` words `W`, where a node has at most `N` children
/// (`MerkleTree` in Plonky3).
pub type MerkleTree<F, W, M, const N: usize, const D: usize> = Tree<F, [W; D], [[W; D]; N], M, N>;

impl<F: Copy, W: Copy, M: Matrix<F>, const N: usize, const D: usize> MerkleTree<F, W, M, N, D> {
    /// Builds the tree over matrices, which it owns from then on, in input order. Leaf `i` is the digest of the rows
    /// `i` of the tallest matrices, one after another. A node above is the compression of its children. Each other
    /// matrix belongs to a layer by its height: there a node's digest is compressed once more, with that of its rows.
    /// Default digests stand for missing children, for rows past the end of a matrix, and as padding.
    ///
    /// `N` must be a power of two from 2 to 2^62, and both packings must have equally many lanes, at least one.
    ///
    /// `LANES` and the packings decide which calls fill a layer, and the tree does not depend on them:
    ///
    /// - The leaves are hashed in batches (`hash_many`) if the hasher's `LANES` are above 1.
    /// - A layer above them is compressed in batches (`compress_many`) if the compression's `LANES` are above 1; if
    ///   matrices belong to it, the hasher's must be, too, and their rows are hashed in batches.
    /// - Every other layer is filled lane by lane (`hash_packed`, `compress_packed`), `WIDTH` digests a call, as far as
    ///   they fill all lanes, and then in batches; if `WIDTH` is 1 in batches alone.
    ///
    /// A batch may be a single row: `hash_slice` hashes it, or `hash_iter_slices` if a lone matrix stores it in two
    /// pieces.
    ///
    /// # Errors
    ///
    /// The first of these that applies, where `OutOfMemory` may come at any time:
    ///
    /// - `EmptyBatch` if no matrix has a row;
    /// - `TooLarge` for the first height above 2^62;
    /// - `IncompatibleHeights` for the first height that is not the tallest one halved and rounded up some number of
    ///   times.
    ///
    /// The compiler refuses a call that breaks one of these:
    ///
    /// - `arity`: `N.is_power_of_two() && 2 <= N && N <= 1 << 62`.
    /// - `lanes`: `P::WIDTH == PW::WIDTH`.
    /// - `some_lane`: `1 <= P::WIDTH`.
    pub fn new<
        P: PackedValue<Value = F>,
        PW: PackedValue<Value = W>,
        H: CryptographicHasher<P, PW, D>,
        C: PseudoCompressionFunction<PW, N, D>,
    >(
        hash: &H,
        compress: &C,
        leaves: Vec<M>,
    ) -> Result<Self, MerkleTreeError> {
        const { assert!(N.is_power_of_two() && 2 <= N && N <= 1 << 62, "arity") };
        const { assert!(P::WIDTH == PW::WIDTH, "lanes") };
        const { assert!(1 <= P::WIDTH, "some_lane") };
        let checked = checked_matrices(leaves)?;
        let tree = tree_over::<P, PW, H, C, M, N, D>(hash, compress, checked)?;
        Ok(tree)
    }
}

impl<F: Copy, W: Copy, M: Matrix<F>, const N: usize, const D: usize> MerkleTree<F, W, M, N, D> {
    /// The root: the one node of the last layer.
    pub fn root(&self) -> Hash<'_, F, W, D> {
        let top = &self.layers[self.num_layers() - 1];
        Hash::from(&top[0])
    }

    /// The number of layers, leaves and root included. It is at least 1.
    pub fn num_layers(&self) -> usize {
        self.layers.len()
    }

    /// The cap of this height: the whole layer `cap_height` levels below the root, padding included. `cap_height` must
    /// be below `num_layers()`; 0 is the root alone.
    ///
    /// # Errors
    ///
    /// Only `OutOfMemory`.
    ///
    /// # Panics
    ///
    /// - By `cap_height_in` unless `cap_height < self.num_layers()`.
    pub fn cap(&self, cap_height: usize) -> Result<MerkleCap<F, [W; D]>, MerkleTreeError> {
        assert!(cap_height < self.num_layers(), "cap_height_in");
        let cap = cap_at(self, self.num_layers() - 1 - cap_height)?;
        Ok(cap)
    }

    /// A tree with clones of the matrices, and the same layers. A clone of a matrix must have the same height, width
    /// and rows. The copy opens what the tree opens.
    ///
    /// # Errors
    ///
    /// `AllocError` if memory runs out.
    pub fn try_clone(&self) -> Result<Self, AllocError>
    where
        M: TryClone,
    {
        Ok(Tree {
            matrices: self.matrices.try_clone()?,
            schedule: self.schedule.try_clone()?,
            layers: copies_of(&self.layers)?,
            item: PhantomData,
        })
    }
}

/// A copy of each layer, in order. `AllocError` if memory runs out.
fn copies_of<X: Copy>(layers: &[Vec<X>]) -> Result<Vec<Vec<X>>, AllocError> {
    let mut copies = Vec::with_room(layers.len())?;
    for nodes in layers {
        copies.try_push(Vec::try_from_slice(nodes)?)?;
    }
    Ok(copies)
}
