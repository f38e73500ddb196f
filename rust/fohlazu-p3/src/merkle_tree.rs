//! The tree over a batch of matrices.

use crate::adapt::{Compression, Hasher, Owned, Packed};
use crate::error::built;
use alloc::vec::Vec;
use core::fmt;
use fohlazu::merkle_tree::Tree;
use p3_field::PackedValue;
use p3_matrix::Matrix;
use p3_symmetric::{CryptographicHasher, Hash, MerkleCap, PseudoCompressionFunction};

/// A Merkle tree over matrices `M` of words `F`, with digests of `DIGEST_ELEMS` words `W`, where a node has at most `N`
/// children.
pub struct MerkleTree<F, W, M, const N: usize, const DIGEST_ELEMS: usize> {
    pub(crate) proved: Tree<F, [W; DIGEST_ELEMS], [[W; DIGEST_ELEMS]; N], Owned<M>, N>,
}

impl<F: fmt::Debug, W: fmt::Debug, M: fmt::Debug, const N: usize, const DIGEST_ELEMS: usize> fmt::Debug
    for MerkleTree<F, W, M, N, DIGEST_ELEMS>
{
    fn fmt(&self, f: &mut fmt::Formatter<'_>) -> fmt::Result {
        f.debug_tuple("MerkleTree").field(&self.proved).finish()
    }
}

impl<F, W, M, const N: usize, const DIGEST_ELEMS: usize> Clone for MerkleTree<F, W, M, N, DIGEST_ELEMS>
where
    F: Copy + Send + Sync,
    W: Copy,
    M: Matrix<F> + Clone,
{
    fn clone(&self) -> Self {
        MerkleTree { proved: self.proved.try_clone().unwrap_or_else(|error| panic!("{error}")) }
    }
}

impl<F, W, M, const N: usize, const DIGEST_ELEMS: usize> MerkleTree<F, W, M, N, DIGEST_ELEMS>
where
    F: Copy + Send + Sync,
    W: Copy,
    M: Matrix<F>,
{
    /// Builds the tree over matrices, which it owns from then on.
    ///
    /// # Panics
    ///
    /// - If no matrix has a row.
    /// - If a height is above 2^62, or is not the tallest one halved and rounded up some number of times.
    /// - If memory runs out.
    pub fn new<P, PW, H, C>(h: &H, c: &C, leaves: Vec<M>) -> Self
    where
        P: PackedValue<Value = F>,
        PW: PackedValue<Value = W>,
        H: CryptographicHasher<F, [W; DIGEST_ELEMS]> + CryptographicHasher<P, [PW; DIGEST_ELEMS]> + Sync,
        C: PseudoCompressionFunction<[W; DIGEST_ELEMS], N> + PseudoCompressionFunction<[PW; DIGEST_ELEMS], N> + Sync,
    {
        assert!(!leaves.is_empty(), "No matrices given?");
        tree_over::<P, PW, H, C, M, N, DIGEST_ELEMS>(h, c, leaves)
    }

    /// The root.
    #[must_use]
    pub fn root(&self) -> Hash<F, W, DIGEST_ELEMS> {
        (*self.proved.root().value()).into()
    }

    /// The cap of this height: the whole layer `cap_height` levels below the root. This copies it.
    ///
    /// # Panics
    ///
    /// If there is no such layer, or memory runs out.
    #[must_use]
    pub fn cap(&self, cap_height: usize) -> MerkleCap<F, [W; DIGEST_ELEMS]> {
        let num_layers = self.num_layers();
        assert!(cap_height < num_layers, "cap_height {cap_height} exceeds tree depth {num_layers}");
        cap_of(built(self.proved.cap(cap_height)))
    }

    /// The number of layers, leaves and root included.
    #[must_use]
    pub fn num_layers(&self) -> usize {
        self.proved.num_layers()
    }
}

/// Builds the tree over matrices: on the threads of rayon with the feature `parallel`, else on this one.
fn tree_over<P, PW, H, C, M, const N: usize, const D: usize>(
    hash: &H,
    compress: &C,
    leaves: Vec<M>,
) -> MerkleTree<P::Value, PW::Value, M, N, D>
where
    P: PackedValue,
    PW: PackedValue,
    H: CryptographicHasher<P::Value, [PW::Value; D]> + CryptographicHasher<P, [PW; D]> + Sync,
    C: PseudoCompressionFunction<[PW::Value; D], N> + PseudoCompressionFunction<[PW; D], N> + Sync,
    M: Matrix<P::Value>,
{
    let (hash, compress, leaves) =
        (&Hasher(hash), &Compression(compress), leaves.into_iter().map(Owned::new).collect());
    #[cfg(feature = "parallel")]
    let tree = fohlazu::parallel::tree::<Packed<P>, Packed<PW>, _, _, _, N, D>(hash, compress, leaves);
    #[cfg(not(feature = "parallel"))]
    let tree = Tree::new::<Packed<P>, Packed<PW>, _, _>(hash, compress, leaves);
    MerkleTree { proved: built(tree) }
}

/// A cap in Plonky3's type.
pub(crate) fn cap_of<F, X>(cap: fohlazu::merkle_tree::MerkleCap<F, X>) -> MerkleCap<F, X> {
    MerkleCap::new(cap.into_roots())
}
