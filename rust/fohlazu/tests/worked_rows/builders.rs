//! Trees that are built in different ways, and all their layers.

use crate::case::{Answer, Case, fields};
use crate::field::{Item, show_list};
use crate::matrices::{Word, matrices_in};
use fohlazu::hashes::{
    Batched3, FoldCompress, FoldHash, Lanes, Sha256Nodes, Sha256NodesInEights, Sha256Rows, Sha256RowsInEights, U32x8,
};
use fohlazu::merkle_tree::{MerkleCap, MerkleTree, MerkleTreeError};
use fohlazu::support::{CryptographicHasher, Matrix, PackedValue, PseudoCompressionFunction, RowMajorMatrix};

/// A tree over matrices of words `T`, with digests of `D` words.
type Tree<T, const N: usize, const D: usize> = MerkleTree<T, T, RowMajorMatrix<T>, N, D>;

/// The layers of a tree, the leaves first.
pub fn layers_of<T: Copy, M: Matrix<T>, const N: usize, const D: usize>(
    tree: &MerkleTree<T, T, M, N, D>,
) -> Result<Vec<MerkleCap<T, [T; D]>>, MerkleTreeError> {
    (0..tree.num_layers()).rev().map(|below| tree.cap(below)).collect()
}

/// The tree over some matrices that the builders of these functions and packed values make.
fn built<
    T: Word,
    P: PackedValue<Value = T>,
    H: CryptographicHasher<P, P, D>,
    C: PseudoCompressionFunction<P, N, D>,
    const N: usize,
    const D: usize,
>(
    hash: &H,
    compress: &C,
    matrices: &str,
) -> Result<Tree<T, N, D>, MerkleTreeError> {
    MerkleTree::new::<P, P, H, C>(hash, compress, matrices_in(matrices))
}

/// How many layers a tree has, and their digest by SHA-256: of the digests of each with a space between, and an LF
/// after them, from the root to the leaves. Fails where another tree has other layers.
fn show_layers<T: Word, const N: usize, const D: usize>(tree: &Tree<T, N, D>, others: &[Tree<T, N, D>]) -> Answer
where
    [T; D]: Item,
{
    let layers = layers_of(tree)?;
    for (place, other) in others.iter().enumerate() {
        assert!(layers_of(other)? == layers, "builder {} makes another layer", place + 1);
    }
    let mut text = tree.root().value().show() + "\n";
    for layer in layers.iter().rev().skip(1) {
        text += &(show_list(layer.roots()) + "\n");
    }
    Ok(fields([layers.len().to_string(), Sha256Rows.hash_slice(text.as_bytes()).show()]))
}

/// `layers | ARITY | MATRICES | LAYERS | DIGEST`: how many layers a tree has, and their digest. A clone of the tree has
/// the same layers. So has the tree that each other builder makes: in lanes of two and of eight, in batches of eight and
/// of three.
pub fn layers<const N: usize>(case: &mut Case<'_>) -> Answer {
    let matrices = case.take();
    let (hash, compress) = (FoldHash::<1>, FoldCompress::<N, 1>);
    let tree = built::<u32, u32, _, _, N, 1>(&hash, &compress, matrices)?;
    let others = [
        tree.try_clone()?,
        built::<u32, Lanes<u32>, _, _, N, 1>(&hash, &compress, matrices)?,
        built::<u32, U32x8, _, _, N, 1>(&hash, &compress, matrices)?,
        built::<u32, u32, _, _, N, 1>(&FoldHash::<8>, &FoldCompress::<N, 8>, matrices)?,
        built::<u32, u32, _, _, N, 1>(&Batched3(hash), &Batched3(compress), matrices)?,
    ];
    show_layers(&tree, &others)
}

/// `sha256_layers | ARITY | MATRICES | LAYERS | DIGEST`: the same of trees over bytes, one message at a time, in eights
/// and by three.
pub fn sha256_layers<const N: usize>(case: &mut Case<'_>) -> Answer {
    let matrices = case.take();
    let (hash, compress) = (Sha256Rows, Sha256Nodes::<N>);
    let tree = built::<u8, u8, _, _, N, 32>(&hash, &compress, matrices)?;
    let others = [
        tree.try_clone()?,
        built::<u8, u8, _, _, N, 32>(&Sha256RowsInEights, &Sha256NodesInEights::<N>, matrices)?,
        built::<u8, u8, _, _, N, 32>(&Batched3(hash), &Batched3(compress), matrices)?,
    ];
    show_layers(&tree, &others)
}
