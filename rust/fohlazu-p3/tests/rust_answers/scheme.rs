//! The answers of a scheme, which is any by the trait `Mmcs` for the calls that this trait has.

use crate::numbers::{Numbers, Part};
use crate::table::Table;
use fohlazu::support::Matrix as _;
use p3_commit::{BatchOpeningRef, Mmcs};
use p3_field::{Packable, PackedValue};
use p3_matrix::{Dimensions, Matrix};
use p3_merkle_tree::{MerkleAuthPath, MerkleCap, MerkleTreeError, MerkleTreeMmcs, PrunedMerklePaths};
use p3_symmetric::{CryptographicHasher, PseudoCompressionFunction};
use serde::Serialize;
use serde::de::DeserializeOwned;
use std::fmt::Debug;

/// A word of rows and digests.
pub trait Word: Packable + Part + Debug + Serialize + DeserializeOwned {}

impl Word for u32 {}

impl Word for u8 {}

/// An answer: numbers, or why there are none.
pub type Answer = Result<Vec<u64>, MerkleTreeError>;

/// `HEIGHT WIDTH`.
impl Part for Dimensions {
    fn read(numbers: &mut Numbers<'_>) -> Dimensions {
        let (height, width) = numbers.read();
        Dimensions { width, height }
    }

    fn write(&self, answer: &mut Vec<u64>) {
        (self.height, self.width).write(answer);
    }
}

impl<W: Part, const D: usize> Part for PrunedMerklePaths<W, D> {
    fn read(numbers: &mut Numbers<'_>) -> PrunedMerklePaths<W, D> {
        PrunedMerklePaths { sibling_hashes: numbers.read() }
    }

    fn write(&self, answer: &mut Vec<u64>) {
        self.sibling_hashes.write(answer);
    }
}

impl<W: Part, const D: usize> Part for MerkleAuthPath<W, D> {
    fn read(numbers: &mut Numbers<'_>) -> MerkleAuthPath<W, D> {
        let (leaf_index, siblings) = numbers.read();
        MerkleAuthPath { leaf_index, siblings }
    }

    fn write(&self, answer: &mut Vec<u64>) {
        self.leaf_index.write(answer);
        self.siblings.write(answer);
    }
}

impl<T: Word> Matrix<T> for Table<T> {
    fn width(&self) -> usize {
        fohlazu::support::Matrix::width(self)
    }

    fn height(&self) -> usize {
        fohlazu::support::Matrix::height(self)
    }

    unsafe fn get_unchecked(&self, r: usize, c: usize) -> T {
        self.piece(r, c)[0]
    }

    unsafe fn row_unchecked(
        &self,
        r: usize,
    ) -> impl IntoIterator<Item = T, IntoIter = impl Iterator<Item = T> + Send + Sync> {
        self.piece(r, 0)[..Matrix::width(self)].iter().copied()
    }
}

/// The answer that is a value.
fn answer_of<V: Part>(value: &V) -> Answer {
    let mut answer = Vec::new();
    value.write(&mut answer);
    Ok(answer)
}

/// Reads the matrices at the end of a case.
fn tables_in<T: Part>(mut numbers: Numbers<'_>) -> Vec<Table<T>> {
    let tables = numbers.read();
    numbers.end();
    tables
}

/// The answer of a scheme to a call that schemes have with salts and without. A verdict has no numbers:
///
/// - `commit MATRICES`: the cap
/// - `open INDEX MATRICES`: the rows of the index, and their proof
/// - `prune INDICES MATRICES`: the rows of each index, and one proof of them
/// - `verify CAP DIMENSIONS INDEX ROWS PROOF`
/// - `vprune CAP DIMENSIONS INDICES SETS PROOF`
pub fn answer_to_shared<
    T: Word,
    X: Part + Copy,
    S: Mmcs<T, Commitment = MerkleCap<T, X>, Error = MerkleTreeError, Proof: Part, MultiProof: Part>,
>(
    scheme: &S,
    call: &str,
    mut numbers: Numbers<'_>,
) -> Answer {
    match call {
        "commit" => {
            let (cap, _) = scheme.commit(tables_in(numbers));
            answer_of(&cap.roots().to_vec())
        }
        "open" => {
            let index = numbers.read();
            let (_, tree) = scheme.commit(tables_in(numbers));
            answer_of(&scheme.open_batch(index, &tree).unpack())
        }
        "prune" => {
            let indices: Vec<usize> = numbers.read();
            let (_, tree) = scheme.commit(tables_in(numbers));
            answer_of(&scheme.open_multi_batch(&indices, &tree))
        }
        "verify" => {
            let (cap, dimensions): (_, Vec<Dimensions>) = (MerkleCap::new(numbers.read()), numbers.read());
            let (index, rows, proof): (_, Vec<_>, _) = (numbers.read(), numbers.read(), numbers.read());
            numbers.end();
            scheme.verify_batch(&cap, &dimensions, index, BatchOpeningRef::new(&rows, &proof))?;
            Ok(Vec::new())
        }
        "vprune" => {
            let (cap, dimensions): (_, Vec<Dimensions>) = (MerkleCap::new(numbers.read()), numbers.read());
            let (indices, rows, proof): (Vec<_>, Vec<Vec<Vec<T>>>, _) =
                (numbers.read(), numbers.read(), numbers.read());
            numbers.end();
            scheme.verify_multi_batch(&cap, &dimensions, &indices, &rows, &proof)?;
            Ok(Vec::new())
        }
        _ => panic!("no call: {call}"),
    }
}

/// The answer of a scheme to a call that plain schemes alone have:
///
/// - `layers MATRICES`: each layer, the leaves first
/// - `restore DIMENSIONS INDICES SETS PROOF`: the path of each index
/// - `schedule DIMENSIONS`: the steps
/// - `replay DIMENSIONS INDEX NUM_SIBLINGS`: the steps, and the positions of the path
pub fn answer_to_plain<T, P, H, C, const N: usize, const D: usize>(
    scheme: &MerkleTreeMmcs<P, P, H, C, N, D>,
    call: &str,
    mut numbers: Numbers<'_>,
) -> Answer
where
    T: Word,
    P: PackedValue<Value = T>,
    H: CryptographicHasher<T, [T; D]> + CryptographicHasher<P, [P; D]> + Sync,
    C: PseudoCompressionFunction<[T; D], N> + PseudoCompressionFunction<[P; D], N> + Sync,
    [T; D]: Serialize + DeserializeOwned,
{
    if call == "layers" {
        let (_, tree) = scheme.commit(tables_in::<T>(numbers));
        let cap = |cap_height| tree.cap(cap_height).roots().to_vec();
        let layers: Vec<Vec<[T; D]>> = (0..tree.num_layers()).rev().map(cap).collect();
        assert_eq!(Some([tree.root().into()].as_slice()), layers.last().map(Vec::as_slice));
        return answer_of(&layers);
    }
    let dimensions: Vec<Dimensions> = numbers.read();
    match call {
        "schedule" => {
            numbers.end();
            answer_of(&scheme.proof_arity_schedule(&dimensions)?)
        }
        "replay" => {
            let (index, count) = numbers.read();
            numbers.end();
            let path = scheme.replay_arity_and_positions(&dimensions, index, count)?;
            answer_of(&(path.arity_schedule, path.query_positions))
        }
        "restore" => {
            let (indices, rows): (Vec<usize>, Vec<Vec<Vec<T>>>) = numbers.read();
            let proof: PrunedMerklePaths<T, D> = numbers.read();
            numbers.end();
            answer_of(&scheme.restore_and_recompute_paths(&dimensions, &indices, &rows, &proof)?)
        }
        _ => panic!("no call: {call}"),
    }
}
