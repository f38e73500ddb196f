//! Commits with the feature `parallel`: several threads hash, and layers, caps and openings are those of one thread.
//! What verifies hashes on the caller's thread.

use fohlazu::hashes::{FoldCompress, FoldHash};
use fohlazu::{merkle_tree, support};
use p3_commit::{BatchOpeningRef, Mmcs};
use p3_matrix::dense::RowMajorMatrix;
use p3_matrix::{Dimensions, Matrix};
use p3_merkle_tree::{MerkleTree, MerkleTreeHidingMmcs, MerkleTreeMmcs};
use p3_symmetric::{CryptographicHasher, PseudoCompressionFunction};
use rand::SeedableRng;
use std::collections::HashSet;
use std::sync::{Arc, Mutex};
use std::thread::{self, ThreadId};

#[path = "../../fohlazu/tests/common/mod.rs"]
mod common;

use common::ChaCha20;

/// The fold functions, which note the threads that call them: those that hash rows, and those that compress.
#[derive(Clone, Debug, Default)]
struct Noting(Arc<Mutex<[HashSet<ThreadId>; 2]>>);

impl Noting {
    /// Notes a caller.
    fn note(&self, place: usize) {
        self.0.lock().unwrap()[place].insert(thread::current().id());
    }

    /// The callers since the last call of this.
    fn take(&self) -> [HashSet<ThreadId>; 2] {
        std::mem::take(&mut *self.0.lock().unwrap())
    }
}

impl CryptographicHasher<u32, [u32; 2]> for Noting {
    fn hash_iter<I: IntoIterator<Item = u32>>(&self, input: I) -> [u32; 2] {
        self.note(0);
        support::CryptographicHasher::<u32, u32, 2>::hash_iter(&FoldHash::<1>, input.into_iter())
    }
}

impl PseudoCompressionFunction<[u32; 2], 2> for Noting {
    fn compress(&self, input: [[u32; 2]; 2]) -> [u32; 2] {
        self.note(1);
        support::PseudoCompressionFunction::<u32, 2, 2>::compress(&FoldCompress::<2, 1>, input)
    }
}

/// Three matrices, whose tallest has more rows than a builder gives to one call.
const DIMENSIONS: [Dimensions; 3] = [
    Dimensions { width: 3, height: 40_000 },
    Dimensions { width: 1, height: 40_000 },
    Dimensions { width: 5, height: 5_000 },
];

/// The words of the matrix of a place.
fn words(place: usize) -> Vec<u32> {
    let Dimensions { width, height } = DIMENSIONS[place];
    (0..(width * height) as u32).map(|number| number.wrapping_mul(number) ^ place as u32).collect()
}

/// The matrices.
fn matrices() -> Vec<RowMajorMatrix<u32>> {
    (0..3).map(|place| RowMajorMatrix::new(words(place), DIMENSIONS[place].width)).collect()
}

/// Verifies the opening of an index.
fn accepts<S: Mmcs<u32>>(scheme: &S, cap: &S::Commitment, index: usize, rows: &[Vec<u32>], proof: &S::Proof) -> bool {
    scheme.verify_batch(cap, &DIMENSIONS, index, BatchOpeningRef::new(rows, proof)).is_ok()
}

#[test]
fn a_plain_commit_is_that_of_one_thread() {
    let noting = Noting::default();
    let scheme = MerkleTreeMmcs::<u32, u32, _, _, 2, 2>::new(noting.clone(), noting.clone(), 3);
    let (cap, data) = scheme.commit(matrices());
    assert!(noting.take().iter().all(|callers| callers.len() > 1));
    let tree = MerkleTree::<u32, u32, _, 2, 2>::new::<u32, u32, _, _>(&noting, &noting, matrices());
    assert!(noting.take().iter().all(|callers| callers.len() > 1));

    let serial = merkle_tree::MerkleTreeMmcs::<u32, u32, _, _, 2, 2>::new(FoldHash::<1>, FoldCompress::<2, 1>, 3);
    let serial_matrices = (0..3).map(|place| support::RowMajorMatrix::new(words(place), DIMENSIONS[place].width));
    let (serial_cap, serial_data) = serial.commit(serial_matrices.collect()).unwrap();
    assert_eq!(cap.roots(), serial_cap.roots());
    assert_eq!(data.num_layers(), serial_data.num_layers());
    for height in 0..data.num_layers() {
        let layer = serial_data.cap(height).unwrap();
        assert_eq!((data.cap(height).roots(), tree.cap(height).roots()), (layer.roots(), layer.roots()));
    }
    for index in [0, 16_383, 16_384, 39_999] {
        let (rows, proof) = scheme.open_batch(index, &data).unpack();
        let opened = serial.open_batch(index, &serial_data).unwrap();
        assert_eq!((&rows, &proof), (&opened.opened_values, &opened.opening_proof));
        assert!(accepts(&scheme, &cap, index, &rows, &proof));
    }
    let here = HashSet::from([thread::current().id()]);
    assert_eq!(noting.take(), [here.clone(), here]);
}

#[test]
fn a_salted_commit_is_on_threads() {
    let noting = Noting::default();
    let salts = ChaCha20::from_seed([7; 32]);
    let scheme = MerkleTreeHidingMmcs::<u32, u32, _, _, _, 2, 2, 4>::new(noting.clone(), noting.clone(), 0, salts);
    let (cap, data) = scheme.commit(matrices());
    assert!(noting.take().iter().all(|callers| callers.len() > 1));
    for index in [0, 16_383, 16_384, 39_999] {
        let (rows, proof) = scheme.open_batch(index, &data).unpack();
        assert_eq!(rows[0], matrices()[0].row(index).unwrap().into_iter().collect::<Vec<_>>());
        assert!(accepts(&scheme, &cap, index, &rows, &proof));
    }
    let here = HashSet::from([thread::current().id()]);
    assert_eq!(noting.take(), [here.clone(), here]);
}

/// A hasher that refuses rows which begin with a word.
#[derive(Clone, Copy, Debug)]
struct Refusing(u32);

impl CryptographicHasher<u32, [u32; 2]> for Refusing {
    fn hash_iter<I: IntoIterator<Item = u32>>(&self, input: I) -> [u32; 2] {
        let first = input.into_iter().next().unwrap();
        assert!(first != self.0, "a refused row");
        [first, 0]
    }
}

#[test]
#[should_panic(expected = "a refused row")]
fn a_panic_of_a_hasher_is_a_panic_of_the_commit() {
    let refusing = Refusing(words(0)[3 * 39_999]);
    MerkleTreeMmcs::<u32, u32, _, _, 2, 2>::new(refusing, Noting::default(), 0).commit(matrices());
}
