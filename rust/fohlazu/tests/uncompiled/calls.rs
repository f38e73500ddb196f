// What each program of main.rs begins with: a hasher and a compression for words of any packing, and the calls that
// assert conditions where they are compiled.

#![allow(unused_imports)]

use fohlazu::hashes::Lanes;
use fohlazu::merkle_tree::{CapRule, MerkleTree, MerkleTreeHidingMmcs, MerkleTreeMmcs};
use fohlazu::support::{CryptographicHasher, PackedValue, PseudoCompressionFunction, RowMajorMatrix};

/// The digest of every message and of every group is the default word.
struct Toy;

impl<P: PackedValue, PW: PackedValue> CryptographicHasher<P, PW, 1> for Toy {
    const LANES: usize = 1;
    const PREFER_CONTIGUOUS_INPUT: bool = false;

    fn hash_iter<I: Iterator<Item = P::Value>>(&self, _input: I) -> [PW::Value; 1] {
        Default::default()
    }

    fn hash_slice(&self, _input: &[P::Value]) -> [PW::Value; 1] {
        Default::default()
    }

    fn hash_iter_slices<S: AsRef<[P::Value]>, I: Iterator<Item = S>>(&self, _input: I) -> [PW::Value; 1] {
        Default::default()
    }

    fn hash_packed<I: Iterator<Item = P>>(&self, _input: I) -> [PW; 1] {
        [PW::broadcast(Default::default())]
    }
}

impl<PW: PackedValue, const N: usize> PseudoCompressionFunction<PW, N, 1> for Toy {
    const LANES: usize = 1;

    fn compress(&self, _input: [[PW::Value; 1]; N]) -> [PW::Value; 1] {
        Default::default()
    }

    fn compress_packed(&self, _input: [[PW; 1]; N]) -> [PW; 1] {
        [PW::broadcast(Default::default())]
    }
}

/// Words in no lane at all.
#[derive(Clone, Copy)]
struct NoLane;

impl PackedValue for NoLane {
    type Value = u32;
    const WIDTH: usize = 0;

    fn broadcast(_value: u32) -> NoLane {
        NoLane
    }

    fn lane(&self, _k: usize) -> u32 {
        0
    }

    fn with_lane(self, _k: usize, _value: u32) -> NoLane {
        self
    }
}

/// `MerkleTree::new`.
fn tree<P: PackedValue<Value = u32>, PW: PackedValue<Value = u32>, const N: usize>() {
    let matrix = RowMajorMatrix::new(vec![1, 2, 3], 1);
    MerkleTree::<u32, u32, _, N, 1>::new::<P, PW, _, _>(&Toy, &Toy, vec![matrix]).expect("lawful heights");
}

/// `MerkleTreeMmcs::new`, and `new_with_rule`, which it calls.
fn plain<P: PackedValue<Value = u32>, PW: PackedValue<Value = u32>, const N: usize>() {
    MerkleTreeMmcs::<P, PW, Toy, Toy, N, 1>::new(Toy, Toy, 0);
    MerkleTreeMmcs::<P, PW, Toy, Toy, N, 1>::new_with_rule(Toy, Toy, 0, CapRule::Fixed);
}

/// `MerkleTreeHidingMmcs::new`, and `new_with_rule`, which it calls.
fn hiding<P: PackedValue<Value = u32>, PW: PackedValue<Value = u32>, const N: usize, const SALT_ELEMS: usize>() {
    MerkleTreeHidingMmcs::<P, PW, Toy, Toy, (), N, 1, SALT_ELEMS>::new(Toy, Toy, 0, ());
    MerkleTreeHidingMmcs::<P, PW, Toy, Toy, (), N, 1, SALT_ELEMS>::new_with_rule(Toy, Toy, 0, (), CapRule::Fixed);
}

/// `node_input`.
fn node<const D: usize>() {
    fohlazu::tlog::node_input(&[0; D], &[0; D]).expect("memory");
}
