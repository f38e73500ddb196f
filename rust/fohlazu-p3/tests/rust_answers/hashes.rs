//! The hashes of cases, as a user of Plonky3 writes them.

use p3_field::PackedValue;
use p3_symmetric::{CryptographicHasher, PseudoCompressionFunction};
use sha2::{Digest, Sha256};

/// The fold functions, whose batched calls take `L` messages. One `impl` serves each packing.
#[derive(Clone, Copy, Debug)]
pub struct Fold<const L: usize>;

/// Lane by lane, `31 * a + b + number`, modulo 2^32.
fn mixed<P: PackedValue<Value = u32>>(a: P, b: P, number: usize) -> P {
    P::from_fn(|k| a.as_slice()[k].wrapping_mul(31).wrapping_add(b.as_slice()[k]).wrapping_add(number as u32))
}

impl<P: PackedValue<Value = u32>, const L: usize, const D: usize> CryptographicHasher<P, [P; D]> for Fold<L> {
    const LANES: usize = L;

    fn hash_iter<I: IntoIterator<Item = P>>(&self, input: I) -> [P; D] {
        let start = std::array::from_fn(|e| P::broadcast(1 + e as u32));
        input.into_iter().fold(start, |digest, word| digest.map(|element| mixed(element, word, 0)))
    }
}

impl<P: PackedValue<Value = u32>, const L: usize, const N: usize, const D: usize> PseudoCompressionFunction<[P; D], N>
    for Fold<L>
{
    const LANES: usize = L;

    fn compress(&self, input: [[P; D]; N]) -> [P; D] {
        let children = input.into_iter().enumerate();
        children.fold([P::broadcast(0); D], |digest, (place, child)| {
            std::array::from_fn(|e| mixed(digest[e], child[e], place))
        })
    }
}

/// SHA-256 of bytes, whose batched calls take `L` messages.
#[derive(Clone, Copy, Debug)]
pub struct Sha<const L: usize>;

impl<const L: usize> CryptographicHasher<u8, [u8; 32]> for Sha<L> {
    const LANES: usize = L;

    fn hash_iter<I: IntoIterator<Item = u8>>(&self, input: I) -> [u8; 32] {
        Sha256::digest(input.into_iter().collect::<Vec<_>>())
    }

    fn hash_iter_slices<'a, I: IntoIterator<Item = &'a [u8]>>(&self, input: I) -> [u8; 32] {
        let mut hasher = Sha256::new();
        for bytes in input {
            hasher.update(bytes);
        }
        hasher.finalize()
    }
}

impl<const L: usize, const N: usize> PseudoCompressionFunction<[u8; 32], N> for Sha<L> {
    const LANES: usize = L;

    fn compress(&self, input: [[u8; 32]; N]) -> [u8; 32] {
        Sha256::digest(input.concat())
    }
}
