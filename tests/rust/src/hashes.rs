//! The hash and compression functions of the cases.

use p3_symmetric::{CryptographicHasher, PseudoCompressionFunction};
use sha2::{Digest, Sha256};

/// Fold functions, modulo 2^32 and with no security. Word e of a row's digest starts as 1 + e, and each word x of the
/// row makes it 31 times itself plus x. That of a node starts as 0, and child i makes it 31 times itself plus the
/// child's word plus i.
#[derive(Copy, Clone)]
pub struct Fold;

impl<const D: usize> CryptographicHasher<u32, [u32; D]> for Fold {
    fn hash_iter<I: IntoIterator<Item = u32>>(&self, input: I) -> [u32; D] {
        let start: [u32; D] = std::array::from_fn(|e| 1 + e as u32);
        input.into_iter().fold(start, |digest, x| digest.map(|word| word.wrapping_mul(31).wrapping_add(x)))
    }
}

impl<const N: usize, const D: usize> PseudoCompressionFunction<[u32; D], N> for Fold {
    fn compress(&self, input: [[u32; D]; N]) -> [u32; D] {
        (0..).zip(input).fold([0; D], |digest: [u32; D], (i, child)| {
            std::array::from_fn(|e| digest[e].wrapping_mul(31).wrapping_add(child[e]).wrapping_add(i))
        })
    }
}

/// SHA-256 of the bytes of the rows, or of the digests, one after another.
#[derive(Copy, Clone)]
pub struct Sha;

impl CryptographicHasher<u8, [u8; 32]> for Sha {
    fn hash_iter<I: IntoIterator<Item = u8>>(&self, input: I) -> [u8; 32] {
        Sha256::digest(input.into_iter().collect::<Vec<_>>()).into()
    }
}

impl<const N: usize> PseudoCompressionFunction<[u8; 32], N> for Sha {
    fn compress(&self, input: [[u8; 32]; N]) -> [u8; 32] {
        Sha256::digest(input.concat()).into()
    }
}
