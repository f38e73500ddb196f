//! A stand-in for `p3-keccak` 0.8, where no registry is reached: a hasher of bytes that takes four messages together,
//! as far as the tests of p3-merkle-tree 0.8.0 use it. It is SHA-256, not Keccak.
#![no_std]
#![forbid(unsafe_code)]

use p3_symmetric::CryptographicHasher;
use sha2::{Digest, Sha256};

/// A hasher of bytes.
#[derive(Clone, Copy, Debug)]
pub struct Keccak256Hash;

impl CryptographicHasher<u8, [u8; 32]> for Keccak256Hash {
    const LANES: usize = 4;

    fn hash_iter<I: IntoIterator<Item = u8>>(&self, input: I) -> [u8; 32] {
        let mut hasher = Sha256::new();
        input.into_iter().for_each(|byte| hasher.update([byte]));
        hasher.finalize()
    }
}
