// Made from crates/p3_hashes/src/sha.rt by tools/erase.

//! SHA-256 (FIPS 180-4, by the crate `sha2`) of rows of bytes, and of digests one after another. Words are bytes, each
//! packed alone, and a digest has 32 of them.

use crate::erased::p3_support::compress::PseudoCompressionFunction;
use crate::erased::p3_support::hasher::CryptographicHasher;
pub(crate) use crate::erased::sha256_eights::DigestSize;
use crate::fallible::{AllocError, TryClone, VecExt};
use crate::sha256::Sha256;
use alloc::vec::Vec;

/// The length of a block of SHA-256, in bytes.
const BLOCK: usize = 64;

/// SHA-256 of the bytes that `input` yields. The hasher gets them block by block.
fn hash_bytes<I: Iterator<Item = u8>>(input: I) -> [u8; 32] {
    let mut hasher = Sha256::new();
    let mut block = [0; BLOCK];
    let mut filled = 0;
    for byte in input {
        block[filled] = byte;
        filled += 1;
        if filled == BLOCK {
            hasher.update(&block);
            filled = 0;
        }
    }
    hasher.update(&block[..filled]);
    hasher.finalize()
}

/// SHA-256 of a row's bytes, one message at a time. A row in one slice is hashed faster than byte by byte.
#[derive(Clone, Copy, Debug, Default)]
pub struct Sha256Rows;

impl TryClone for Sha256Rows {
    fn try_clone(&self) -> Result<Self, AllocError> {
        Ok(*self)
    }
}

impl CryptographicHasher<u8, u8, 32> for Sha256Rows {
    const LANES: usize = 1;

    const PREFER_CONTIGUOUS_INPUT: bool = true;

    fn hash_iter<I: Iterator<Item = u8>>(&self, input: I) -> [u8; 32] {
        hash_bytes(input)
    }

    fn hash_slice(&self, input: &[u8]) -> [u8; 32] {
        Sha256::digest(input)
    }

    fn hash_iter_slices<S: AsRef<[u8]>, I: Iterator<Item = S>>(&self, input: I) -> [u8; 32] {
        let mut hasher = Sha256::new();
        for bytes in input {
            hasher.update(bytes);
        }
        hasher.finalize()
    }

    fn hash_packed<I: Iterator<Item = u8>>(&self, input: I) -> [u8; 32] {
        hash_bytes(input)
    }
}

/// The digest of a group of `N` digests: SHA-256 of their bytes, one digest after another.
fn hash_group<const N: usize, const D: usize>(digests: &[[u8; D]; N]) -> [u8; 32] {
    let mut hasher = Sha256::new();
    for digest in digests {
        hasher.update(digest);
    }
    hasher.finalize()
}

/// The message that SHA-256 hashes for a group of digests: their bytes, one digest after another. Two different groups
/// of equally many digests have different messages.
///
/// # Errors
///
/// `AllocError` if memory runs out.
pub fn group_message(digests: &[[u8; 32]]) -> Result<Vec<u8>, AllocError> {
    let mut message = Vec::new();
    for digest in digests {
        message.try_extend_from_slice(digest)?;
    }
    Ok(message)
}

/// SHA-256 of `N` digests of 32 bytes, one after another, one group at a time.
#[derive(Clone, Copy, Debug, Default)]
pub struct Sha256Nodes<const N: usize>;

impl<const N: usize> TryClone for Sha256Nodes<N> {
    fn try_clone(&self) -> Result<Self, AllocError> {
        Ok(*self)
    }
}

impl<const N: usize, const D: usize> PseudoCompressionFunction<u8, N, D> for Sha256Nodes<N>
where
    Sha256: DigestSize<D>,
{
    const LANES: usize = 1;

    fn compress(&self, input: [[u8; D]; N]) -> [u8; D] {
        Sha256::array(hash_group(&input))
    }

    fn compress_packed(&self, input: [[u8; D]; N]) -> [u8; D] {
        Sha256::array(hash_group(&input))
    }
}
