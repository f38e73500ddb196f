// Made from crates/p3_hashes/src/sha_eights.rt by tools/erase.

//! SHA-256 (FIPS 180-4) of rows of bytes, and of digests one after another, by calls that take eight messages at a
//! time. The functions are those of `sha`, so that a tree built with these is the tree built with those.

use crate::erased::p3_hashes::sha::{DigestSize, Sha256Nodes, Sha256Rows};
use crate::erased::p3_support::compress::PseudoCompressionFunction;
use crate::erased::p3_support::hasher::CryptographicHasher;
use crate::erased::sha256_eights::hash_many;
use crate::fallible::{AllocError, TryClone};
use crate::sha256::Sha256;

/// SHA-256 of a row's bytes, with the digests of [`Sha256Rows`]. `hash_many` hashes eight rows at a time, each in a
/// lane of vectors of the processor, and the rows after the last whole eight one by one.
#[derive(Clone, Copy, Debug, Default)]
pub struct Sha256RowsInEights;

impl TryClone for Sha256RowsInEights {
    fn try_clone(&self) -> Result<Self, AllocError> {
        Ok(*self)
    }
}

impl CryptographicHasher<u8, u8, 32> for Sha256RowsInEights {
    const LANES: usize = 8;

    const PREFER_CONTIGUOUS_INPUT: bool = true;

    fn hash_iter<I: Iterator<Item = u8>>(&self, input: I) -> [u8; 32] {
        Sha256Rows.hash_iter(input)
    }

    fn hash_slice(&self, input: &[u8]) -> [u8; 32] {
        Sha256Rows.hash_slice(input)
    }

    fn hash_iter_slices<S: AsRef<[u8]>, I: Iterator<Item = S>>(&self, input: I) -> [u8; 32] {
        Sha256Rows.hash_iter_slices(input)
    }

    fn hash_many(&self, messages: &[u8], out: &mut [[u8; 32]]) {
        assert!(messages.len().is_multiple_of(out.len()), "one_length");
        hash_many(messages, out);
    }

    // A byte is packed alone, so that there is but one message.
    fn hash_packed<I: Iterator<Item = u8>>(&self, input: I) -> [u8; 32] {
        Sha256Rows.hash_packed(input)
    }
}

/// SHA-256 of `N` digests of 32 bytes, one after another, with the digests of [`Sha256Nodes`]. `compress_many` hashes
/// eight groups at a time, each in a lane of vectors of the processor, and the groups after the last whole eight one by
/// one.
#[derive(Clone, Copy, Debug, Default)]
pub struct Sha256NodesInEights<const N: usize>;

impl<const N: usize> TryClone for Sha256NodesInEights<N> {
    fn try_clone(&self) -> Result<Self, AllocError> {
        Ok(*self)
    }
}

impl<const N: usize, const D: usize> PseudoCompressionFunction<u8, N, D> for Sha256NodesInEights<N>
where
    Sha256: DigestSize<D>,
{
    const LANES: usize = 8;

    fn compress(&self, input: [[u8; D]; N]) -> [u8; D] {
        Sha256Nodes::<N>.compress(input)
    }

    fn compress_many(&self, groups: &[[[u8; D]; N]], out: &mut [[u8; D]]) {
        assert!(groups.len() == out.len(), "equal_lengths");
        // The digests of a group lie one after another already, so that nothing is copied.
        let bytes = groups.as_flattened().as_flattened();
        hash_many(bytes, out);
    }

    fn compress_packed(&self, input: [[u8; D]; N]) -> [u8; D] {
        Sha256Nodes::<N>.compress_packed(input)
    }
}
