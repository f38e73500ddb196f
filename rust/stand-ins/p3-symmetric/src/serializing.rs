//! A hasher of fields and a compression that are made of a hasher of bytes.

use crate::{CryptographicHasher, PseudoCompressionFunction};
use p3_field::Field;

/// A hasher of elements of fields: it hashes their bytes.
#[derive(Clone, Copy, Debug)]
pub struct SerializingHasher<Inner> {
    inner: Inner,
}

impl<Inner> SerializingHasher<Inner> {
    /// The hasher of a hasher of bytes.
    pub const fn new(inner: Inner) -> Self {
        SerializingHasher { inner }
    }
}

impl<F: Field, Inner: CryptographicHasher<u8, [u8; N]>, const N: usize> CryptographicHasher<F, [u8; N]>
    for SerializingHasher<Inner>
{
    const LANES: usize = Inner::LANES;

    fn hash_iter<I: IntoIterator<Item = F>>(&self, input: I) -> [u8; N] {
        self.inner.hash_iter(input.into_iter().flat_map(F::into_bytes))
    }
}

/// A compression: the hash of digests, one after another.
#[derive(Clone, Copy, Debug)]
pub struct CompressionFunctionFromHasher<H, const N: usize, const CHUNK: usize> {
    hasher: H,
}

impl<H, const N: usize, const CHUNK: usize> CompressionFunctionFromHasher<H, N, CHUNK> {
    /// The compression of a hasher.
    pub const fn new(hasher: H) -> Self {
        CompressionFunctionFromHasher { hasher }
    }
}

impl<T: Clone, H: CryptographicHasher<T, [T; CHUNK]>, const N: usize, const CHUNK: usize>
    PseudoCompressionFunction<[T; CHUNK], N> for CompressionFunctionFromHasher<H, N, CHUNK>
{
    const LANES: usize = H::LANES;

    fn compress(&self, input: [[T; CHUNK]; N]) -> [T; CHUNK] {
        self.hasher.hash_iter(input.into_iter().flatten())
    }
}
