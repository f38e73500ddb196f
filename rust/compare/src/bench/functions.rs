//! The hashers, compressions and salts of the lines, as a user of Plonky3 writes them. Both schemes get the same.

use fohlazu::hashes::{self, FoldCompress, FoldHash, Sha256NodesInEights, Sha256RowsInEights};
use fohlazu::support::{CryptographicHasher as _, PseudoCompressionFunction as _};
use p3_field::PackedValue;
use p3_symmetric::{CryptographicHasher, PseudoCompressionFunction};
use rand::{SeedableRng, TryCryptoRng, TryRng};
use std::array;
use std::convert::Infallible;

/// A hasher of rows and a compression of nodes, for words alone and for words in lanes.
pub trait Functions<P: PackedValue, const N: usize, const D: usize>:
    CryptographicHasher<P::Value, [P::Value; D]>
    + CryptographicHasher<P, [P; D]>
    + PseudoCompressionFunction<[P::Value; D], N>
    + PseudoCompressionFunction<[P; D], N>
    + Copy
    + Sync
{
}

impl<P: PackedValue, F, const N: usize, const D: usize> Functions<P, N, D> for F where
    F: CryptographicHasher<P::Value, [P::Value; D]>
        + CryptographicHasher<P, [P; D]>
        + PseudoCompressionFunction<[P::Value; D], N>
        + PseudoCompressionFunction<[P; D], N>
        + Copy
        + Sync
{
}

/// The fold functions, whose batched calls take `L` messages. Like most hashers of Plonky3 they hash an iterator, and
/// leave slices to the provided calls.
#[derive(Clone, Copy, Debug)]
pub struct Fold<const L: usize>;

/// Lane by lane, `31 * a + b`, modulo 2^32.
#[inline]
fn mixed<P: PackedValue<Value = u32>>(a: P, b: P) -> P {
    let (a, b) = (a.as_slice(), b.as_slice());
    P::from_fn(|k| a[k].wrapping_mul(31).wrapping_add(b[k]))
}

/// Lane by lane, `a + number`, modulo 2^32.
#[inline]
fn raised<P: PackedValue<Value = u32>>(a: P, number: usize) -> P {
    P::from_fn(|k| a.as_slice()[k].wrapping_add(number as u32))
}

/// The digests of the messages in the lanes of an iterator's items.
#[inline]
fn folded_words<P: PackedValue<Value = u32>, const D: usize>(input: impl IntoIterator<Item = P>) -> [P; D] {
    let start = array::from_fn(|e| P::broadcast(1 + e as u32));
    input.into_iter().fold(start, |digest, word| digest.map(|element| mixed(element, word)))
}

/// The digests of the groups in the lanes of digests.
#[inline]
fn folded_digests<P: PackedValue<Value = u32>, const N: usize, const D: usize>(input: &[[P; D]; N]) -> [P; D] {
    let children = input.iter().enumerate();
    children.fold([P::broadcast(0); D], |digest, (place, child)| {
        array::from_fn(|e| raised(mixed(digest[e], child[e]), place))
    })
}

impl<const L: usize, const D: usize> CryptographicHasher<u32, [u32; D]> for Fold<L> {
    const LANES: usize = L;

    #[inline]
    fn hash_iter<I: IntoIterator<Item = u32>>(&self, input: I) -> [u32; D] {
        folded_words(input)
    }

    #[inline]
    fn hash_many(&self, messages: &[u32], out: &mut [[u32; D]]) {
        fohlazu::support::CryptographicHasher::<u32, u32, D>::hash_many(&FoldHash::<L>, messages, out);
    }
}

impl<const L: usize, const D: usize> CryptographicHasher<Eight, [Eight; D]> for Fold<L> {
    const LANES: usize = L;

    #[inline]
    fn hash_iter<I: IntoIterator<Item = Eight>>(&self, input: I) -> [Eight; D] {
        folded_words(input)
    }
}

impl<const L: usize, const N: usize, const D: usize> PseudoCompressionFunction<[u32; D], N> for Fold<L> {
    const LANES: usize = L;

    #[inline]
    fn compress(&self, input: [[u32; D]; N]) -> [u32; D] {
        folded_digests(&input)
    }

    #[inline]
    fn compress_many(&self, groups: &[[[u32; D]; N]], out: &mut [[u32; D]]) {
        fohlazu::support::PseudoCompressionFunction::<u32, N, D>::compress_many(&FoldCompress::<N, L>, groups, out);
    }
}

impl<const L: usize, const N: usize, const D: usize> PseudoCompressionFunction<[Eight; D], N> for Fold<L> {
    const LANES: usize = L;

    #[inline]
    fn compress(&self, input: [[Eight; D]; N]) -> [Eight; D] {
        folded_digests(&input)
    }
}

/// Eight words in the lanes of one packed value.
#[derive(Clone, Copy, Debug)]
#[repr(C, align(32))]
pub struct Eight([u32; 8]);

// SAFETY: its one field is the array of its lanes, and fills it.
unsafe impl PackedValue for Eight {
    type Value = u32;

    const WIDTH: usize = 8;

    #[inline(always)]
    fn from_fn<F: FnMut(usize) -> u32>(f: F) -> Eight {
        Eight(array::from_fn(f))
    }

    #[inline]
    fn as_slice(&self) -> &[u32] {
        &self.0
    }
}

/// SHA-256 of bytes, whose batched calls take `L` messages: one, or eight in vectors of the processor.
#[derive(Clone, Copy, Debug)]
pub struct Sha256<const L: usize>;

impl<const L: usize> CryptographicHasher<u8, [u8; 32]> for Sha256<L> {
    const LANES: usize = L;

    fn hash_iter<I: IntoIterator<Item = u8>>(&self, input: I) -> [u8; 32] {
        hashes::Sha256Rows.hash_iter(input.into_iter())
    }

    fn hash_iter_slices<'a, I: IntoIterator<Item = &'a [u8]>>(&self, input: I) -> [u8; 32] {
        hashes::Sha256Rows.hash_iter_slices(input.into_iter())
    }

    fn hash_many(&self, messages: &[u8], out: &mut [[u8; 32]]) {
        if L == 1 {
            hashes::Sha256Rows.hash_many(messages, out);
        } else {
            Sha256RowsInEights.hash_many(messages, out);
        }
    }
}

impl<const L: usize, const N: usize> PseudoCompressionFunction<[u8; 32], N> for Sha256<L> {
    const LANES: usize = L;

    fn compress(&self, input: [[u8; 32]; N]) -> [u8; 32] {
        hashes::Sha256Nodes::<N>.compress(input)
    }

    fn compress_many(&self, groups: &[[[u8; 32]; N]], out: &mut [[u8; 32]]) {
        if L == 1 {
            hashes::Sha256Nodes::<N>.compress_many(groups, out);
        } else {
            Sha256NodesInEights::<N>.compress_many(groups, out);
        }
    }
}

/// A generator of salts that takes almost no time, so that what is timed is the scheme. Everyone knows its words.
#[derive(Clone, Debug)]
pub struct Counting(u64);

impl TryRng for Counting {
    type Error = Infallible;

    #[inline]
    fn try_next_u32(&mut self) -> Result<u32, Infallible> {
        self.try_next_u64().map(|word| (word >> 32) as u32)
    }

    #[inline]
    fn try_next_u64(&mut self) -> Result<u64, Infallible> {
        self.0 = self.0.wrapping_add(0x9e37_79b9_7f4a_7c15);
        Ok(self.0)
    }

    fn try_fill_bytes(&mut self, bytes: &mut [u8]) -> Result<(), Infallible> {
        bytes.fill_with(|| self.0.wrapping_add(1) as u8);
        Ok(())
    }
}

impl TryCryptoRng for Counting {}

impl SeedableRng for Counting {
    type Seed = [u8; 8];

    fn from_seed(seed: [u8; 8]) -> Counting {
        Counting(u64::from_le_bytes(seed))
    }
}
