// Made from crates/p3_hashes/src/fold.rt by tools/erase.

//! The fold functions: a hash and a compression by sums modulo 2^32, for tests of trees. They are not secure.

use crate::erased::p3_hashes::eights::{compress_all, hash_all};
use crate::erased::p3_support::compress::PseudoCompressionFunction;
use crate::erased::p3_support::hasher::CryptographicHasher;
use crate::erased::p3_support::packed::PackedValue;
use crate::fallible::{AllocError, TryClone};

/// A packed value with lanes of 32 bits, and the arithmetic of the fold functions on all lanes together.
pub trait FoldPacked: PackedValue<Value = u32> {
    /// Lane by lane, `31 * self + word`, modulo 2^32.
    fn mul_31_add(self, word: Self) -> Self;

    /// Lane by lane, `self + number`, modulo 2^32.
    fn add_to_each(self, number: u32) -> Self;
}

impl FoldPacked for u32 {
    #[inline]
    fn mul_31_add(self, word: u32) -> u32 {
        self.wrapping_mul(31).wrapping_add(word)
    }

    #[inline]
    fn add_to_each(self, number: u32) -> u32 {
        self.wrapping_add(number)
    }
}

/// The lowest 32 bits of an index.
#[inline]
fn low_bits(index: usize) -> u32 {
    (index % 4_294_967_296) as u32
}

/// The state before the first word, in each lane: element `e` is `1 + e`, modulo 2^32.
#[inline]
pub(crate) fn initial_state<P: FoldPacked, const D: usize>() -> [P; D] {
    core::array::from_fn(|e| -> P { P::broadcast(low_bits(e).wrapping_add(1)) })
}

/// Absorbs a word into the state, lane by lane: each element becomes `31 * element + word`, modulo 2^32.
#[inline]
pub(crate) fn absorb<P: FoldPacked, const D: usize>(state: &mut [P; D], word: P) {
    for element in state.iter_mut() {
        *element = element.mul_31_add(word);
    }
}

/// Absorbs the words of a slice into the state, one after another, lane by lane.
#[inline]
pub(crate) fn absorb_words<P: FoldPacked, const D: usize>(state: &mut [P; D], words: &[P]) {
    for word in words {
        absorb(state, *word);
    }
}

/// The digests of `P::WIDTH` messages: lane `k` of the items is message `k`, and lane `k` of the result its digest. The
/// items must end, and `next` must be callable until then.
#[inline]
fn hash_lanes<P: FoldPacked, I: Iterator<Item = P>, const D: usize>(input: I) -> [P; D] {
    let mut state = initial_state();
    for word in input {
        absorb(&mut state, word);
    }
    state
}

/// The digest of the words of a slice.
#[inline]
pub(crate) fn hash_words<const D: usize>(words: &[u32]) -> [u32; D] {
    let mut state = initial_state();
    absorb_words(&mut state, words);
    state
}

/// The fold hash: element `e` of the digest starts at `1 + e`, and each word `x` makes it `31 * element + x`, modulo
/// 2^32. It is not secure. `L` is its `LANES`; the digests don't depend on it.
#[derive(Clone, Copy, Debug, Default)]
pub struct FoldHash<const L: usize>;

impl<const L: usize> TryClone for FoldHash<L> {
    fn try_clone(&self) -> Result<Self, AllocError> {
        Ok(*self)
    }
}

impl<P: FoldPacked, const L: usize, const D: usize> CryptographicHasher<P, P, D> for FoldHash<L> {
    const LANES: usize = L;

    const PREFER_CONTIGUOUS_INPUT: bool = false;

    #[inline]
    fn hash_iter<I: Iterator<Item = u32>>(&self, input: I) -> [u32; D] {
        hash_lanes(input)
    }

    #[inline]
    fn hash_slice(&self, input: &[u32]) -> [u32; D] {
        hash_words(input)
    }

    #[inline]
    fn hash_iter_slices<S: AsRef<[u32]>, I: Iterator<Item = S>>(&self, input: I) -> [u32; D] {
        let mut state = initial_state();
        for words in input {
            absorb_words(&mut state, words.as_ref());
        }
        state
    }

    #[inline]
    fn hash_many(&self, messages: &[u32], out: &mut [[u32; D]]) {
        assert!(messages.len().is_multiple_of(out.len()), "one_length");
        if out.is_empty() {
            return;
        }
        let width = messages.len() / out.len();
        hash_all(messages, width, out);
    }

    #[inline]
    fn hash_packed<I: Iterator<Item = P>>(&self, input: I) -> [P; D] {
        hash_lanes(input)
    }
}

/// Mixes the child at `place` into the digest, lane by lane: each element becomes `31 * element + child[e] + place`,
/// modulo 2^32.
#[inline]
fn mix<P: FoldPacked, const D: usize>(digest: &mut [P; D], child: &[P; D], place: usize) {
    let number = low_bits(place);
    for (e, element) in digest.iter_mut().enumerate() {
        *element = element.mul_31_add(child[e]).add_to_each(number);
    }
}

/// The digests of `P::WIDTH` groups: lane `k` of `children` is group `k`, and lane `k` of the result its digest.
#[inline]
pub(crate) fn compress_lanes<P: FoldPacked, const N: usize, const D: usize>(children: &[[P; D]; N]) -> [P; D] {
    let mut digest = [P::broadcast(0); D];
    for (i, child) in children.iter().enumerate() {
        mix(&mut digest, child, i);
    }
    digest
}

/// The digest of a group of `N` digests.
#[inline]
pub(crate) fn compress_group<const N: usize, const D: usize>(children: &[[u32; D]; N]) -> [u32; D] {
    compress_lanes(children)
}

/// The fold compression: element `e` starts at 0, and each child `i`, from 0, makes it `31 * element + child[e] + i`,
/// modulo 2^32. `L` is its `LANES`; the digests don't depend on it.
#[derive(Clone, Copy, Debug, Default)]
pub struct FoldCompress<const N: usize, const L: usize>;

impl<const N: usize, const L: usize> TryClone for FoldCompress<N, L> {
    fn try_clone(&self) -> Result<Self, AllocError> {
        Ok(*self)
    }
}

impl<P: FoldPacked, const N: usize, const L: usize, const D: usize> PseudoCompressionFunction<P, N, D>
    for FoldCompress<N, L>
{
    const LANES: usize = L;

    #[inline]
    fn compress(&self, input: [[u32; D]; N]) -> [u32; D] {
        compress_group(&input)
    }

    #[inline]
    fn compress_many(&self, groups: &[[[u32; D]; N]], out: &mut [[u32; D]]) {
        assert!(groups.len() == out.len(), "equal_lengths");
        compress_all(groups, out);
    }

    #[inline]
    fn compress_packed(&self, input: [[P; D]; N]) -> [P; D] {
        compress_lanes(&input)
    }
}
