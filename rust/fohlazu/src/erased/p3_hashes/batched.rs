// Made from crates/p3_hashes/src/batched.rt by tools/erase.

//! A wrapper that sets `LANES` to 3, for a hasher or a compression.

use crate::erased::p3_support::compress::PseudoCompressionFunction;
use crate::erased::p3_support::hasher::CryptographicHasher;
use crate::erased::p3_support::packed::PackedValue;
use crate::fallible::{AllocError, TryClone};

/// The function of `X`, with `LANES` 3: for tests of batches by a number of lanes that is no power of two. `hash_many`
/// and `compress_many` call `X` once for each message or group, so that trees by `X` and by this are built by different
/// calls.
#[derive(Clone, Copy, Debug, Default)]
pub struct Batched3<X>(pub X);

impl<X: Copy> TryClone for Batched3<X> {
    fn try_clone(&self) -> Result<Self, AllocError> {
        Ok(*self)
    }
}

impl<P: PackedValue, PW: PackedValue, X: CryptographicHasher<P, PW, D>, const D: usize> CryptographicHasher<P, PW, D>
    for Batched3<X>
{
    const LANES: usize = 3;

    const PREFER_CONTIGUOUS_INPUT: bool = X::PREFER_CONTIGUOUS_INPUT;

    fn hash_iter<I: Iterator<Item = P::Value>>(&self, input: I) -> [PW::Value; D] {
        self.0.hash_iter(input)
    }

    fn hash_slice(&self, input: &[P::Value]) -> [PW::Value; D] {
        self.0.hash_slice(input)
    }

    fn hash_iter_slices<S: AsRef<[P::Value]>, I: Iterator<Item = S>>(&self, input: I) -> [PW::Value; D] {
        self.0.hash_iter_slices(input)
    }

    fn hash_packed<I: Iterator<Item = P>>(&self, input: I) -> [PW; D] {
        self.0.hash_packed(input)
    }
}

impl<PW: PackedValue, X: PseudoCompressionFunction<PW, N, D>, const N: usize, const D: usize>
    PseudoCompressionFunction<PW, N, D> for Batched3<X>
{
    const LANES: usize = 3;

    fn compress(&self, input: [[PW::Value; D]; N]) -> [PW::Value; D] {
        self.0.compress(input)
    }

    fn compress_packed(&self, input: [[PW; D]; N]) -> [PW; D] {
        self.0.compress_packed(input)
    }
}
