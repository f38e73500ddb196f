//! A hasher and a compression that are made of a permutation.

use crate::{CryptographicHasher, PseudoCompressionFunction};
use core::array;

/// A permutation.
pub trait CryptographicPermutation<T: Clone>: Clone {
    /// The value to which it takes another.
    fn permute(&self, input: T) -> T;
}

/// A sponge without padding: each `RATE` items overwrite the first words of the state, which is permuted after that.
#[derive(Clone, Copy, Debug)]
pub struct PaddingFreeSponge<P, const WIDTH: usize, const RATE: usize, const OUT: usize> {
    permutation: P,
}

impl<P, const WIDTH: usize, const RATE: usize, const OUT: usize> PaddingFreeSponge<P, WIDTH, RATE, OUT> {
    /// The sponge of a permutation.
    pub const fn new(permutation: P) -> Self {
        PaddingFreeSponge { permutation }
    }
}

impl<T, P, const WIDTH: usize, const RATE: usize, const OUT: usize> CryptographicHasher<T, [T; OUT]>
    for PaddingFreeSponge<P, WIDTH, RATE, OUT>
where
    T: Default + Copy,
    P: CryptographicPermutation<[T; WIDTH]>,
{
    fn hash_iter<I: IntoIterator<Item = T>>(&self, input: I) -> [T; OUT] {
        let (mut state, mut filled) = ([T::default(); WIDTH], 0);
        for item in input {
            state[filled] = item;
            filled += 1;
            if filled == RATE {
                state = self.permutation.permute(state);
                filled = 0;
            }
        }
        if filled > 0 {
            state = self.permutation.permute(state);
        }
        array::from_fn(|k| state[k])
    }
}

/// A compression: the first words of a state that begins with the digests, after it is permuted.
#[derive(Clone, Copy, Debug)]
pub struct TruncatedPermutation<P, const N: usize, const CHUNK: usize, const WIDTH: usize> {
    permutation: P,
}

impl<P, const N: usize, const CHUNK: usize, const WIDTH: usize> TruncatedPermutation<P, N, CHUNK, WIDTH> {
    /// The compression of a permutation.
    pub const fn new(permutation: P) -> Self {
        TruncatedPermutation { permutation }
    }
}

impl<T, P, const N: usize, const CHUNK: usize, const WIDTH: usize> PseudoCompressionFunction<[T; CHUNK], N>
    for TruncatedPermutation<P, N, CHUNK, WIDTH>
where
    T: Default + Copy,
    P: CryptographicPermutation<[T; WIDTH]>,
{
    fn compress(&self, input: [[T; CHUNK]; N]) -> [T; CHUNK] {
        let mut state = [T::default(); WIDTH];
        state[..N * CHUNK].copy_from_slice(input.as_flattened());
        let state = self.permutation.permute(state);
        array::from_fn(|k| state[k])
    }
}
