//! A stand-in for `rand` 0.10, for tests where no registry is reached: the traits of generators, and the uniform
//! distribution of words, as far as this repository uses them. The names, the signatures and what each call returns are
//! those of the crate, but for the words of the generators in `rngs`, which the tests of p3-merkle-tree 0.8.0 name.
#![no_std]
#![forbid(unsafe_code)]

use distr::{Distribution, StandardUniform};
pub use rand_core::{CryptoRng, Rng, SeedableRng, TryCryptoRng, TryRng};

pub mod rngs;

/// More calls of generators.
pub trait RngExt: Rng {
    /// A random value.
    fn random<T>(&mut self) -> T
    where
        StandardUniform: Distribution<T>,
    {
        StandardUniform.sample(self)
    }
}

impl<R: Rng + ?Sized> RngExt for R {}

/// Distributions of random values.
pub mod distr {
    use crate::Rng;

    /// A distribution of values, which are drawn from a generator.
    pub trait Distribution<T> {
        /// The next value.
        fn sample<R: Rng + ?Sized>(&self, rng: &mut R) -> T;
    }

    /// The distribution by which all values of a type are equally likely.
    #[derive(Clone, Copy, Debug, Default)]
    pub struct StandardUniform;

    impl Distribution<u8> for StandardUniform {
        fn sample<R: Rng + ?Sized>(&self, rng: &mut R) -> u8 {
            rng.next_u32() as u8
        }
    }

    impl Distribution<u32> for StandardUniform {
        fn sample<R: Rng + ?Sized>(&self, rng: &mut R) -> u32 {
            rng.next_u32()
        }
    }

    impl<const N: usize> Distribution<[u8; N]> for StandardUniform {
        fn sample<R: Rng + ?Sized>(&self, rng: &mut R) -> [u8; N] {
            core::array::from_fn(|_| self.sample(rng))
        }
    }

    impl Distribution<u64> for StandardUniform {
        fn sample<R: Rng + ?Sized>(&self, rng: &mut R) -> u64 {
            rng.next_u64()
        }
    }
}
