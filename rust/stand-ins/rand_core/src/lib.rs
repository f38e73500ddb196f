//! A stand-in for `rand_core` 0.10, for tests where no registry is reached: its traits, as far as this repository uses
//! them. The names, the signatures and what each call returns are those of the crate.
#![no_std]
#![forbid(unsafe_code)]

use core::convert::Infallible;
use core::error::Error;

/// A generator of random words, whose calls may fail.
pub trait TryRng {
    /// Why a call fails.
    type Error: Error;

    /// The next 32 bits.
    fn try_next_u32(&mut self) -> Result<u32, Self::Error>;

    /// The next 64 bits.
    fn try_next_u64(&mut self) -> Result<u64, Self::Error>;

    /// Fills a slice with the next bytes.
    fn try_fill_bytes(&mut self, dst: &mut [u8]) -> Result<(), Self::Error>;
}

/// A generator of random words, whose calls never fail.
pub trait Rng: TryRng<Error = Infallible> {
    /// The next 32 bits.
    fn next_u32(&mut self) -> u32;

    /// The next 64 bits.
    fn next_u64(&mut self) -> u64;

    /// Fills a slice with the next bytes.
    fn fill_bytes(&mut self, dst: &mut [u8]);
}

impl<R: TryRng<Error = Infallible> + ?Sized> Rng for R {
    fn next_u32(&mut self) -> u32 {
        let Ok(word) = self.try_next_u32();
        word
    }

    fn next_u64(&mut self) -> u64 {
        let Ok(word) = self.try_next_u64();
        word
    }

    fn fill_bytes(&mut self, dst: &mut [u8]) {
        let Ok(()) = self.try_fill_bytes(dst);
    }
}

impl<R: TryRng + ?Sized> TryRng for &mut R {
    type Error = R::Error;

    fn try_next_u32(&mut self) -> Result<u32, R::Error> {
        (**self).try_next_u32()
    }

    fn try_next_u64(&mut self) -> Result<u64, R::Error> {
        (**self).try_next_u64()
    }

    fn try_fill_bytes(&mut self, dst: &mut [u8]) -> Result<(), R::Error> {
        (**self).try_fill_bytes(dst)
    }
}

/// A generator that is made for cryptography, whose calls may fail.
pub trait TryCryptoRng: TryRng {}

impl<R: TryCryptoRng + ?Sized> TryCryptoRng for &mut R {}

/// A generator that is made for cryptography.
pub trait CryptoRng: Rng + TryCryptoRng<Error = Infallible> {}

impl<R: TryCryptoRng<Error = Infallible> + ?Sized> CryptoRng for R {}

/// A generator that is made from a seed.
pub trait SeedableRng: Sized {
    /// The bytes of a seed.
    type Seed: Clone + Default + AsRef<[u8]> + AsMut<[u8]>;

    /// The generator of a seed.
    fn from_seed(seed: Self::Seed) -> Self;

    /// The generator whose seed is the next bytes of another one.
    fn from_rng<R: Rng + ?Sized>(rng: &mut R) -> Self {
        let mut seed = Self::Seed::default();
        rng.fill_bytes(seed.as_mut());
        Self::from_seed(seed)
    }

    /// The generator of a number. The crate has other bytes for it.
    fn seed_from_u64(state: u64) -> Self {
        let mut seed = Self::Seed::default();
        for (place, bytes) in seed.as_mut().chunks_mut(8).enumerate() {
            let word = state.wrapping_add(place as u64).wrapping_mul(0x9e37_79b9_7f4a_7c15);
            bytes.copy_from_slice(&word.to_le_bytes()[..bytes.len()]);
        }
        Self::from_seed(seed)
    }
}
