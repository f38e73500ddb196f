//! A field of 31 bits with four lanes, and a sponge over it. The functions are toys, and not secure.

use p3_field::{Packable, PackedValue};
use p3_symmetric::{CryptographicHasher, PseudoCompressionFunction};
use rand::distr::{Distribution, StandardUniform};
use rand::{Rng, SeedableRng, TryCryptoRng, TryRng};
use serde::{Deserialize, Deserializer, Serialize, Serializer};
use std::convert::Infallible;
use std::ops::{Add, Mul};

/// The prime 2^31 - 2^27 + 1.
pub const PRIME: u32 = (1 << 31) - (1 << 27) + 1;

/// An element of the field.
#[derive(Clone, Copy, Debug, Default, PartialEq, Eq)]
pub struct ToyField(u32);

impl ToyField {
    /// The element of a number.
    pub fn new(number: u32) -> ToyField {
        ToyField(number % PRIME)
    }
}

impl Add for ToyField {
    type Output = ToyField;

    fn add(self, other: ToyField) -> ToyField {
        ToyField(((u64::from(self.0) + u64::from(other.0)) % u64::from(PRIME)) as u32)
    }
}

impl Mul for ToyField {
    type Output = ToyField;

    fn mul(self, other: ToyField) -> ToyField {
        ToyField((u64::from(self.0) * u64::from(other.0) % u64::from(PRIME)) as u32)
    }
}

impl Packable for ToyField {}

impl Serialize for ToyField {
    fn serialize<S: Serializer>(&self, serializer: S) -> Result<S::Ok, S::Error> {
        serializer.serialize_u32(self.0)
    }
}

impl<'de> Deserialize<'de> for ToyField {
    fn deserialize<D: Deserializer<'de>>(deserializer: D) -> Result<ToyField, D::Error> {
        u32::deserialize(deserializer).map(ToyField::new)
    }
}

impl Distribution<ToyField> for StandardUniform {
    fn sample<R: Rng + ?Sized>(&self, rng: &mut R) -> ToyField {
        ToyField::new(rng.next_u32() >> 1)
    }
}

/// Four elements that are worked on together.
#[derive(Clone, Copy, Debug)]
#[repr(transparent)]
pub struct Field4([ToyField; 4]);

// SAFETY: it has the layout of an array of its lanes.
unsafe impl PackedValue for Field4 {
    type Value = ToyField;

    const WIDTH: usize = 4;

    fn from_fn<F: FnMut(usize) -> ToyField>(f: F) -> Field4 {
        Field4(std::array::from_fn(f))
    }

    fn as_slice(&self) -> &[ToyField] {
        &self.0
    }
}

/// What a permutation does with all lanes together.
fn mixed<P: PackedValue<Value = ToyField>>(state: [P; 4], word: P, number: u32) -> [P; 4] {
    let word = |k: usize| word.as_slice()[k] + ToyField::new(number);
    std::array::from_fn(|e| {
        P::from_fn(|k| {
            let (own, next) = (state[e].as_slice()[k], state[(e + 1) % 4].as_slice()[k]);
            let sum = own + word(k) + ToyField::new(e as u32 + 1);
            sum * sum * sum + next
        })
    })
}

/// A sponge.
#[derive(Clone, Copy, Debug)]
pub struct ToyHash;

impl<P: PackedValue<Value = ToyField>> CryptographicHasher<P, [P; 4]> for ToyHash {
    fn hash_iter<I: IntoIterator<Item = P>>(&self, input: I) -> [P; 4] {
        let start = [P::broadcast(ToyField::default()); 4];
        input.into_iter().fold(start, |state, word| mixed(state, word, 1))
    }
}

/// A compression.
#[derive(Clone, Copy, Debug)]
pub struct ToyCompression;

impl<P: PackedValue<Value = ToyField>, const N: usize> PseudoCompressionFunction<[P; 4], N> for ToyCompression {
    fn compress(&self, input: [[P; 4]; N]) -> [P; 4] {
        let start = [P::broadcast(ToyField::default()); 4];
        input.into_iter().flatten().fold(start, |state, word| mixed(state, word, 2))
    }
}

/// A generator that can be predicted: for tests alone.
#[derive(Debug)]
pub struct ToyRng(u64);

impl ToyRng {
    /// The generator of a seed.
    pub fn new(seed: u64) -> ToyRng {
        ToyRng(seed)
    }
}

impl TryRng for ToyRng {
    type Error = Infallible;

    fn try_next_u32(&mut self) -> Result<u32, Infallible> {
        self.try_next_u64().map(|word| (word >> 32) as u32)
    }

    fn try_next_u64(&mut self) -> Result<u64, Infallible> {
        self.0 = self.0.wrapping_mul(6_364_136_223_846_793_005).wrapping_add(1_442_695_040_888_963_407);
        Ok(self.0 ^ self.0 >> 29)
    }

    fn try_fill_bytes(&mut self, bytes: &mut [u8]) -> Result<(), Infallible> {
        for piece in bytes.chunks_mut(8) {
            let Ok(word) = self.try_next_u64();
            piece.copy_from_slice(&word.to_le_bytes()[..piece.len()]);
        }
        Ok(())
    }
}

impl TryCryptoRng for ToyRng {}

impl SeedableRng for ToyRng {
    type Seed = [u8; 8];

    fn from_seed(seed: [u8; 8]) -> ToyRng {
        ToyRng(u64::from_le_bytes(seed))
    }
}
