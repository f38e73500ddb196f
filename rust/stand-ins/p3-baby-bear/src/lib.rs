//! A stand-in for `p3-baby-bear` 0.8, where no registry is reached: the field, and a permutation in the place of
//! Poseidon2, as far as the tests of p3-merkle-tree 0.8.0 use them. The permutation is a toy, and not secure.
#![no_std]

use core::array;
use core::iter::Sum;
use core::ops::{Add, Mul};
use p3_field::{Field, Packable, PackedValue, PrimeCharacteristicRing, RawDataSerializable};
use p3_symmetric::CryptographicPermutation;
use rand::Rng;
use rand::distr::{Distribution, StandardUniform};
use serde::{Deserialize, Deserializer, Serialize, Serializer};

/// The prime 2^31 - 2^27 + 1.
const PRIME: u32 = (1 << 31) - (1 << 27) + 1;

/// The number of lanes of a packed value.
const LANES: usize = 4;

/// How often the permutation mixes its state.
const ROUNDS: usize = 4;

/// An element of the field.
#[derive(Clone, Copy, Debug, Default, PartialEq, Eq)]
pub struct BabyBear(u32);

impl BabyBear {
    /// The element of a number.
    fn of(number: u64) -> BabyBear {
        BabyBear((number % u64::from(PRIME)) as u32)
    }
}

impl Packable for BabyBear {}

impl Add for BabyBear {
    type Output = BabyBear;

    fn add(self, other: BabyBear) -> BabyBear {
        BabyBear::of(u64::from(self.0) + u64::from(other.0))
    }
}

impl Mul for BabyBear {
    type Output = BabyBear;

    fn mul(self, other: BabyBear) -> BabyBear {
        BabyBear::of(u64::from(self.0) * u64::from(other.0))
    }
}

impl Sum for BabyBear {
    fn sum<I: Iterator<Item = BabyBear>>(items: I) -> BabyBear {
        items.fold(BabyBear(0), Add::add)
    }
}

impl PrimeCharacteristicRing for BabyBear {
    const ONE: BabyBear = BabyBear(1);

    fn from_u8(int: u8) -> BabyBear {
        BabyBear::of(int.into())
    }

    fn from_u32(int: u32) -> BabyBear {
        BabyBear::of(int.into())
    }
}

impl RawDataSerializable for BabyBear {
    fn into_bytes(self) -> impl IntoIterator<Item = u8> {
        self.0.to_le_bytes()
    }
}

impl Field for BabyBear {
    type Packing = PackedBabyBear;
}

impl Serialize for BabyBear {
    fn serialize<S: Serializer>(&self, serializer: S) -> Result<S::Ok, S::Error> {
        serializer.serialize_u32(self.0)
    }
}

impl<'de> Deserialize<'de> for BabyBear {
    fn deserialize<D: Deserializer<'de>>(deserializer: D) -> Result<BabyBear, D::Error> {
        u32::deserialize(deserializer).map(|number| BabyBear::of(number.into()))
    }
}

impl Distribution<BabyBear> for StandardUniform {
    fn sample<R: Rng + ?Sized>(&self, rng: &mut R) -> BabyBear {
        BabyBear::of(rng.next_u64())
    }
}

/// Elements that are worked on together.
#[derive(Clone, Copy, Debug, Default)]
#[repr(transparent)]
pub struct PackedBabyBear([BabyBear; LANES]);

// SAFETY: it has the layout of an array of its lanes.
unsafe impl PackedValue for PackedBabyBear {
    type Value = BabyBear;

    const WIDTH: usize = LANES;

    fn from_fn<F: FnMut(usize) -> BabyBear>(f: F) -> PackedBabyBear {
        PackedBabyBear(array::from_fn(f))
    }

    fn as_slice(&self) -> &[BabyBear] {
        &self.0
    }
}

/// A permutation of `WIDTH` elements, by its constants.
#[derive(Clone, Debug)]
pub struct Poseidon2BabyBear<const WIDTH: usize>([[BabyBear; WIDTH]; ROUNDS]);

impl<const WIDTH: usize> Poseidon2BabyBear<WIDTH> {
    /// The permutation of random constants.
    pub fn new_from_rng_128<R: Rng>(rng: &mut R) -> Self {
        Poseidon2BabyBear(array::from_fn(|_| array::from_fn(|_| StandardUniform.sample(rng))))
    }
}

/// Each element becomes its cube, with the sum of all, a constant, and itself by its place besides.
impl<const WIDTH: usize> CryptographicPermutation<[BabyBear; WIDTH]> for Poseidon2BabyBear<WIDTH> {
    fn permute(&self, input: [BabyBear; WIDTH]) -> [BabyBear; WIDTH] {
        self.0.iter().fold(input, |state, constants| {
            let sum: BabyBear = state.iter().copied().sum();
            array::from_fn(|k| {
                let (own, place) = (state[k], BabyBear::of(k as u64 + 2));
                own * own * own + sum + own * place + constants[k]
            })
        })
    }
}

impl<const WIDTH: usize> CryptographicPermutation<[PackedBabyBear; WIDTH]> for Poseidon2BabyBear<WIDTH> {
    fn permute(&self, input: [PackedBabyBear; WIDTH]) -> [PackedBabyBear; WIDTH] {
        let lanes: [[BabyBear; WIDTH]; LANES] = array::from_fn(|lane| self.permute(input.map(|packed| packed.0[lane])));
        array::from_fn(|k| PackedBabyBear(array::from_fn(|lane| lanes[lane][k])))
    }
}
