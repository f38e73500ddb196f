//! A stand-in for `proptest` 1, where no registry is reached: random cases from ranges and from tuples of them, as far
//! as the tests of p3-merkle-tree 0.8.0 that run over fohlazu-p3 use it. A case that fails is not made smaller, and each
//! run has the same cases.
#![no_std]
#![forbid(unsafe_code)]

use core::fmt::Debug;
use core::ops::{Range, RangeInclusive};
use rand::rngs::SmallRng;
use rand::{Rng, SeedableRng};

/// What tests name.
pub mod prelude {
    pub use crate::{Strategy, prop_assert, prop_assert_eq, prop_assume, proptest};
}

/// How many cases a test has.
const CASES: u64 = 256;

/// What random values come from.
pub trait Strategy {
    /// The type of the values.
    type Value: Debug;

    /// A random value.
    fn value(&self, random: &mut SmallRng) -> Self::Value;
}

macro_rules! ranges {
    ($($word:ty)*) => {$(
        impl Strategy for Range<$word> {
            type Value = $word;

            fn value(&self, random: &mut SmallRng) -> $word {
                (self.start..=self.end - 1).value(random)
            }
        }

        impl Strategy for RangeInclusive<$word> {
            type Value = $word;

            fn value(&self, random: &mut SmallRng) -> $word {
                let (start, end) = (*self.start(), *self.end());
                let below = (end - start) as u64;
                start + (random.next_u64() % below.saturating_add(1)) as $word
            }
        }
    )*};
}

ranges!(usize u64);

impl<A: Strategy> Strategy for (A,) {
    type Value = (A::Value,);

    fn value(&self, random: &mut SmallRng) -> Self::Value {
        (self.0.value(random),)
    }
}

impl<A: Strategy, B: Strategy> Strategy for (A, B) {
    type Value = (A::Value, B::Value);

    fn value(&self, random: &mut SmallRng) -> Self::Value {
        (self.0.value(random), self.1.value(random))
    }
}

impl<A: Strategy, B: Strategy, C: Strategy> Strategy for (A, B, C) {
    type Value = (A::Value, B::Value, C::Value);

    fn value(&self, random: &mut SmallRng) -> Self::Value {
        (self.0.value(random), self.1.value(random), self.2.value(random))
    }
}

/// Runs a test over the values of a strategy. It may leave a value out, by `prop_assume`.
pub fn run<S: Strategy>(strategy: S, test: impl Fn(S::Value)) {
    let mut random = SmallRng::seed_from_u64(CASES);
    (0..CASES).for_each(|_| test(strategy.value(&mut random)));
}

/// Tests, each over random values.
#[macro_export]
macro_rules! proptest {
    ($($(#[$meta:meta])* fn $name:ident($($pattern:pat in $strategy:expr),* $(,)?) $body:block)*) => {$(
        $(#[$meta])*
        fn $name() {
            $crate::run(($($strategy,)*), |($($pattern,)*)| $body);
        }
    )*};
}

/// Fails the test where this does not hold.
#[macro_export]
macro_rules! prop_assert {
    ($($word:tt)*) => { assert!($($word)*) };
}

/// Fails the test where both are not equal.
#[macro_export]
macro_rules! prop_assert_eq {
    ($($word:tt)*) => { assert_eq!($($word)*) };
}

/// Leaves the values out where this does not hold.
#[macro_export]
macro_rules! prop_assume {
    ($is_so:expr) => {
        if !$is_so {
            return;
        }
    };
}
