//! The vectors of words that the proved sources take from `std::simd`, which stable Rust does not have: arrays, whose
//! operations go lane by lane. Where the compiler finds a loop over the lanes, it makes vectors of the processor of it.

// One macro writes both lengths, and each has operations that only the other one needs.
#![allow(dead_code)]

use core::array::from_fn;
use core::ops::{Add, BitAnd, BitOr, BitXor, Index, Mul, Not, Shl, Shr};

/// A word in one lane of a vector.
#[derive(Clone, Copy, Debug, Default, PartialEq, Eq)]
pub struct Lane(u32);

/// A vector of words, or the word in one of its lanes: what a function of SHA-256 takes that goes lane by lane.
pub trait Word:
    Copy
    + Not<Output = Self>
    + Add<Output = Self>
    + BitAnd<Output = Self>
    + BitOr<Output = Self>
    + BitXor<Output = Self>
    + Shl<Output = Self>
    + Shr<Output = Self>
{
    /// `word` in each lane.
    fn splat(word: u32) -> Self;
}

impl Word for Lane {
    #[inline(always)]
    fn splat(word: u32) -> Self {
        Lane(word)
    }
}

impl Not for Lane {
    type Output = Self;

    #[inline(always)]
    fn not(self) -> Self {
        Lane(!self.0)
    }
}

macro_rules! vector {
    ($name:ident, $lanes:literal, $bytes:literal) => {
        /// A vector of words.
        #[allow(non_camel_case_types)]
        #[derive(Clone, Copy, Debug, Default, PartialEq, Eq)]
        #[repr(C, align($bytes))]
        pub struct $name([Lane; $lanes]);

        impl $name {
            /// `word` in each lane.
            #[inline(always)]
            pub fn splat(word: u32) -> Self {
                Self([Lane(word); $lanes])
            }

            /// The vector of these lanes.
            #[inline(always)]
            pub fn from_array(lanes: [u32; $lanes]) -> Self {
                Self(lanes.map(Lane))
            }

            /// The lanes in order.
            #[inline(always)]
            pub fn to_array(self) -> [u32; $lanes] {
                self.0.map(|lane| lane.0)
            }

            /// The lanes in order.
            #[inline(always)]
            pub fn as_array(&self) -> [u32; $lanes] {
                self.to_array()
            }

            /// The vector of the first words of a slice, which must have one for each lane.
            #[inline(always)]
            pub fn from_slice(words: &[u32]) -> Self {
                Self(from_fn(|lane| Lane(words[lane])))
            }

            /// The lanes of both taken in turn, this one's first: the first half of them, and the second.
            #[inline(always)]
            pub fn interleave(self, other: Self) -> (Self, Self) {
                let turn = |lane: usize| if lane % 2 == 0 { self.0[lane / 2] } else { other.0[lane / 2] };
                (Self(from_fn(turn)), Self(from_fn(|lane| turn(lane + $lanes))))
            }
        }

        impl Word for $name {
            #[inline(always)]
            fn splat(word: u32) -> Self {
                Self::splat(word)
            }
        }

        impl Not for $name {
            type Output = Self;

            #[inline(always)]
            fn not(self) -> Self {
                Self(self.0.map(|lane| !lane))
            }
        }
    };
}

vector!(u32x4, 4, 16);
vector!(u32x8, 8, 32);

macro_rules! operator {
    ($trait:ident, $method:ident, $of_words:expr) => {
        impl $trait for Lane {
            type Output = Self;

            #[inline(always)]
            fn $method(self, other: Self) -> Self {
                let of_words: fn(u32, u32) -> u32 = $of_words;
                Lane(of_words(self.0, other.0))
            }
        }

        operator!($trait, $method, of u32x4);
        operator!($trait, $method, of u32x8);
    };
    ($trait:ident, $method:ident, of $name:ident) => {
        impl $trait for $name {
            type Output = Self;

            #[inline(always)]
            fn $method(self, other: Self) -> Self {
                Self(from_fn(|lane| self.0[lane].$method(other.0[lane])))
            }
        }
    };
}

operator!(Add, add, u32::wrapping_add);
operator!(Mul, mul, u32::wrapping_mul);
operator!(BitAnd, bitand, |x, y| x & y);
operator!(BitOr, bitor, |x, y| x | y);
operator!(BitXor, bitxor, |x, y| x ^ y);
operator!(Shl, shl, u32::wrapping_shl);
operator!(Shr, shr, u32::wrapping_shr);

/// The words of several vectors in one lane.
pub struct InLane<'a, const M: usize> {
    vectors: &'a [u32x8; M],
    lane: usize,
}

impl<const M: usize> Index<usize> for InLane<'_, M> {
    type Output = Lane;

    #[inline(always)]
    fn index(&self, i: usize) -> &Lane {
        &self.vectors[i].0[self.lane]
    }
}

/// Runs `work` in each lane: on the words of `w` and of `v` in it, which gives those of the result.
#[inline(always)]
pub fn in_each_lane<const M: usize, const N: usize>(
    w: &[u32x8; M],
    v: [u32x8; N],
    work: impl Fn(InLane<'_, M>, [Lane; N]) -> [Lane; N],
) -> [u32x8; N] {
    let mut out = v;
    for lane in 0..8 {
        let words = work(InLane { vectors: w, lane }, from_fn(|i| v[i].0[lane]));
        for i in 0..N {
            out[i].0[lane] = words[i];
        }
    }
    out
}

/// Runs `work` in each lane: on the words of `w` in it, which it changes, and on those of `v`, which gives those of the
/// result.
#[inline(always)]
pub fn in_each_lane_mut<const M: usize, const N: usize>(
    w: &mut [u32x8; M],
    v: [u32x8; N],
    work: impl Fn(&mut [Lane; M], [Lane; N]) -> [Lane; N],
) -> [u32x8; N] {
    let mut out = v;
    for lane in 0..8 {
        let mut changed = from_fn(|i| w[i].0[lane]);
        let words = work(&mut changed, from_fn(|i| v[i].0[lane]));
        for i in 0..M {
            w[i].0[lane] = changed[i];
        }
        for i in 0..N {
            out[i].0[lane] = words[i];
        }
    }
    out
}
