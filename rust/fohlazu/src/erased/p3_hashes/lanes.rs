// Made from crates/p3_hashes/src/lanes.rt by tools/erase.

//! Packed values of two lanes, and of eight.

use crate::erased::p3_hashes::fold::FoldPacked;
use crate::erased::p3_support::packed::PackedValue;
use crate::fallible::{AllocError, TryClone};
use crate::simd::*;

/// Two lanes, each in a field of its own.
#[derive(Clone, Copy, Debug, Default, PartialEq, Eq)]
pub struct Lanes<T> {
    /// Lane 0.
    pub first: T,
    /// Lane 1.
    pub second: T,
}

impl<T: Copy> TryClone for Lanes<T> {
    fn try_clone(&self) -> Result<Self, AllocError> {
        Ok(*self)
    }
}

impl<T: PackedValue<Value = T> + Default + Eq> PackedValue for Lanes<T> {
    type Value = T;

    const WIDTH: usize = 2;

    #[inline]
    fn broadcast(value: T) -> Lanes<T> {
        Lanes { first: value, second: value }
    }

    #[inline]
    fn lane(&self, k: usize) -> T {
        assert!(k < Self::WIDTH, "lane_in");
        if k == 0 { self.first } else { self.second }
    }

    #[inline]
    fn with_lane(mut self, k: usize, value: T) -> Lanes<T> {
        assert!(k < Self::WIDTH, "lane_in");
        if k == 0 {
            self.first = value;
        } else {
            self.second = value;
        }
        self
    }
}

impl FoldPacked for Lanes<u32> {
    #[inline]
    fn mul_31_add(self, word: Lanes<u32>) -> Lanes<u32> {
        Lanes {
            first: self.first.wrapping_mul(31).wrapping_add(word.first),
            second: self.second.wrapping_mul(31).wrapping_add(word.second),
        }
    }

    #[inline]
    fn add_to_each(self, number: u32) -> Lanes<u32> {
        Lanes { first: self.first.wrapping_add(number), second: self.second.wrapping_add(number) }
    }
}

/// Eight lanes of 32 bits, in vectors of the processor.
#[derive(Clone, Copy, Debug, Default, PartialEq, Eq)]
pub struct U32x8 {
    lanes: u32x8,
}

impl TryClone for U32x8 {
    fn try_clone(&self) -> Result<Self, AllocError> {
        Ok(*self)
    }
}

impl U32x8 {
    /// Eight lanes from their halves: those of `front`, then those of `back`.
    #[inline]
    pub(crate) fn join(front: u32x4, back: u32x4) -> U32x8 {
        let front = front.to_array();
        let back = back.to_array();
        U32x8 { lanes: u32x8::from_array([front[0], front[1], front[2], front[3], back[0], back[1], back[2], back[3]]) }
    }
}

impl PackedValue for U32x8 {
    type Value = u32;

    const WIDTH: usize = 8;

    #[inline]
    fn broadcast(value: u32) -> U32x8 {
        U32x8 { lanes: u32x8::splat(value) }
    }

    #[inline]
    fn lane(&self, k: usize) -> u32 {
        assert!(k < Self::WIDTH, "lane_in");
        let lanes = self.lanes.to_array();
        lanes[k]
    }

    #[inline]
    fn with_lane(self, k: usize, value: u32) -> U32x8 {
        assert!(k < Self::WIDTH, "lane_in");
        let mut lanes = self.lanes.to_array();
        lanes[k] = value;
        U32x8 { lanes: u32x8::from_array(lanes) }
    }
}

impl FoldPacked for U32x8 {
    #[inline]
    fn mul_31_add(self, word: U32x8) -> U32x8 {
        U32x8 { lanes: self.lanes * u32x8::splat(31) + word.lanes }
    }

    #[inline]
    fn add_to_each(self, number: u32) -> U32x8 {
        U32x8 { lanes: self.lanes + u32x8::splat(number) }
    }
}

/// Transposes four rows of four words: vector `i` of the result has word `i` of each row.
#[inline]
pub(crate) fn transpose(first: &[u32], second: &[u32], third: &[u32], fourth: &[u32]) -> [u32x4; 4] {
    let (front_odd, back_odd) = u32x4::from_slice(first).interleave(u32x4::from_slice(third));
    let (front_even, back_even) = u32x4::from_slice(second).interleave(u32x4::from_slice(fourth));
    let (zeroth, next) = front_odd.interleave(front_even);
    let (last_but_one, last) = back_odd.interleave(back_even);
    [zeroth, next, last_but_one, last]
}
