// Made from crates/sha256_eights/src/words.rt by tools/erase.

//! The functions of SHA-256 on words (FIPS 180-4, 4.1.2), lane by lane. All are inlined, so that the words of a round
//! stay in registers.

use crate::simd::*;

/// The sum of both words in each lane, modulo 2^32.
#[inline(always)]
pub(crate) fn add<W: Word>(x: W, y: W) -> W {
    x + y
}

/// ROTR of the standard: the word in each lane rotated to the right by `k` bits, where `0 < k < 32`. Vectors have no
/// such operation, so it takes two shifts.
#[inline(always)]
fn rotate_right<W: Word>(x: W, k: u32) -> W {
    (x >> W::splat(k)) | (x << W::splat(32 - k))
}

/// The exclusive or of the three words in each lane.
#[inline(always)]
fn xor3<W: Word>(x: W, y: W, z: W) -> W {
    x ^ y ^ z
}

/// SHR of the standard: the word in each lane shifted to the right by `k` bits, where `k < 32`.
#[inline(always)]
fn shift_right<W: Word>(x: W, k: u32) -> W {
    x >> W::splat(k)
}

/// Ch of the three words in each lane: the bits of `y` where `x` has ones, and those of `z` elsewhere.
#[inline(always)]
pub(crate) fn ch<W: Word>(x: W, y: W, z: W) -> W {
    (x & y) ^ (!x & z)
}

/// Maj of the three words in each lane: each bit is the one that at least two of them have.
#[inline(always)]
pub(crate) fn maj<W: Word>(x: W, y: W, z: W) -> W {
    // This form takes one operation less than the standard's.
    y ^ ((x ^ y) & (y ^ z))
}

/// The upper case sigma 0 of the standard, in each lane.
#[inline(always)]
pub(crate) fn big_sigma0<W: Word>(x: W) -> W {
    xor3(rotate_right(x, 2), rotate_right(x, 13), rotate_right(x, 22))
}

/// The upper case sigma 1 of the standard, in each lane.
#[inline(always)]
pub(crate) fn big_sigma1<W: Word>(x: W) -> W {
    xor3(rotate_right(x, 6), rotate_right(x, 11), rotate_right(x, 25))
}

/// The lower case sigma 0 of the standard, in each lane.
#[inline(always)]
pub(crate) fn small_sigma0<W: Word>(x: W) -> W {
    xor3(rotate_right(x, 7), rotate_right(x, 18), shift_right(x, 3))
}

/// The lower case sigma 1 of the standard, in each lane.
#[inline(always)]
pub(crate) fn small_sigma1<W: Word>(x: W) -> W {
    xor3(rotate_right(x, 17), rotate_right(x, 19), shift_right(x, 10))
}
