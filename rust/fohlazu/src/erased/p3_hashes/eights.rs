// Made from crates/p3_hashes/src/eights.rt by tools/erase.

//! The fold functions of many messages and of many groups, eight at a time, each in a lane of its own. `messages` has
//! messages of `width` words, one after another; column `c` is word `c` of each. A group is `N` digests, its children.
//! The number after the last of a call's eight messages must fit `usize`: so it does in each call, since memory has all
//! of them, or `out` has a place for each.

use crate::erased::p3_hashes::fold::{
    FoldPacked, absorb, absorb_words, compress_group, compress_lanes, hash_words, initial_state,
};
use crate::erased::p3_hashes::lanes::{U32x8, transpose};
use crate::erased::p3_support::packed::{PackedValue, pack_columns_fn, unpack_at};
use crate::simd::*;

/// The longest digest, in words, for which eight messages are hashed together. A longer one leaves no registers for the
/// transposed words.
const MOST_HASHED: usize = 4;

/// The longest digest, in words, for which eight groups are compressed together. A longer one fills vectors by itself.
const MOST_COMPRESSED: usize = 1;

/// Packs word `column` of eight messages: lane `k` is from message `first + k`. `messages` must have all eight, and
/// each must have the word.
#[inline]
fn column_of(messages: &[u32], width: usize, first: usize, column: usize) -> U32x8 {
    U32x8::from_fn(|k| -> u32 { messages[(first + k) * width + column] })
}

/// Absorbs the columns `from..width` of the eight messages from `first` on, one message a lane. The state must have
/// absorbed the columns before `from`.
#[inline]
fn absorb_columns<const D: usize>(state: &mut [U32x8; D], messages: &[u32], width: usize, first: usize, from: usize) {
    for column in from..width {
        absorb(state, column_of(messages, width, first, column));
    }
}

/// Words `column` to `column + 3` of message `message`. `messages` must have the message, and the message these words.
#[inline]
fn words_at(messages: &[u32], width: usize, message: usize, column: usize) -> &[u32] {
    let words = &messages[message * width..(message + 1) * width];
    &words[column..column + 4]
}

/// The columns `column` to `column + 3` of the messages `first` to `first + 3`: vector `i` is column `column + i`, and
/// its lane `k` is from message `first + k`. `messages` must have these messages, and each must have these columns.
#[inline]
fn columns_of_four(messages: &[u32], width: usize, first: usize, column: usize) -> [u32x4; 4] {
    transpose(
        words_at(messages, width, first, column),
        words_at(messages, width, first + 1, column),
        words_at(messages, width, first + 2, column),
        words_at(messages, width, first + 3, column),
    )
}

/// The columns `column` to `column + 3` of the messages `first` to `first + 7`: vector `i` is column `column + i`, and
/// its lane `k` is from message `first + k`. `messages` must have these messages, and each must have these columns.
#[inline]
fn columns_of_eight(messages: &[u32], width: usize, first: usize, column: usize) -> [U32x8; 4] {
    let front = columns_of_four(messages, width, first, column);
    let back = columns_of_four(messages, width, first + 4, column);
    [
        U32x8::join(front[0], back[0]),
        U32x8::join(front[1], back[1]),
        U32x8::join(front[2], back[2]),
        U32x8::join(front[3], back[3]),
    ]
}

/// Absorbs the eight messages from `first` on, one a lane, four columns at a time. The columns after the last whole
/// four are left out. The state must be the initial one.
#[inline]
fn absorb_fours<const D: usize>(state: &mut [U32x8; D], messages: &[u32], width: usize, first: usize) {
    for block in 0..width / 4 {
        absorb_words(state, &columns_of_eight(messages, width, first, 4 * block));
    }
}

/// The digests of eight messages of `width` words each: lane `k` is that of message `first + k`. `messages` must have
/// all eight.
#[inline]
fn hash_eight<const D: usize>(messages: &[u32], width: usize, first: usize) -> [U32x8; D] {
    let mut state = initial_state();
    absorb_fours(&mut state, messages, width, first);
    absorb_columns(&mut state, messages, width, first, 4 * (width / 4));
    state
}

/// Writes the digest of message `i` into `out[i]`, eight at a time, up to the last whole eight. `messages` must have as
/// many messages as `out` has places.
#[inline]
fn hash_eights<const D: usize>(messages: &[u32], width: usize, out: &mut [[u32; D]]) {
    for eight in 0..out.len() / 8 {
        let digests: [U32x8; D] = hash_eight(messages, width, 8 * eight);
        unpack_at(&digests, out, 8 * eight);
    }
}

/// Writes the digest of message `i` into `out[i]`, one by one, from message `from` on. `messages` must have as many
/// messages as `out` has places, and `from` must be at most their number.
#[inline]
fn hash_rest<const D: usize>(messages: &[u32], width: usize, from: usize, out: &mut [[u32; D]]) {
    for i in from..out.len() {
        out[i] = hash_words(&messages[i * width..(i + 1) * width]);
    }
}

/// Writes the digest of message `i` into `out[i]`. `messages` must have as many messages as `out` has places.
#[inline]
pub(crate) fn hash_all<const D: usize>(messages: &[u32], width: usize, out: &mut [[u32; D]]) {
    if D > MOST_HASHED {
        hash_rest(messages, width, 0, out);
        return;
    }
    hash_eights(messages, width, out);
    hash_rest(messages, width, 8 * (out.len() / 8), out);
}

/// Packs child `place`, below `N`, of `P::WIDTH` groups: lane `k` is from group `first + k`. `groups` must have these.
#[inline]
fn pack_child<P: FoldPacked, const N: usize, const D: usize>(
    groups: &[[[u32; D]; N]],
    first: usize,
    place: usize,
) -> [P; D] {
    pack_columns_fn(|k| -> &[u32] { &groups[first + k][place] })
}

/// Packs `P::WIDTH` groups: lane `k` is group `first + k`. `groups` must have these.
#[inline]
fn pack_groups<P: FoldPacked, const N: usize, const D: usize>(groups: &[[[u32; D]; N]], first: usize) -> [[P; D]; N] {
    core::array::from_fn(|place| -> [P; D] { pack_child(groups, first, place) })
}

/// Writes the digest of group `i` into `out[i]`, eight at a time, up to the last whole eight. `out` must have as many
/// places as there are groups.
#[inline]
fn compress_eights<const N: usize, const D: usize>(groups: &[[[u32; D]; N]], out: &mut [[u32; D]]) {
    for eight in 0..out.len() / 8 {
        let children: [[U32x8; D]; N] = pack_groups(groups, 8 * eight);
        unpack_at(&compress_lanes(&children), out, 8 * eight);
    }
}

/// Writes the digest of group `i` into `out[i]`, one by one, from group `from` on. `out` must have as many places as
/// there are groups, and `from` must be at most their number.
#[inline]
fn compress_rest<const N: usize, const D: usize>(groups: &[[[u32; D]; N]], from: usize, out: &mut [[u32; D]]) {
    for i in from..out.len() {
        out[i] = compress_group(&groups[i]);
    }
}

/// Writes the digest of group `i` into `out[i]`. `out` must have as many places as there are groups.
#[inline]
pub(crate) fn compress_all<const N: usize, const D: usize>(groups: &[[[u32; D]; N]], out: &mut [[u32; D]]) {
    if D > MOST_COMPRESSED {
        compress_rest(groups, 0, out);
        return;
    }
    compress_eights(groups, out);
    compress_rest(groups, 8 * (out.len() / 8), out);
}
