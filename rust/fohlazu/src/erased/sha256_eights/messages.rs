// Made from crates/sha256_eights/src/messages.rt by tools/erase.

//! SHA-256 of messages of `width` bytes, which lie one after another: eight at a time, one message a lane, and what is
//! left one by one. A padded message is one followed by its padding (FIPS 180-4, 5.1.1): a byte 0x80, zeros, and the
//! length in eight bytes, up to a whole block of 64 bytes. Padding depends on the length alone, so it is the same for
//! all. A word is four bytes, high byte first.

use crate::erased::sha256_eights::block::{compress_eight, compress_prepared, initial_state, round_inputs};
use crate::erased::sha256_eights::digest_size::DigestSize;
use crate::sha256::Sha256;
use crate::simd::*;

/// The four bytes from `at` on, which `bytes` must have, as a word, high byte first.
#[inline(always)]
fn word(bytes: &[u8], at: usize) -> u32 {
    assert!(at <= bytes.len() && 4 <= bytes.len() - at);
    u32::from_be_bytes([bytes[at], bytes[at + 1], bytes[at + 2], bytes[at + 3]])
}

/// The words at byte `at` of eight messages of `width` bytes each: lane `j` is from message `j`. `at + 4` must be at
/// most `width`.
#[inline(always)]
pub(crate) fn words(messages: &[u8], width: usize, at: usize) -> u32x8 {
    u32x8::from_array([
        word(messages, at),
        word(messages, width + at),
        word(messages, 2 * width + at),
        word(messages, 3 * width + at),
        word(messages, 4 * width + at),
        word(messages, 5 * width + at),
        word(messages, 6 * width + at),
        word(messages, 7 * width + at),
    ])
}

/// Byte `at` of padded message `j` of eight, where `j < 8`. The byte must stand ahead of the last eight, which have the
/// length.
#[inline(always)]
fn padded_byte(messages: &[u8], width: usize, j: usize, at: usize) -> u8 {
    if at < width {
        messages[j * width + at]
    } else if at == width {
        0x80
    } else {
        0
    }
}

/// The word at byte `at` of padded message `j` of eight, where `j < 8`. The word may have bytes of the message and of
/// its padding. `at` must be at most `width`, and the word must end ahead of the last eight bytes of the padded
/// message, which have its length.
#[inline(always)]
fn mixed_word(messages: &[u8], width: usize, j: usize, at: usize) -> u32 {
    u32::from_be_bytes([
        padded_byte(messages, width, j, at),
        padded_byte(messages, width, j, at + 1),
        padded_byte(messages, width, j, at + 2),
        padded_byte(messages, width, j, at + 3),
    ])
}

/// The words at byte `at` of the eight padded messages: lane `j` is [`mixed_word`] of message `j`. `at` must be as
/// there.
fn mixed_words(messages: &[u8], width: usize, at: usize) -> u32x8 {
    u32x8::from_array([
        mixed_word(messages, width, 0, at),
        mixed_word(messages, width, 1, at),
        mixed_word(messages, width, 2, at),
        mixed_word(messages, width, 3, at),
        mixed_word(messages, width, 4, at),
        mixed_word(messages, width, 5, at),
        mixed_word(messages, width, 6, at),
        mixed_word(messages, width, 7, at),
    ])
}

/// How many blocks of 64 bytes a message of `width` bytes fills with its padding. `width + 72` must fit `usize`.
#[inline(always)]
fn block_count(width: usize) -> usize {
    // The padding has at least nine bytes, one that marks its start and eight of the length, and fills the last block.
    (width + 9).div_ceil(64)
}

/// Word `n` of a padded message of `width` bytes. The message must have this word, and it must be padding alone.
fn padding_word(width: usize, n: usize) -> u32 {
    let at = 4 * n;
    let end = 64 * block_count(width);
    if at == width {
        return 0x8000_0000;
    }
    if at + 8 < end {
        return 0;
    }
    // The padding ends with the message's length in bits, here modulo 2^64: the standard leaves out longer messages.
    let bits = width.wrapping_mul(8);
    // Its higher 32 bits are the last word but one, and its lower 32 bits the last.
    if at + 4 < end {
        return (bits / 4_294_967_296) as u32;
    }
    (bits % 4_294_967_296) as u32
}

/// Word `n` of each of the eight padded messages, which must have it: lane `j` is from message `j`.
#[inline(always)]
fn padded_words(messages: &[u8], width: usize, n: usize) -> u32x8 {
    let at = 4 * n;
    if at + 4 <= width {
        return words(messages, width, at);
    }
    if at < width {
        return mixed_words(messages, width, at);
    }
    u32x8::splat(padding_word(width, n))
}

/// Loads block `t` of each of the eight padded messages, which must have it, into `block`: one message a lane.
// A block that is returned is copied once more, which takes time.
fn load_padded_block(block: &mut [u32x8; 16], messages: &[u8], width: usize, t: usize) {
    for i in 0..16 {
        block[i] = padded_words(messages, width, 16 * t + i);
    }
}

/// Block `t` of a padded message of `width` bytes: the same in each lane. The message must have this block, and it must
/// be padding alone.
fn padding_block(width: usize, t: usize) -> [u32x8; 16] {
    let mut block = [u32x8::splat(0); 16];
    for i in 0..16 {
        block[i] = u32x8::splat(padding_word(width, 16 * t + i));
    }
    block
}

/// How many blocks of 64 bytes have bytes of a message of `width` bytes, and not of its padding alone.
#[inline(always)]
fn filled_count(width: usize) -> usize {
    width.div_ceil(64)
}

/// The inputs of the rounds over the last block of messages of `width` bytes, if that block is padding alone. Such a
/// block is the same for all messages, so its schedule is computed once. Otherwise the result is zeros, which nothing
/// reads.
fn padding_inputs(width: usize) -> [u32x8; 64] {
    let last = filled_count(width);
    if last == block_count(width) {
        return [u32x8::splat(0); 64];
    }
    round_inputs(&padding_block(width, last))
}

/// The hash values of eight messages of `width` bytes each, one message a lane. `padding` is from [`padding_inputs`].
fn hash_states(messages: &[u8], width: usize, padding: &[u32x8; 64]) -> [u32x8; 8] {
    let mut state = initial_state();
    let mut block = [u32x8::splat(0); 16];
    for t in 0..filled_count(width) {
        load_padded_block(&mut block, messages, width, t);
        compress_eight(&mut state, &block);
    }
    if filled_count(width) < block_count(width) {
        compress_prepared(&mut state, padding);
    }
    state
}

/// The digest of a hash value: the bytes of its words, high byte first.
pub(crate) fn digest_of(words: [u32; 8]) -> [u8; 32] {
    let mut digest = [0u8; 32];
    for i in 0..8 {
        digest[4 * i..4 * i + 4].copy_from_slice(&words[i].to_be_bytes());
    }
    digest
}

/// The hash value of message `j`, where `j < 8`: lane `j` of each vector of `state`.
#[inline(always)]
pub(crate) fn lane_words(state: &[u32x8; 8], j: usize) -> [u32; 8] {
    [
        state[0].as_array()[j],
        state[1].as_array()[j],
        state[2].as_array()[j],
        state[3].as_array()[j],
        state[4].as_array()[j],
        state[5].as_array()[j],
        state[6].as_array()[j],
        state[7].as_array()[j],
    ]
}

/// Writes the digest of message `i` into `out[i]`, for eight messages of `width` bytes each, from message `first` on.
/// `out` must have a place for each, and `messages` as many messages as `out` has places. `padding` is from
/// [`padding_inputs`].
fn hash_eight<const D: usize>(messages: &[u8], width: usize, padding: &[u32x8; 64], first: usize, out: &mut [[u8; D]])
where
    Sha256: DigestSize<D>,
{
    let eight = &messages[first * width..(first + 8) * width];
    let state = hash_states(eight, width, padding);
    for j in 0..8 {
        out[first + j] = Sha256::array(digest_of(lane_words(&state, j)));
    }
}

/// Writes the digest of message `i` into `out[i]`, eight at a time, up to the last whole eight. `messages` must have as
/// many messages as `out` has places.
fn hash_eights<const D: usize>(messages: &[u8], width: usize, out: &mut [[u8; D]])
where
    Sha256: DigestSize<D>,
{
    if out.len() < 8 {
        return;
    }
    let padding = padding_inputs(width);
    for eight in 0..out.len() / 8 {
        hash_eight(messages, width, &padding, 8 * eight, out);
    }
}

/// Writes the digest of message `i` into `out[i]`, one by one, from message `from` on. `messages` must have as many
/// messages as `out` has places, and `from` must be at most their number.
fn hash_rest<const D: usize>(messages: &[u8], width: usize, from: usize, out: &mut [[u8; D]])
where
    Sha256: DigestSize<D>,
{
    for i in from..out.len() {
        out[i] = Sha256::array(Sha256::digest(&messages[i * width..(i + 1) * width]));
    }
}

/// Writes the digest of message `i` into `out[i]`. `messages` has as many messages as `out` has places, one after
/// another and of one length, which is `messages.len() / out.len()`: bytes that are left over are not read.
pub(crate) fn hash_many<const D: usize>(messages: &[u8], out: &mut [[u8; D]])
where
    Sha256: DigestSize<D>,
{
    // With no messages their width is unknown.
    if out.is_empty() {
        return;
    }
    let width = messages.len() / out.len();
    hash_eights(messages, width, out);
    hash_rest(messages, width, 8 * (out.len() / 8), out);
}
