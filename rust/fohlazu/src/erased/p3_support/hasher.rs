// Made from crates/p3_support/src/hasher.rt by tools/erase.

//! The trait of hashers: functions from a list of words to a digest.

use crate::erased::p3_support::packed::PackedValue;

/// A hash function from lists of words, the lane values of `P`, to digests of `D` lane values of `PW`. All five calls
/// compute this one function. None of them allocates.
pub trait CryptographicHasher<P: PackedValue, PW: PackedValue, const D: usize> {
    /// How many messages `hash_many` hashes side by side. It is fastest for a multiple of this many.
    const LANES: usize = 1;

    /// Whether a message in several pieces is hashed faster when it is copied into one slice first. No builder reads
    /// it.
    const PREFER_CONTIGUOUS_INPUT: bool = false;

    /// The digest of the items of `input`. Its items must end, and `next` must be callable until then.
    fn hash_iter<I: Iterator<Item = P::Value>>(&self, input: I) -> [PW::Value; D];

    /// The digest of the words of a slice.
    fn hash_slice(&self, input: &[P::Value]) -> [PW::Value; D];

    /// The digest of the slices of `input`, one after another. The conditions are those of
    /// [`hash_iter`](Self::hash_iter).
    fn hash_iter_slices<S: AsRef<[P::Value]>, I: Iterator<Item = S>>(&self, input: I) -> [PW::Value; D];

    /// Writes the digest of message `i` into `out[i]`. `messages` has as many messages as `out` has places, one after
    /// another and of one length `w`: message `i` is `messages[i * w..(i + 1) * w]`. They are hashed one by one, unless
    /// the hasher has its own call.
    ///
    /// # Panics
    ///
    /// - By `one_length` unless `messages.len().is_multiple_of(out.len())`.
    fn hash_many(&self, messages: &[P::Value], out: &mut [[PW::Value; D]]) {
        assert!(messages.len().is_multiple_of(out.len()), "one_length");
        if out.is_empty() {
            return;
        }
        let width = messages.len() / out.len();
        for (i, digest) in out.iter_mut().enumerate() {
            *digest = self.hash_slice(&messages[i * width..(i + 1) * width]);
        }
    }

    /// The digests of `P::WIDTH` messages, packed word by word: lane `k` of the result is the digest of the lanes `k`
    /// of the items, for each lane that both packings have. The conditions are those of [`hash_iter`](Self::hash_iter).
    fn hash_packed<I: Iterator<Item = P>>(&self, input: I) -> [PW; D];
}
