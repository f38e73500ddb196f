// Made from crates/p3_support/src/compress.rt by tools/erase.

//! The trait of compressions: functions from a group of digests to one digest.

use crate::erased::p3_support::packed::PackedValue;

/// A compression function from groups of `N` digests to one digest, of `D` lane values of `PW` each. All three calls
/// compute this one function. None of them allocates.
pub trait PseudoCompressionFunction<PW: PackedValue, const N: usize, const D: usize> {
    /// How many groups `compress_many` compresses side by side. It is fastest for a multiple of this many.
    const LANES: usize = 1;

    /// The digest of a group of `N` digests.
    fn compress(&self, input: [[PW::Value; D]; N]) -> [PW::Value; D];

    /// Writes the digest of `groups[i]` into `out[i]`. `out` must be as long as `groups`. They are compressed one by
    /// one, unless the compression has its own call.
    ///
    /// # Panics
    ///
    /// - By `equal_lengths` unless `groups.len() == out.len()`.
    fn compress_many(&self, groups: &[[[PW::Value; D]; N]], out: &mut [[PW::Value; D]]) {
        assert!(groups.len() == out.len(), "equal_lengths");
        for (i, digest) in out.iter_mut().enumerate() {
            *digest = self.compress(groups[i]);
        }
    }

    /// The digests of `PW::WIDTH` groups, packed value by value: lane `k` of the result is the digest of the group in
    /// the lanes `k` of `input`.
    fn compress_packed(&self, input: [[PW; D]; N]) -> [PW; D];
}
