// Made from crates/p3_merkle_hashing/src/calls.rt by tools/erase.

//! How many messages one call takes: many, one after another, or one in each lane.

use crate::erased::p3_support::packed::PackedValue;

/// How many bytes of messages one call takes at most, unless one message for each lane has more.
const BYTES_PER_CALL: usize = 16384;

/// How many messages of `bytes` bytes one call takes: the greatest multiple of `lanes` with at most 16384 bytes in all,
/// but at least `lanes`. Where `bytes` or `lanes` is 0, it counts as 1.
pub(crate) fn messages_per_call(bytes: usize, lanes: usize) -> usize {
    let bytes = bytes.max(1);
    let lanes = lanes.max(1);
    (BYTES_PER_CALL / bytes / lanes).max(1) * lanes
}

/// How many whole blocks of `PW::WIDTH` slots can be filled lane by lane, if there are `count` slots. It is 0 if there
/// is only one lane, or if a packed group of `N` digests would reach 2^63 bytes, more than a value can have. `N` must
/// be above 0.
pub(crate) fn packed_block_count<PW: PackedValue, const N: usize, const D: usize>(count: usize) -> usize {
    let value = PW::broadcast(PW::Value::default());
    let bytes = N.saturating_mul(D.saturating_mul(core::mem::size_of_val(&value)));
    if PW::WIDTH > 1 && bytes < 0x8000_0000_0000_0000 { count / PW::WIDTH } else { 0 }
}
