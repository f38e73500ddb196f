// Made from crates/tlog_tree/src/leaf.rt by tools/erase.

//! The leaf hashes of entries, eight at a time.

use crate::erased::sha256_eights::{hash_many, hash_padded_eight, push_padded};
use crate::fallible::{AllocError, VecExt, try_vec};
use alloc::vec::Vec;

/// The most bytes of inputs of one length that are hashed together, unless eight inputs have more.
const BATCH_BYTES: usize = 1 << 16;

/// The leaf hashes of entries, in their order (RFC 9162, 2.1.1). Entries that fill one number of blocks of SHA-256 are
/// hashed eight at a time, wherever they stand.
///
/// # Errors
///
/// `AllocError` if memory runs out.
pub fn leaf_hashes(entries: &[&[u8]]) -> Result<Vec<[u8; 32]>, AllocError> {
    // The length and the index of each entry.
    let mut by_length = Vec::with_room(entries.len())?;
    for index in 0..entries.len() {
        by_length.try_push((entries[index].len(), index))?;
    }
    by_length.sort_unstable();
    let mut hashes = try_vec([0; 32], entries.len())?;
    let mut rest = by_length.as_slice();
    while !rest.is_empty() {
        let count = hash_first(entries, rest, &mut hashes)?;
        rest = &rest[count..];
    }
    Ok(hashes)
}

/// Writes the leaf hashes of the first of `places` into `hashes`, and returns how many they are: as many of one length
/// as are hashed together; or, if these are fewer than eight, eight that fill equally many blocks. `places`, which must
/// not be empty, has the length of an entry and its index in `entries` and `hashes`. `AllocError` if memory runs out.
fn hash_first(entries: &[&[u8]], places: &[(usize, usize)], hashes: &mut [[u8; 32]]) -> Result<usize, AllocError> {
    let alike = alike_len(places);
    let count = block_count(places[0].0);
    if alike < 8 && places.len() >= 8 && all_fill(&places[..8], count) {
        let eight = &places[..8];
        place_hashes(eight, &hash_eight(entries, eight, count)?, hashes);
        return Ok(8);
    }
    let batch = &places[..alike];
    place_hashes(batch, &hash_alike(entries, batch)?, hashes);
    Ok(alike)
}

/// How many of `places`, from the first on, are hashed together: those of the first one's length, up to a limit, and
/// only whole eights of them if there are eight. `places`, which must not be empty, has the length and the index of
/// each entry.
fn alike_len(places: &[(usize, usize)]) -> usize {
    let length = places[0].0;
    let most = (BATCH_BYTES / length.saturating_add(1)).max(8);
    for (k, place) in places.iter().enumerate() {
        if k == most || place.0 != length {
            return whole_eights(k);
        }
    }
    whole_eights(places.len())
}

/// The greatest multiple of eight up to `count`, or `count` itself if it is less than eight.
fn whole_eights(count: usize) -> usize {
    if count < 8 { count } else { count / 8 * 8 }
}

/// Whether each entry of `places`, its length and its index, fills `count` blocks.
fn all_fill(places: &[(usize, usize)], count: usize) -> bool {
    places.iter().all(|place| block_count(place.0) == count)
}

/// How many blocks of SHA-256 the input of the leaf hash of an entry of `length` bytes fills.
fn block_count(length: usize) -> usize {
    // A byte goes ahead of the entry, nine bytes of padding at least follow it.
    length / 64 + (length % 64 + 73) / 64
}

/// The leaf hashes of the entries of `places`, lengths and indices of entries. All must have one length. `AllocError`
/// if memory runs out.
fn hash_alike(entries: &[&[u8]], places: &[(usize, usize)]) -> Result<Vec<[u8; 32]>, AllocError> {
    // The inputs of the hashes, each a byte 0 and the entry, one after another.
    let mut inputs = Vec::with_room(BATCH_BYTES)?;
    for (_, index) in places {
        inputs.try_push(0)?;
        inputs.try_extend_from_slice(entries[*index])?;
    }
    let mut values = try_vec([0; 32], places.len())?;
    hash_many(&inputs, &mut values);
    Ok(values)
}

/// The leaf hashes of the eight entries of `places`, lengths and indices of entries, of which each fills `count`
/// blocks. `AllocError` if memory runs out.
fn hash_eight(entries: &[&[u8]], places: &[(usize, usize)], count: usize) -> Result<[[u8; 32]; 8], AllocError> {
    let mut blocks = Vec::with_room(count.saturating_mul(512))?;
    for (_, index) in places {
        push_padded(&mut blocks, 0, entries[*index])?;
    }
    Ok(hash_padded_eight(&blocks, count))
}

/// Writes `values[k]` into `hashes[index]`, where `index` is that of `places[k]`, the length and index of an entry.
/// There must be one value for each place, and each index must be within `hashes`.
fn place_hashes(places: &[(usize, usize)], values: &[[u8; 32]], hashes: &mut [[u8; 32]]) {
    for (k, (_, index)) in places.iter().enumerate() {
        hashes[*index] = values[k];
    }
}
