// Made from crates/sha256_eights/src/lib.rt by tools/erase.

//! SHA-256 (FIPS 180-4) of eight messages at a time, one in each lane of the processor's vectors: of many messages of
//! one length, or of eight that fill one number of blocks with their padding. The digests are those of the crate
//! `sha2`.

pub(crate) mod block;
pub(crate) mod consts;
pub(crate) mod digest_size;
pub(crate) mod messages;
pub(crate) mod padded;
pub(crate) mod words;

pub use digest_size::DigestSize;
pub(crate) use messages::hash_many;
pub(crate) use padded::{hash_padded_eight, push_padded};
