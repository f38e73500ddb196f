// Made from crates/p3_hashes/src/lib.rt by tools/erase.

//! Hashers and compressions that a Merkle tree can be built with: the fold functions, whose digests can be worked out
//! by hand; SHA-256 (FIPS 180-4), one message at a time and eight; values in two and in eight lanes; and a wrapper that
//! sets `LANES` to 3.
//!
//! Eight messages of one length are hashed together, one in each lane of the processor's vectors; those after the last
//! whole eight are hashed one by one. The digests of SHA-256 are those of the crate `sha2`; `sha256_eights` has the
//! code for eight messages.

pub(crate) mod batched;
pub(crate) mod eights;
pub(crate) mod fold;
pub(crate) mod lanes;
#[cfg(feature = "sha2")]
pub(crate) mod sha;
#[cfg(feature = "sha2")]
pub(crate) mod sha_eights;
