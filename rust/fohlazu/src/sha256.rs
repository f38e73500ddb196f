//! SHA-256 by the crate `sha2`, with digests as arrays, which is the form that the proved sources know it in.

// The digests of the crate are no arrays; those of its stand-in are.
#![allow(clippy::useless_conversion)]

use sha2::Digest;

/// SHA-256 (FIPS 180-4). It names the hash of a log where a call takes any, as in `tlog::compose::<Sha256, 32>`.
#[derive(Clone, Debug, Default)]
pub struct Sha256(sha2::Sha256);

impl Sha256 {
    /// The hash of no bytes, so far.
    #[inline]
    pub(crate) fn new() -> Self {
        Self::default()
    }

    /// Takes more bytes.
    #[inline]
    pub(crate) fn update(&mut self, bytes: impl AsRef<[u8]>) {
        self.0.update(bytes);
    }

    /// The digest of all bytes.
    #[inline]
    pub(crate) fn finalize(self) -> [u8; 32] {
        self.0.finalize().into()
    }

    /// The digest of these bytes.
    #[inline]
    pub(crate) fn digest(bytes: impl AsRef<[u8]>) -> [u8; 32] {
        sha2::Sha256::digest(bytes).into()
    }
}
