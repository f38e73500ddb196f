//! A generator of salts that takes almost no time, so that what is timed is the scheme.

use core::convert::Infallible;
use rand_core::{TryCryptoRng, TryRng};

/// How much each word is above the one before.
const STEP: u64 = 0x9e37_79b9_7f4a_7c15;

/// A generator whose words go up by [`STEP`]. Everyone knows them, which does for a measurement.
#[derive(Default)]
pub struct Counting {
    last: u64,
}

impl Counting {
    /// The next word.
    fn word(&mut self) -> u64 {
        self.last = self.last.wrapping_add(STEP);
        self.last
    }
}

impl TryRng for Counting {
    type Error = Infallible;

    fn try_next_u32(&mut self) -> Result<u32, Infallible> {
        Ok(self.word() as u32)
    }

    fn try_next_u64(&mut self) -> Result<u64, Infallible> {
        Ok(self.word())
    }

    fn try_fill_bytes(&mut self, dst: &mut [u8]) -> Result<(), Infallible> {
        for piece in dst.chunks_mut(8) {
            piece.copy_from_slice(&self.word().to_le_bytes()[..piece.len()]);
        }
        Ok(())
    }
}

impl TryCryptoRng for Counting {}
