//! Generators.

use crate::{SeedableRng, TryCryptoRng, TryRng};
use core::convert::Infallible;

/// The generators are one toy, splitmix64, and not secure.
macro_rules! generators {
    ($($(#[$doc:meta])* $name:ident)*) => {$(
        $(#[$doc])*
        #[derive(Clone, Debug)]
        pub struct $name(u64);

        impl TryRng for $name {
            type Error = Infallible;

            fn try_next_u32(&mut self) -> Result<u32, Infallible> {
                self.try_next_u64().map(|word| (word >> 32) as u32)
            }

            fn try_next_u64(&mut self) -> Result<u64, Infallible> {
                self.0 = self.0.wrapping_add(0x9e37_79b9_7f4a_7c15);
                let mixed = (self.0 ^ self.0 >> 30).wrapping_mul(0xbf58_476d_1ce4_e5b9);
                let mixed = (mixed ^ mixed >> 27).wrapping_mul(0x94d0_49bb_1331_11eb);
                Ok(mixed ^ mixed >> 31)
            }

            fn try_fill_bytes(&mut self, dst: &mut [u8]) -> Result<(), Infallible> {
                for bytes in dst.chunks_mut(8) {
                    let Ok(word) = self.try_next_u64();
                    bytes.copy_from_slice(&word.to_le_bytes()[..bytes.len()]);
                }
                Ok(())
            }
        }

        impl SeedableRng for $name {
            type Seed = [u8; 8];

            fn from_seed(seed: [u8; 8]) -> Self {
                $name(u64::from_le_bytes(seed))
            }
        }
    )*};
}

generators! {
    /// A small generator.
    SmallRng
    /// A generator that the crate makes for cryptography.
    StdRng
}

impl TryCryptoRng for StdRng {}
