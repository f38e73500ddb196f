//! What several tests share: files of the repository, and generators whose words are known beforehand.

// Each test takes a part of this module.
#![allow(dead_code)]

use rand_core::{SeedableRng, TryCryptoRng, TryRng};
use std::convert::Infallible;
use std::fs;
use std::path::Path;

/// The text of a file of the repository, by its path from the top.
pub fn stored(path: &str) -> String {
    let path = Path::new(env!("CARGO_MANIFEST_DIR")).join("../..").join(path);
    fs::read_to_string(&path).unwrap_or_else(|error| panic!("{}: {error}", path.display()))
}

/// The lines of a file of cases that are neither blank nor a comment, with their numbers.
pub fn cases(text: &str) -> impl Iterator<Item = (usize, &str)> {
    let numbered = text.lines().enumerate().map(|(place, line)| (place + 1, line));
    numbered.filter(|(_, line)| !line.trim().is_empty() && !line.starts_with('#'))
}

/// A source of words of 64 bits.
pub trait Words {
    /// The next word.
    fn next(&mut self) -> u64;
}

/// Makes a source of words a generator of `rand_core`: 32 bits are the lowest of a word, and bytes are those of words.
macro_rules! generator {
    ($source:ty) => {
        impl TryRng for $source {
            type Error = Infallible;

            fn try_next_u32(&mut self) -> Result<u32, Infallible> {
                Ok(self.next() as u32)
            }

            fn try_next_u64(&mut self) -> Result<u64, Infallible> {
                Ok(self.next())
            }

            fn try_fill_bytes(&mut self, bytes: &mut [u8]) -> Result<(), Infallible> {
                for piece in bytes.chunks_mut(8) {
                    let word = self.next().to_le_bytes();
                    piece.copy_from_slice(&word[..piece.len()]);
                }
                Ok(())
            }
        }

        impl TryCryptoRng for $source {}
    };
}

generator!(Counting);
generator!(ChaCha20);

/// Words that go up by a step, modulo 2^64.
#[derive(Clone, Debug)]
pub struct Counting {
    step: u64,
    next: u64,
}

impl Counting {
    /// The words `first`, `first + step` and so on.
    pub fn new(first: u64, step: u64) -> Counting {
        Counting { step, next: first }
    }
}

impl Words for Counting {
    fn next(&mut self) -> u64 {
        let word = self.next;
        self.next = word.wrapping_add(self.step);
        word
    }
}

/// ChaCha20 with a key, a nonce of zeros and a counter of 64 bits, as `ChaCha20Rng::from_seed` of `rand_chacha`.
#[derive(Clone, Debug)]
pub struct ChaCha20 {
    key: [u32; 8],
    counter: u64,
    /// Words of the last block that are not taken yet, the next one last.
    left: Vec<u64>,
}

impl SeedableRng for ChaCha20 {
    type Seed = [u8; 32];

    fn from_seed(seed: [u8; 32]) -> ChaCha20 {
        let key = std::array::from_fn(|i| u32::from_le_bytes(seed[4 * i..4 * i + 4].try_into().unwrap()));
        ChaCha20 { key, counter: 0, left: Vec::new() }
    }
}

impl Words for ChaCha20 {
    fn next(&mut self) -> u64 {
        if self.left.is_empty() {
            let block = chacha20_block(&self.key, self.counter);
            self.counter += 1;
            self.left = block.chunks(2).rev().map(|pair| u64::from(pair[0]) | u64::from(pair[1]) << 32).collect();
        }
        self.left.pop().expect("a block has words")
    }
}

/// A block of ChaCha20 (RFC 8439, 2.3), but with a counter of 64 bits.
fn chacha20_block(key: &[u32; 8], counter: u64) -> [u32; 16] {
    let mut start = [0x6170_7865, 0x3320_646e, 0x7962_2d32, 0x6b20_6574, 0, 0, 0, 0, 0, 0, 0, 0, 0, 0, 0, 0];
    start[4..12].copy_from_slice(key);
    start[12] = counter as u32;
    start[13] = (counter >> 32) as u32;
    let mut state = start;
    for _ in 0..10 {
        for column in 0..4 {
            quarter_round(&mut state, [column, column + 4, column + 8, column + 12]);
        }
        for diagonal in 0..4 {
            let places = [diagonal, 4 + (diagonal + 1) % 4, 8 + (diagonal + 2) % 4, 12 + (diagonal + 3) % 4];
            quarter_round(&mut state, places);
        }
    }
    std::array::from_fn(|i| state[i].wrapping_add(start[i]))
}

/// A quarter round of ChaCha20 (RFC 8439, 2.1) on the words at four places.
fn quarter_round(state: &mut [u32; 16], [a, b, c, d]: [usize; 4]) {
    for (first, second, third, bits) in [(a, b, d, 16), (c, d, b, 12), (a, b, d, 8), (c, d, b, 7)] {
        state[first] = state[first].wrapping_add(state[second]);
        state[third] = (state[third] ^ state[first]).rotate_left(bits);
    }
}
