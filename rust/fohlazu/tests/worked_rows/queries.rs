//! Batches of matrices and lists of queries: written out, or all of a kind, or random ones.

use crate::common::{ChaCha20, Words};
use crate::field::Item;
use crate::scheme::{ROOT, fold_scheme};
use fohlazu::support::Dimensions;
use rand_core::SeedableRng;

/// Each batch of one or two matrices of this width that a tree can have, with heights up to `tallest`.
fn lawful_batches(tallest: usize, width: usize) -> Vec<Vec<Dimensions>> {
    let mut batches = Vec::new();
    for height in 0..=tallest {
        batches.push(vec![Dimensions { width, height }]);
        batches
            .extend((1..=tallest).map(|second| [height, second].map(|height| Dimensions { width, height }).to_vec()));
    }
    batches.retain(|batch| fold_scheme::<2>(ROOT).proof_arity_schedule(batch).is_ok());
    batches
}

/// The batches that a text names: dimensions with `;` between the batches, or `lawful TALLEST WIDTH`.
pub fn batches_in(text: &str) -> Vec<Vec<Dimensions>> {
    let Some(numbers) = text.strip_prefix("lawful ") else {
        return Vec::parse(text);
    };
    match Vec::parse(numbers).as_slice() {
        [tallest, width] => lawful_batches(*tallest, *width),
        _ => panic!("lawful batches are TALLEST WIDTH"),
    }
}

/// Every list of so many of some leaves, as the digits of the numbers from 0 on, the last digit first.
fn every_list(leaves: usize, len: usize) -> Vec<Vec<usize>> {
    let lists = 0..leaves.pow(len as u32);
    lists.map(|number| (0..len).map(|digit| number / leaves.pow(digit as u32) % leaves).collect()).collect()
}

/// The generator of a seed of one byte.
pub fn generator(seed: usize) -> ChaCha20 {
    ChaCha20::from_seed([u8::try_from(seed).expect("a seed is a byte"); 32])
}

/// A random number below `end`.
fn below(words: &mut ChaCha20, end: usize) -> usize {
    words.next() as usize % end
}

/// The lists that a text names, over so many leaves: lists with `;` between them; `every LENGTH`; `up to LENGTH`; or
/// `random SEED LISTS SHORTEST LONGEST`, with lengths between these two.
pub fn lists_in(text: &str, leaves: usize) -> Vec<Vec<usize>> {
    if let Some(len) = text.strip_prefix("every ") {
        return every_list(leaves, usize::parse(len));
    }
    if let Some(longest) = text.strip_prefix("up to ") {
        return (0..=usize::parse(longest)).flat_map(|len| every_list(leaves, len)).collect();
    }
    let Some(numbers) = text.strip_prefix("random ") else {
        return Vec::parse(text);
    };
    let [seed, count, shortest, longest] = *Vec::parse(numbers).as_slice() else {
        panic!("random lists are SEED LISTS SHORTEST LONGEST");
    };
    let mut words = generator(seed);
    let mut random_list = || -> Vec<usize> {
        let len = shortest + below(&mut words, longest - shortest + 1);
        (0..len).map(|_| below(&mut words, leaves)).collect()
    };
    (0..count).map(|_| random_list()).collect()
}
