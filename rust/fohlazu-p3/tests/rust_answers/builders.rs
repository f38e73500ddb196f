//! The answers of all builders of a scheme, which have to agree.

use crate::case::{Case, Salts};
use crate::common::{Counting, Words};
use crate::hashes::{Fold, Sha};
use crate::scheme::{Answer, Word, answer_to_plain, answer_to_shared};
use fohlazu::merkle_tree::CapRule;
use p3_field::PackedValue;
use p3_merkle_tree::{MerkleTreeHidingMmcs, MerkleTreeMmcs};
use p3_symmetric::{CryptographicHasher, PseudoCompressionFunction};
use rand::SeedableRng;
use rand::distr::{Distribution, StandardUniform};
use serde::Serialize;
use serde::de::DeserializeOwned;

/// A scheme can be cloned only if its generator can be seeded.
impl SeedableRng for Counting {
    type Seed = [u8; 8];

    fn from_seed(seed: [u8; 8]) -> Counting {
        Counting::new(u64::from_le_bytes(seed), Counting::new(3, 1).next())
    }
}

/// The answer of the scheme of a hash and a compression, plain or of as many salts a row as the case has.
fn answer_by<P, F, const N: usize, const D: usize>(case: &Case<'_>, functions: F) -> Answer
where
    P: PackedValue<Value: Word>,
    F: CryptographicHasher<P::Value, [P::Value; D]> + CryptographicHasher<P, [P; D]>,
    F: PseudoCompressionFunction<[P::Value; D], N> + PseudoCompressionFunction<[P; D], N>,
    F: Copy + Sync,
    [P::Value; D]: Serialize + DeserializeOwned,
    StandardUniform: Distribution<P::Value>,
{
    match case.salts {
        None => {
            let new = match case.rule {
                CapRule::Fixed => MerkleTreeMmcs::<P, P, F, F, N, D>::new,
                CapRule::Lowered => MerkleTreeMmcs::<P, P, F, F, N, D>::with_lowered_cap,
            };
            let scheme = new(functions, functions, case.cap_height);
            if matches!(case.call, "layers" | "schedule" | "replay" | "restore") {
                return answer_to_plain(&scheme, case.call, case.arguments);
            }
            answer_to_shared(&scheme, case.call, case.arguments)
        }
        Some(Salts { a_row: 1, .. }) => salted_answer::<P, F, N, D, 1>(case, functions),
        Some(Salts { a_row: 2, .. }) => salted_answer::<P, F, N, D, 2>(case, functions),
        Some(Salts { a_row: 3, .. }) => salted_answer::<P, F, N, D, 3>(case, functions),
        Some(Salts { a_row, .. }) => panic!("no scheme has {a_row} salts a row"),
    }
}

/// The answer of the scheme with so many salts a row.
fn salted_answer<P, F, const N: usize, const D: usize, const SALTS: usize>(case: &Case<'_>, functions: F) -> Answer
where
    P: PackedValue<Value: Word>,
    F: CryptographicHasher<P::Value, [P::Value; D]> + CryptographicHasher<P, [P; D]>,
    F: PseudoCompressionFunction<[P::Value; D], N> + PseudoCompressionFunction<[P; D], N>,
    F: Copy + Sync,
    [P::Value; D]: Serialize + DeserializeOwned,
    StandardUniform: Distribution<P::Value>,
{
    let Salts { first, step, .. } = case.salts.expect("the case has salts");
    let new = match case.rule {
        CapRule::Fixed => MerkleTreeHidingMmcs::<P, P, F, F, Counting, N, D, SALTS>::new,
        CapRule::Lowered => MerkleTreeHidingMmcs::<P, P, F, F, Counting, N, D, SALTS>::with_lowered_cap,
    };
    let scheme = new(functions, functions, case.cap_height, Counting::new(first, step));
    answer_to_shared(&scheme, case.call, case.arguments)
}

/// The answer if all builders give it.
fn agreed(case: &Case<'_>, answer: Answer, others: &[Answer]) -> Answer {
    let text = |answer: &Answer| format!("{answer:?}");
    for (place, other) in others.iter().enumerate() {
        assert_eq!(text(other), text(&answer), "builder {} answers {} otherwise", place + 1, case.call);
    }
    answer
}

/// The answer by the fold functions: one by one, packed by two and by eight, and in batches of eight and of three.
pub fn fold<const N: usize, const D: usize>(case: &Case<'_>) -> Answer
where
    [u32; D]: Serialize + DeserializeOwned,
{
    let answer = answer_by::<u32, _, N, D>(case, Fold::<1>);
    let others = [
        answer_by::<[u32; 2], _, N, D>(case, Fold::<1>),
        answer_by::<[u32; 8], _, N, D>(case, Fold::<1>),
        answer_by::<u32, _, N, D>(case, Fold::<8>),
        answer_by::<[u32; 2], _, N, D>(case, Fold::<3>),
    ];
    agreed(case, answer, &others)
}

/// The answer by SHA-256: one message at a time, and in batches of three.
pub fn sha<const N: usize>(case: &Case<'_>) -> Answer {
    let answer = answer_by::<u8, _, N, 32>(case, Sha::<1>);
    agreed(case, answer, &[answer_by::<u8, _, N, 32>(case, Sha::<3>)])
}
