//! The answers of all builders of a scheme, which have to agree.

use crate::case::{Case, Salts};
use crate::common::Counting;
use crate::scheme::{Answer, Word, answer_to_plain, answer_to_shared};
use fohlazu::hashes::{
    Batched3, FoldCompress, FoldHash, FoldLane, Lanes, Sha256Nodes, Sha256NodesInEights, Sha256Rows,
    Sha256RowsInEights, U32x8,
};
use fohlazu::merkle_tree::{MerkleTreeHidingMmcs, MerkleTreeMmcs};
use fohlazu::support::{CryptographicHasher, PackedValue, PseudoCompressionFunction};

/// The answer of the scheme of a hash and a compression, plain or of as many salts a row as the case has.
fn answer_by<P, H, C, const N: usize, const D: usize>(case: &Case<'_>, hash: H, compress: C) -> Answer
where
    P: PackedValue<Value: Word>,
    H: CryptographicHasher<P, P, D>,
    C: PseudoCompressionFunction<P, N, D>,
{
    match case.salts {
        None => {
            let mut scheme =
                MerkleTreeMmcs::<P, P, H, C, N, D>::new_with_rule(hash, compress, case.cap_height, case.rule);
            if matches!(case.call, "layers" | "schedule" | "replay" | "restore") {
                return answer_to_plain(&scheme, case.call, case.arguments);
            }
            answer_to_shared(&mut scheme, case.call, case.arguments)
        }
        Some(Salts { a_row: 1, .. }) => salted_answer::<P, H, C, N, D, 1>(case, hash, compress),
        Some(Salts { a_row: 2, .. }) => salted_answer::<P, H, C, N, D, 2>(case, hash, compress),
        Some(Salts { a_row: 3, .. }) => salted_answer::<P, H, C, N, D, 3>(case, hash, compress),
        Some(Salts { a_row, .. }) => panic!("no scheme has {a_row} salts a row"),
    }
}

/// The answer of the scheme with so many salts a row.
fn salted_answer<P, H, C, const N: usize, const D: usize, const SALTS: usize>(
    case: &Case<'_>,
    hash: H,
    compress: C,
) -> Answer
where
    P: PackedValue<Value: Word>,
    H: CryptographicHasher<P, P, D>,
    C: PseudoCompressionFunction<P, N, D>,
{
    let Salts { first, step, .. } = case.salts.expect("the case has salts");
    let generator = Counting::new(first, step);
    let mut scheme = MerkleTreeHidingMmcs::<P, P, H, C, Counting, N, D, SALTS>::new_with_rule(
        hash,
        compress,
        case.cap_height,
        generator,
        case.rule,
    );
    answer_to_shared(&mut scheme, case.call, case.arguments)
}

/// The answer by the fold functions in lanes, whose hash and compression take `L` messages.
fn fold_in_lanes<P: FoldLane, const L: usize, const N: usize, const D: usize>(case: &Case<'_>) -> Answer {
    answer_by::<P, _, _, N, D>(case, FoldHash::<L>, FoldCompress::<N, L>)
}

/// The answer if all builders give it.
fn agreed(case: &Case<'_>, answer: Answer, others: &[Answer]) -> Answer {
    for (place, other) in others.iter().enumerate() {
        assert_eq!(*other, answer, "builder {} answers {} otherwise", place + 1, case.call);
    }
    answer
}

/// The answer by the fold functions: one by one, packed by two and by eight, and in batches of eight and of three.
pub fn fold<const N: usize, const D: usize>(case: &Case<'_>) -> Answer {
    let answer = fold_in_lanes::<u32, 1, N, D>(case);
    let others = [
        fold_in_lanes::<Lanes<u32>, 1, N, D>(case),
        fold_in_lanes::<U32x8, 1, N, D>(case),
        fold_in_lanes::<u32, 8, N, D>(case),
        answer_by::<u32, _, _, N, D>(case, Batched3(FoldHash::<1>), Batched3(FoldCompress::<N, 1>)),
    ];
    agreed(case, answer, &others)
}

/// The answer by SHA-256: one message at a time, in eights, and in batches of three.
pub fn sha<const N: usize>(case: &Case<'_>) -> Answer {
    let answer = answer_by::<u8, _, _, N, 32>(case, Sha256Rows, Sha256Nodes::<N>);
    let others = [
        answer_by::<u8, _, _, N, 32>(case, Sha256RowsInEights, Sha256NodesInEights::<N>),
        answer_by::<u8, _, _, N, 32>(case, Batched3(Sha256Rows), Batched3(Sha256Nodes::<N>)),
    ];
    agreed(case, answer, &others)
}
