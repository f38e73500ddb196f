//! SHA-256, one message at a time and in eights.

use crate::answered;
use crate::case::{Answer, Case};
use crate::field::Item;
use crate::scheme::{Cap, scheme_of};
use fohlazu::hashes::{Sha256Nodes, Sha256NodesInEights, Sha256Rows, Sha256RowsInEights};
use fohlazu::support::CryptographicHasher;

/// The digest of a message by each call of a hasher.
fn by_each_call<H: CryptographicHasher<u8, u8, 32>>(hasher: &H, message: &[u8]) -> [[u8; 32]; 5] {
    let (front, back) = message.split_at(message.len() / 2);
    let mut many = [[0; 32]; 1];
    hasher.hash_many(message, &mut many);
    [
        hasher.hash_slice(message),
        hasher.hash_iter(message.iter().copied()),
        hasher.hash_iter_slices([front, back].into_iter()),
        hasher.hash_packed(message.iter().copied()),
        many[0],
    ]
}

/// `sha256 | MESSAGE | DIGEST`: the digest of a text, `-` if it is empty, which each call of both hashers gives.
pub fn message(case: &mut Case<'_>) -> Answer {
    let text = case.take();
    let message = if text == "-" { "" } else { text }.as_bytes();
    let digests = by_each_call(&Sha256Rows, message);
    assert_eq!(digests, [digests[0]; 5], "another call gives another digest");
    assert_eq!(by_each_call(&Sha256RowsInEights, message), digests, "in eights");
    Ok(digests[0].show())
}

/// Answers a case of trees over bytes, which both schemes answer alike.
pub fn sha256<const N: usize>(case: &mut Case<'_>, kind: &str, cap: Cap) -> Answer {
    let mut again = case.clone();
    let mut singly = scheme_of::<u8, _, _, N, 32>(Sha256Rows, Sha256Nodes::<N>, cap);
    let answer = answered::<u8, [u8; 32], _, N>(case, kind, cap, &mut singly);
    let mut in_eights = scheme_of::<u8, _, _, N, 32>(Sha256RowsInEights, Sha256NodesInEights::<N>, cap);
    let other = answered::<u8, [u8; 32], _, N>(&mut again, kind, cap, &mut in_eights);
    assert_eq!(other, answer, "in eights");
    answer
}
