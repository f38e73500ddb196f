//! The worked rows and the other stored cases of `crates/test_merkle/stdin`, answered by the package.
//!
//! A line there is a keyword, fields and the expected answer, with `|` between them; docs/ROWS.md says which lines a
//! worked row is. The answers were worked out by hand or by `tests/model`, never by the library. Lines of the program
//! `mmcs` are left out, which is no part of the package.
#![cfg(feature = "sha2")]

#[path = "../common/mod.rs"]
mod common;

mod builders;
mod case;
mod checked;
mod field;
mod geometry;
mod known;
mod matrices;
mod opened;
mod queries;
mod salted;
mod scheme;
mod sha256;
mod sweep;

use case::{Answer, Case};
use field::Item;
use fohlazu::hashes::{Batched3, FoldCompress, FoldHash, Lanes, U32x8};
use fohlazu::merkle_tree::CapRule;
use matrices::Word;
use scheme::{Cap, FoldScheme, Tried, fold_scheme, scheme_of};

/// Answers a case of a kind that any scheme answers, by a scheme with this cap.
fn answered<T: Word, X: Item, S: Tried<T, X>, const N: usize>(
    case: &mut Case<'_>,
    kind: &str,
    cap: Cap,
    scheme: &mut S,
) -> Answer {
    match kind {
        "commit" => opened::commit(case, scheme),
        "open" => opened::open(case, scheme),
        "pruned" => opened::pruned(case, scheme),
        "restore" => checked::restore(case, scheme),
        "sweep" => sweep::sweep::<T, X, S, N>(case, cap, scheme),
        "verify" => checked::verify(case, scheme),
        "verify_pruned" => checked::verify_pruned(case, scheme),
        "extract" => checked::extract(case, scheme),
        "extract_pruned" => checked::extract_pruned(case, scheme),
        _ => panic!("no kind of case: {kind}"),
    }
}

/// Answers a case of a commit by each way to build trees: one by one, in lanes of two and of eight, and in batches of
/// eight and of three. Fails where two of them differ.
fn commit_alike<const N: usize>(case: &mut Case<'_>, cap: Cap) -> Answer {
    let again = case.clone();
    let (hash, compress) = (FoldHash::<1>, FoldCompress::<N, 1>);
    let answer = opened::commit(case, &mut fold_scheme::<N>(cap));
    let others = [
        opened::commit(&mut again.clone(), &mut scheme_of::<Lanes<u32>, _, _, N, 1>(hash, compress, cap)),
        opened::commit(&mut again.clone(), &mut scheme_of::<U32x8, _, _, N, 1>(hash, compress, cap)),
        opened::commit(&mut again.clone(), &mut scheme_of::<u32, _, _, N, 1>(FoldHash::<8>, FoldCompress::<N, 8>, cap)),
        opened::commit(&mut again.clone(), &mut scheme_of::<u32, _, _, N, 1>(Batched3(hash), Batched3(compress), cap)),
    ];
    for (place, other) in others.iter().enumerate() {
        assert_eq!(*other, answer, "builder {} answers otherwise", place + 1);
    }
    answer
}

/// Answers a case at an arity, with this cap.
fn answer_at<const N: usize>(case: &mut Case<'_>, keyword: &str, cap: Cap) -> Answer {
    if let Some(kind) = keyword.strip_prefix("salted_") {
        return salted::salted::<N>(case, kind, cap);
    }
    if let Some(kind) = keyword.strip_prefix("sha256_") {
        return sha256::sha256::<N>(case, kind, cap);
    }
    let mut scheme = fold_scheme::<N>(cap);
    match keyword {
        "schedule" | "replay" | "authenticated" | "pruned_len" => geometry::geometry(case, keyword, &scheme),
        "shape" => geometry::shape(case, &scheme),
        "known" => known::known(case, &mut scheme),
        "commit" => commit_alike::<N>(case, cap),
        kind => answered::<u32, [u32; 1], _, N>(case, kind, cap, &mut scheme),
    }
}

/// The greatest arity.
const WIDEST: usize = 1 << 62;

/// Answers a case whose first fields are an arity and a cap.
fn answer_of_tree(case: &mut Case<'_>, keyword: &str) -> Answer {
    let (arity, cap) = (case.take(), case.cap());
    match arity {
        "2" => answer_at::<2>(case, keyword, cap),
        "4" => answer_at::<4>(case, keyword, cap),
        "8" => answer_at::<8>(case, keyword, cap),
        "16" => answer_at::<16>(case, keyword, cap),
        "4611686018427387904" => {
            // Digests have no words here, since no group of others fits in memory.
            let scheme: FoldScheme<WIDEST, 0> = scheme_of(FoldHash::<1>, FoldCompress::<WIDEST, 1>, cap);
            geometry::geometry(case, keyword, &scheme)
        }
        _ => panic!("no scheme has the arity {arity}"),
    }
}

/// Answers a case of all layers of a tree, whose first field is an arity, by fold functions or by SHA-256.
fn answer_of_layers(case: &mut Case<'_>, keyword: &str) -> Answer {
    match (case.take(), keyword) {
        ("2", "layers") => builders::layers::<2>(case),
        ("4", "layers") => builders::layers::<4>(case),
        ("8", "layers") => builders::layers::<8>(case),
        ("2", _) => builders::sha256_layers::<2>(case),
        ("4", _) => builders::sha256_layers::<4>(case),
        ("8", _) => builders::sha256_layers::<8>(case),
        (arity, _) => panic!("no scheme has the arity {arity}"),
    }
}

/// Answers a case of a keyword.
fn answer(case: &mut Case<'_>, keyword: &str) -> Answer {
    match keyword {
        "heights" => geometry::heights(case),
        "sha256" => sha256::message(case),
        "layers" | "sha256_layers" => answer_of_layers(case, keyword),
        _ => answer_of_tree(case, keyword),
    }
}

/// Checks the answer to a line, where `rule` is the rule of a cap that names none. Returns whether there is such a cap.
fn check_by(number: usize, line: &str, rule: CapRule) -> bool {
    let mut case = Case::of(line, rule);
    let keyword = case.take();
    let found = answer(&mut case, keyword).unwrap_or_else(|error| error.to_string());
    assert_eq!(found, case.rest.trim(), "line {number}: {line}");
    case.is_for_any_rule
}

/// Whether a case takes long where tests are not optimized: one of many lists of queries, or of long lists.
fn is_long(line: &str) -> bool {
    ["lawful 9", "100000", "999999"].iter().any(|text| line.contains(text))
}

/// Checks the cases of these keywords that take long, or all others, and that there are so many.
fn check(keywords: &[&str], are_long: bool, count: usize) {
    let text = common::stored("crates/test_merkle/stdin");
    let keyword_of = |line: &str| line.split_once(" |").expect("a case has fields").0.to_string();
    let mut cases = 0;
    for (number, line) in common::cases(&text) {
        if !keywords.contains(&keyword_of(line).as_str()) || is_long(line) != are_long {
            continue;
        }
        cases += 1;
        if check_by(number, line, CapRule::Lowered) {
            check_by(number, line, CapRule::Fixed);
        }
    }
    assert_eq!(cases, count, "cases of {}", keywords.join(", "));
}

#[test]
fn commits_and_openings() {
    check(&["commit", "open", "pruned", "restore"], false, 207 + 18 + 11 + 26);
}

#[test]
fn geometry() {
    let keywords = ["heights", "schedule", "replay", "pruned_len", "authenticated", "shape"];
    check(&keywords, false, 13 + 79 + 72 + 77 + 19 + 517);
}

#[test]
fn verdicts_and_collisions() {
    check(&["verify", "verify_pruned", "extract", "extract_pruned"], false, 218 + 341 + 15 + 23);
}

#[test]
fn known_nodes() {
    check(&["known"], false, 25);
}

#[test]
fn sweeps() {
    check(&["sweep", "salted_sweep", "sha256_sweep"], false, 154 + 3 + 1);
}

#[test]
fn sha_256() {
    check(&["sha256", "sha256_commit", "sha256_open", "sha256_pruned"], false, 4 + 128 + 15 + 19);
}

#[test]
fn salts() {
    check(&["salted_open", "salted_pruned", "salted_commits", "salted_fork"], false, 22 + 14 + 30 + 4);
}

#[test]
fn salted_verdicts_and_collisions() {
    let keywords = ["salted_verify", "salted_verify_pruned", "salted_extract", "salted_extract_pruned"];
    check(&keywords, false, 202 + 230 + 14 + 10);
}

#[test]
fn every_kind_is_tried() {
    let tried = "commit open pruned restore heights schedule replay pruned_len authenticated shape verify verify_pruned \
                 extract extract_pruned known sweep salted_sweep sha256_sweep sha256 sha256_commit sha256_open \
                 sha256_pruned salted_open salted_pruned salted_commits salted_fork salted_verify salted_verify_pruned \
                 salted_extract salted_extract_pruned layers sha256_layers";
    let left_out = "mmcs mmcs_unread mmcs_unwritten";
    let known: Vec<_> = tried.split_whitespace().chain(left_out.split_whitespace()).collect();
    for (number, line) in common::cases(&common::stored("crates/test_merkle/stdin")) {
        let keyword = line.split(" |").next().unwrap_or_default();
        assert!(known.contains(&keyword), "line {number} is of no kind that is known here: {keyword}");
    }
}

/// What `python3 tests/cargo.py quick` leaves out.
mod long {
    use super::check;

    #[test]
    fn layers() {
        check(&["layers", "sha256_layers"], false, 31 + 30);
    }

    #[test]
    fn geometry() {
        check(&["schedule", "pruned_len"], true, 2 + 3);
    }

    #[test]
    fn verdicts() {
        check(&["verify", "verify_pruned", "salted_verify", "salted_verify_pruned"], true, 7 + 9 + 3 + 3);
    }

    #[test]
    fn sweeps() {
        check(&["sweep"], true, 26);
    }

    #[test]
    fn sweeps_by_sha_256() {
        check(&["sha256_sweep"], true, 3);
    }

    #[test]
    fn salted_sweeps() {
        check(&["salted_sweep"], true, 26);
    }
}
