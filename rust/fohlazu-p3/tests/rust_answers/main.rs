//! The stored answers of p3-merkle-tree 0.8.0 (`crates/test_rust/data`), answered again through this package by each
//! builder. `cases.txt` and its head say what a case is.

#[path = "../../../fohlazu/tests/common/mod.rs"]
mod common;

#[path = "../../../fohlazu/tests/rust_answers/case.rs"]
mod case;
#[path = "../../../fohlazu/tests/rust_answers/numbers.rs"]
mod numbers;
#[path = "../../../fohlazu/tests/rust_answers/table.rs"]
mod table;

mod builders;
mod hashes;
mod scheme;

use case::answer_to;
use std::panic::catch_unwind;

/// Answers the cases of a file by a hash, each by every builder. Returns how many are answered as by the Rust crate,
/// and in how many a height is above 2^62, so that the call panics where the Rust crate does not.
fn answered(path: &str, hash: &str) -> (usize, usize) {
    let text = common::stored(path);
    let (mut agreed, mut too_large, mut wrong) = (0, 0, Vec::new());
    for (number, line) in common::cases(&text).filter(|(_, line)| line.split(' ').nth(1) == Some(hash)) {
        let (case, rust) = line.split_once(" | ").expect("a case has an answer");
        let (rust, here) = rust.split_once(" | ").unwrap_or((rust, rust));
        let found = catch_unwind(|| answer_to(case)).unwrap_or("panic".into());
        if found == rust {
            agreed += 1;
        } else if found == "panic" && here.starts_with("err TooLarge") {
            too_large += 1;
        } else {
            wrong.push(format!("line {number}: {line}\n  is answered {found}"));
        }
    }
    assert!(wrong.is_empty(), "{} wrong answers\n{}", wrong.len(), wrong.join("\n"));
    (agreed, too_large)
}

const CASES: &str = "crates/test_rust/data/cases.txt";
const LARGE: &str = "crates/test_rust/data/large.txt";

// 1,977 of the 2,047 cases agree, among them all where the Rust crate panics. In the other 70 a height is above 2^62.

#[test]
fn cases_by_the_fold_functions() {
    assert_eq!(answered(CASES, "fold"), (1692, 59));
}

#[test]
fn cases_by_sha_256() {
    assert_eq!(answered(CASES, "sha"), (285, 11));
}

#[test]
fn larger_batches_by_the_fold_functions() {
    assert_eq!(answered(LARGE, "fold"), (156, 0));
}

#[test]
fn larger_batches_by_sha_256() {
    assert_eq!(answered(LARGE, "sha"), (78, 0));
}
