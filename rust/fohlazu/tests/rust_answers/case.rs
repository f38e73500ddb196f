//! A case: its line, and its answer as text.

use crate::builders::{fold, sha};
use crate::numbers::Numbers;
use crate::scheme::Answer;
use crate::table::computed_matrices;
use fohlazu::merkle_tree::CapRule;

/// A case without its hash and its arity.
pub struct Case<'a> {
    /// The name of the call, without the `s` of a salted one.
    pub call: &'a str,
    /// The salts, if the scheme has some.
    pub salts: Option<Salts>,
    /// The cap height of the scheme.
    pub cap_height: usize,
    /// The rule of the cap.
    pub rule: CapRule,
    /// The arguments of the call.
    pub arguments: Numbers<'a>,
}

/// The salts of a scheme.
#[derive(Clone, Copy)]
pub struct Salts {
    /// How many a row has.
    pub a_row: u64,
    /// The first one.
    pub first: u64,
    /// By how much they grow.
    pub step: u64,
}

/// The salts that arguments begin with: how many a row has, the first one and the step. Calls that only verify draw
/// none, and have the first of these numbers alone.
fn salts_in(call: &str, numbers: &mut Numbers<'_>) -> Salts {
    let a_row = numbers.number();
    if matches!(call, "verify" | "vprune") {
        return Salts { a_row, first: 0, step: 0 };
    }
    Salts { a_row, first: numbers.number(), step: numbers.number() }
}

/// The answer by a hash, with digests of so many words.
fn answer_at<const N: usize>(hash: &str, digest_len: &str, case: &Case<'_>) -> Answer {
    match (hash, digest_len) {
        ("fold", "1") => fold::<N, 1>(case),
        ("fold", "2") => fold::<N, 2>(case),
        ("sha", "32") => sha::<N>(case),
        _ => panic!("no hash {hash} with digests of {digest_len} words"),
    }
}

/// The answer to the case in a line, `CALL HASH D N CAP RULE` and the arguments of the call.
pub fn answer_to(line: &str) -> String {
    let words: Vec<&str> = line.split(' ').collect();
    let [call, hash, digest_len, arity, cap_height, rule, arguments @ ..] = words.as_slice() else {
        panic!("no case: {line}");
    };
    let mut call = *call;
    let mut numbers: Vec<u64> = arguments.iter().map(|word| word.parse().expect("arguments are numbers")).collect();
    if call == "large" {
        call = "commit";
        numbers = computed_matrices(&Numbers(&numbers).read::<Vec<_>>(), *hash == "sha");
    }
    let mut arguments = Numbers(&numbers);
    let salted = if call == "schedule" { None } else { call.strip_prefix('s') };
    let salts = salted.map(|salted| {
        call = salted;
        salts_in(salted, &mut arguments)
    });
    let cap_height = cap_height.parse().expect("a cap height is a number");
    let rule = match *rule {
        "x" => CapRule::Fixed,
        "l" => CapRule::Lowered,
        _ => panic!("no rule: {rule}"),
    };
    let case = Case { call, salts, cap_height, rule, arguments };
    text_of(&match *arity {
        "2" => answer_at::<2>(hash, digest_len, &case),
        "4" => answer_at::<4>(hash, digest_len, &case),
        "8" => answer_at::<8>(hash, digest_len, &case),
        _ => panic!("no arity: {arity}"),
    })
}

/// `ok` and the numbers; or `err`, the name of the error and its fields, of a malformed pruned proof the inner one.
fn text_of(answer: &Answer) -> String {
    let mut text = String::new();
    match answer {
        Ok(numbers) => {
            text.push_str("ok");
            for number in numbers {
                text.push_str(&format!(" {number}"));
            }
        }
        Err(error) => {
            text.push_str("err");
            let error = format!("{error:?}");
            let error = error.strip_prefix("MalformedPrunedProof(").unwrap_or(&error);
            // Names of fields begin with a small letter.
            let is_shown =
                |word: &&str| word.starts_with(|first: char| first.is_ascii_uppercase() || first.is_ascii_digit());
            for word in error.split_whitespace().filter(is_shown) {
                text.push_str(&format!(" {}", word.trim_end_matches(',')));
            }
        }
    }
    text
}
