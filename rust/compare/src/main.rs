//! p3-merkle-tree 0.8.0 and fohlazu-p3 beside each other: random operations, each by both, in one process. README.md
//! says how to run it.

mod answers;
mod both;
mod endless;
#[path = "../../fohlazu-p3/tests/rust_answers/hashes.rs"]
mod hashes;
mod known;
mod opening;
mod random;
mod script;
mod shrink;
mod subject;
mod tally;
#[path = "../../fohlazu-p3/tests/user_program/field.rs"]
#[allow(dead_code)]
mod toy_field;
mod words;

use both::Answers;
use random::Random;
use script::Script;
use std::collections::BTreeSet;
use std::process::ExitCode;
use tally::Tally;

/// How many differences are printed, each by its smallest case.
const MOST_DIFFERENCES: usize = 20;

fn main() -> ExitCode {
    let words: Vec<String> = std::env::args().skip(1).collect();
    let numbers: Vec<u64> = words.iter().filter_map(|word| word.parse().ok()).collect();
    let &[count, seed] = numbers.as_slice() else {
        eprintln!("usage: compare COUNT SEED");
        return ExitCode::from(2);
    };
    // Both are asked what makes them panic.
    std::panic::set_hook(Box::new(|_| ()));
    let differences = compare(count as usize, seed);
    if differences.is_empty() { ExitCode::SUCCESS } else { ExitCode::FAILURE }
}

/// Runs random scripts until there are so many answers, and prints what they are. It returns the smallest cases of the
/// differences that are not known.
fn compare(count: usize, seed: u64) -> BTreeSet<String> {
    let (mut random, mut tally, mut differences) = (Random::new(seed), Tally::default(), BTreeSet::new());
    let mut scripts = 0;
    while tally.all() < count && differences.len() < MOST_DIFFERENCES {
        let script = Script::random(&mut random);
        let answers = Answers::of(&script);
        tally.count(&answers);
        scripts += 1;
        if answers.difference().is_some() {
            let case = smallest_case(script);
            if !differences.contains(&case) {
                println!("different:\n{case}");
                differences.insert(case);
            }
        }
    }
    print!("{tally}");
    let (all, same, different) = (tally.all(), tally.same(), differences.len());
    println!("{scripts} scripts of seed {seed}: {all} answers, {same} the same, {different} unknown differences");
    differences
}

/// The smallest case of a script that shows a difference.
fn smallest_case(script: Script) -> String {
    let differs = |script: &Script| Answers::of(script).difference().is_some();
    let script = shrink::smallest(script, differs);
    let difference = Answers::of(&script).difference().expect("a difference");
    format!("{script}\n{difference}")
}
