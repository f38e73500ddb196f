//! How often answers of each kind come.

use crate::answers::{Answer, Outcome};
use crate::both::Answers;
use crate::known::{Known, Verdict};
use std::collections::BTreeMap;
use std::fmt::{self, Display};

/// The numbers of answers that are the same, by their kinds, and of known differences.
#[derive(Default)]
pub struct Tally {
    same: BTreeMap<String, usize>,
    known: BTreeMap<Known, usize>,
}

impl Tally {
    /// Counts the answers to a script.
    pub fn count(&mut self, answers: &Answers) {
        for (verdict, here, _) in answers.verdicts() {
            match (verdict, here) {
                (Verdict::Same, Some(answer)) => *self.same.entry(kind(answer)).or_default() += 1,
                (Verdict::Known(known), _) => *self.known.entry(known).or_default() += 1,
                _ => {}
            }
        }
    }

    /// How many answers are the same.
    pub fn same(&self) -> usize {
        self.same.values().sum()
    }

    /// How many answers are counted.
    pub fn all(&self) -> usize {
        self.same() + self.known.values().sum::<usize>()
    }
}

/// The call of an answer, and the name of its error.
fn kind(answer: &Answer) -> String {
    let name = match &answer.outcome {
        Outcome::Returned(text) => {
            let error = text.trim_start_matches("MalformedPrunedProof(");
            let name = error.split(|sign: char| !sign.is_alphanumeric()).next().unwrap_or_default();
            if name.starts_with(char::is_alphabetic) { name } else { "Ok" }
        }
        Outcome::Panicked(_) => "panic",
        Outcome::Endless => "no end",
    };
    format!("{:?} {name}", answer.call)
}

impl Display for Tally {
    fn fmt(&self, f: &mut fmt::Formatter<'_>) -> fmt::Result {
        self.same.iter().try_for_each(|(kind, count)| writeln!(f, "same: {kind} {count}"))?;
        self.known.iter().try_for_each(|(known, count)| writeln!(f, "known: {known:?} {count}"))
    }
}
