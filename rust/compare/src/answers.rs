//! What a scheme answers to a script, call by call.

use crate::endless::is_endless;
use crate::opening::Opening;
use crate::script::{RowForm, Script, Step};
use crate::subject::{Committed, Opened, Subject};
use crate::words::Word;
use p3_matrix::Dimensions;
use std::any::Any;
use std::fmt::Debug;
use std::panic::{AssertUnwindSafe, catch_unwind};

/// A call.
#[derive(Clone, Copy, Debug, PartialEq, Eq, PartialOrd, Ord)]
pub enum Call {
    Commit,
    CommitByClone,
    Layers,
    Open,
    OpenPruned,
    Verify,
    VerifyPruned,
    VerifyPrunedNeverEqual,
    Schedule,
    Replay,
    Restore,
}

/// How a call ends.
#[derive(Clone, Debug, PartialEq, Eq)]
pub enum Outcome {
    /// It returns a value of this text.
    Returned(String),
    /// It panics by this text.
    Panicked(String),
    /// It would never end, and is not made.
    Endless,
}

/// An answer to a call.
#[derive(Clone, Debug, PartialEq, Eq)]
pub struct Answer {
    pub call: Call,
    /// The tallest of the heights that the call is given.
    pub tallest: usize,
    pub outcome: Outcome,
}

/// The schemes of a library under a script.
pub struct Run<'a, T, const D: usize> {
    pub subject: &'a dyn Subject<T, D>,
    pub script: &'a Script,
    /// Whether calls over some heights never end.
    pub may_be_endless: bool,
    pub answers: Vec<Answer>,
}

impl<T: Word, const D: usize> Run<'_, T, D> {
    /// The answers to all of the script.
    pub fn answers(mut self) -> Vec<Answer> {
        let (subject, script) = (self.subject, self.script);
        let committed = self.ask(Call::Commit, &script.sizes, || subject.commit(script.matrices()));
        self.more_of_matrices();
        if let Some(committed) = committed {
            for step in &script.steps {
                self.step(step, &*committed);
            }
        }
        self.answers
    }

    /// Makes a call over matrices of these sizes, and keeps its answer.
    fn ask<V: Debug>(&mut self, call: Call, sizes: &[Dimensions], made: impl FnOnce() -> V) -> Option<V> {
        let heights: Vec<usize> = sizes.iter().map(|size| size.height).collect();
        let (value, outcome) = if self.may_be_endless && is_endless(self.script.arity, &heights) {
            (None, Outcome::Endless)
        } else {
            match catch_unwind(AssertUnwindSafe(made)) {
                Ok(value) => {
                    let text = format!("{value:?}");
                    (Some(value), Outcome::Returned(text))
                }
                Err(panic) => (None, Outcome::Panicked(panic_text(&*panic))),
            }
        };
        self.answers.push(Answer { call, tallest: heights.into_iter().max().unwrap_or(0), outcome });
        value
    }

    /// Further calls over the matrices.
    fn more_of_matrices(&mut self) {
        let (subject, script) = (self.subject, self.script);
        if script.has_clone {
            self.ask(Call::CommitByClone, &script.sizes, || subject.cap_by_clone(script.matrices()));
        }
        if let Some(plain) = subject.plain_calls() {
            self.ask(Call::Layers, &script.sizes, || plain.layers(script.matrices()));
            self.ask(Call::Schedule, &script.sizes, || plain.schedule(&script.sizes));
        }
    }

    /// Opens indices, and verifies what that gives, as it is and after each damage.
    fn step(&mut self, step: &Step, committed: &dyn Committed<T, D>) {
        let Some(mut opening) = self.open(step, committed) else { return };
        self.verify(step, &opening);
        for damage in &step.damages {
            opening.damage(damage);
            self.verify(step, &opening);
        }
    }

    /// Opens the indices of a step.
    fn open(&mut self, step: &Step, committed: &dyn Committed<T, D>) -> Option<Opening<T, D>> {
        let (indices, sizes) = (&step.indices, &self.script.sizes);
        let Opened { rows, salts, digests } = if step.is_pruned {
            self.ask(Call::OpenPruned, sizes, || committed.open_pruned(indices))?
        } else {
            self.ask(Call::Open, sizes, || committed.open(indices[0]))?
        };
        let cap = committed.cap().to_vec();
        Some(Opening { cap, sizes: sizes.clone(), indices: indices.clone(), rows, salts, digests })
    }

    /// Verifies an opening in each way.
    fn verify(&mut self, step: &Step, opening: &Opening<T, D>) {
        let (subject, sizes) = (self.subject, &opening.sizes);
        let plain = subject.plain_calls();
        if step.is_pruned {
            let is_strange = step.rows == RowForm::NeverEqual;
            let call = if is_strange { Call::VerifyPrunedNeverEqual } else { Call::VerifyPruned };
            self.ask(call, sizes, || subject.verify_pruned(opening, step.rows));
            if let Some(plain) = plain {
                self.ask(Call::Restore, sizes, || plain.restore(opening));
            }
        } else {
            self.ask(Call::Verify, sizes, || subject.verify(opening));
            if let Some(plain) = plain {
                self.ask(Call::Replay, sizes, || plain.replay(opening));
            }
        }
    }
}

/// The text of a panic.
fn panic_text(panic: &(dyn Any + Send)) -> String {
    let text = panic.downcast_ref::<String>().map(String::as_str);
    text.or_else(|| panic.downcast_ref::<&str>().copied()).unwrap_or("a panic without a text").to_string()
}
