//! A case: what its line says.

use crate::field::{Field, Item};
use crate::scheme::Cap;
use fohlazu::merkle_tree::{CapRule, MerkleTreeError};
use fohlazu::support::Dimensions;

/// The answer to a case as text, or the error whose text it is.
pub type Answer = Result<String, MerkleTreeError>;

/// A case as far as it has been read.
#[derive(Clone)]
pub struct Case<'a> {
    /// What has not been read: at the end the expected answer.
    pub rest: &'a str,
    /// The rule of a cap that names none.
    pub rule: CapRule,
    /// Whether a cap has been read that names no rule, so that the answer must hold under both rules.
    pub is_for_any_rule: bool,
}

impl<'a> Case<'a> {
    /// The case of a line.
    pub fn of(line: &'a str, rule: CapRule) -> Case<'a> {
        Case { rest: line, rule, is_for_any_rule: false }
    }

    /// The next field, without the blanks around it; empty where there is none, which no kind of field may be.
    pub fn take(&mut self) -> &'a str {
        let (field, rest) = self.rest.split_once('|').unwrap_or((self.rest, ""));
        self.rest = rest;
        field.trim()
    }

    /// The value that the next field is, or the next fields are.
    pub fn read<V: Field>(&mut self) -> V {
        V::read(self)
    }

    /// The cap that the next field is: its height, with `l` after it under the lowered rule, with `f` under the fixed
    /// one.
    pub fn cap(&mut self) -> Cap {
        let field = self.take();
        let (height, rule) = if let Some(height) = field.strip_suffix('l') {
            (height, CapRule::Lowered)
        } else if let Some(height) = field.strip_suffix('f') {
            (height, CapRule::Fixed)
        } else {
            self.is_for_any_rule = true;
            (field, self.rule)
        };
        Cap { height: usize::parse(height), rule }
    }

    /// The dimensions of columns, whose heights are the next field.
    pub fn columns(&mut self) -> Vec<Dimensions> {
        let heights: Vec<usize> = self.read();
        heights.into_iter().map(|height| Dimensions { width: 1, height }).collect()
    }
}

/// Fields of an answer.
pub fn fields<const COUNT: usize>(fields: [String; COUNT]) -> String {
    fields.join(" | ")
}

/// `accepted`, or the text of the error.
pub fn text_of(verdict: &Result<(), MerkleTreeError>) -> String {
    match verdict {
        Ok(()) => "accepted".to_string(),
        Err(error) => error.to_string(),
    }
}
