//! Openings in a form that both libraries' proofs are made from, and the damages of them.

use crate::script::{Change, Damage, Place};
use crate::words::Word;
use p3_matrix::Dimensions;

/// The rows of a query, or the salts of these rows.
pub type Rows<T> = Vec<Vec<T>>;

/// All that is verified: the rows of each query, the salts of each row, a proof, and what the verifier knows.
#[derive(Clone, Debug)]
pub struct Opening<T, const D: usize> {
    pub cap: Vec<[T; D]>,
    pub sizes: Vec<Dimensions>,
    pub indices: Vec<usize>,
    pub rows: Vec<Rows<T>>,
    /// The plain schemes have none, and read none.
    pub salts: Vec<Rows<T>>,
    pub digests: Vec<[T; D]>,
}

impl<T: Word, const D: usize> Opening<T, D> {
    /// Does a damage, if there is a list that it can change.
    pub fn damage(&mut self, damage: &Damage) {
        let Damage { place, change, at, value } = *damage;
        let word = T::of(value as u64);
        match place {
            Place::Digests => change_item(&mut self.digests, change, at, [word; D]),
            Place::Cap => change_item(&mut self.cap, change, at, [word; D]),
            Place::Sizes => self.damage_sizes(change, at, value),
            Place::Indices => change_item(&mut self.indices, change, at, index_of(value)),
            Place::Words => change_one_of(self.rows.iter_mut().flatten().collect(), change, at, word),
            Place::Rows => change_one_of(self.rows.iter_mut().collect(), change, at, vec![word; value % 7]),
            Place::RowLists => change_list(&mut self.rows, change, at),
            Place::SaltWords => change_one_of(self.salts.iter_mut().flatten().collect(), change, at, word),
            Place::Salts => change_one_of(self.salts.iter_mut().collect(), change, at, vec![word; value % 7]),
            Place::SaltLists => change_list(&mut self.salts, change, at),
        }
    }

    /// Changes the size of a matrix, or the number of matrices.
    fn damage_sizes(&mut self, change: Change, at: usize, value: usize) {
        let mut new = size_of(value);
        if let (Change::Replace, count @ 1..) = (change, self.sizes.len()) {
            let old = self.sizes[at % count];
            // A height or a width by itself is refused less early.
            match at / count % 3 {
                0 => new.height = old.height,
                1 => new.width = old.width,
                _ => {}
            }
        }
        change_item(&mut self.sizes, change, at, new);
    }
}

/// A size that is made from a number: often a small one, sometimes one near a limit.
fn size_of(value: usize) -> Dimensions {
    let (kind, rest) = (value % 16, value / 16);
    let height = match kind {
        0 => value,
        1 => (1 << (rest % 64)) + rest / 64 % 3 - 1,
        2 => (1 << 62) - 1 + rest % 4,
        3 => (1 << 63) - 1 + rest % 4,
        _ => rest % 40,
    };
    let width = if rest.is_multiple_of(16) { usize::MAX - rest / 16 % 6 } else { rest / 40 % 6 };
    Dimensions { width, height }
}

/// An index that is made from a number.
fn index_of(value: usize) -> usize {
    if value.is_multiple_of(4) { value } else { value / 4 % 40 }
}

/// Changes one item of a list.
fn change_item<X>(items: &mut Vec<X>, change: Change, at: usize, new: X) {
    let count = items.len();
    match change {
        Change::Insert => items.insert(at % (count + 1), new),
        Change::Remove if count > 0 => drop(items.remove(at % count)),
        Change::Replace if count > 0 => items[at % count] = new,
        _ => {}
    }
}

/// Changes one item of one of some lists.
fn change_one_of<X>(mut lists: Vec<&mut Vec<X>>, change: Change, at: usize, new: X) {
    let count = lists.len();
    if count > 0 {
        change_item(lists[at % count], change, at / count, new);
    }
}

/// Changes a list of lists. A new one is like its first one.
fn change_list<X: Clone>(lists: &mut Vec<Vec<X>>, change: Change, at: usize) {
    let new = lists.first().cloned().unwrap_or_default();
    change_item(lists, change, at, new);
}
