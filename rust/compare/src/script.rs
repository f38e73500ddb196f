//! A script: matrices, and what is asked of two schemes that commit to them. It is plain data, so that a smaller script
//! can be made of it.

use crate::endless::{exponent, height_after};
use crate::random::Random;
use crate::words::{Table, Word};
use p3_matrix::Dimensions;
use std::fmt::{self, Display};

/// The hasher and the compression of a script, and how many messages they take together.
#[derive(Clone, Copy, Debug, PartialEq, Eq)]
pub enum Hashing {
    /// The fold functions.
    Fold,
    /// The fold functions over words that are packed by eight.
    FoldPackedBy8,
    /// The fold functions, in batches of eight.
    FoldInEights,
    /// SHA-256 in batches of eight.
    Sha256InEights,
    /// A sponge over a toy field whose elements are packed by four.
    FieldPackedBy4,
}

impl Hashing {
    const ALL: [Hashing; 5] = [
        Hashing::Fold,
        Hashing::FoldPackedBy8,
        Hashing::FoldInEights,
        Hashing::Sha256InEights,
        Hashing::FieldPackedBy4,
    ];
}

/// How the rows of several queries lie.
#[derive(Clone, Copy, Debug, PartialEq, Eq)]
pub enum RowForm {
    /// In vectors.
    Vectors,
    /// In slices.
    Slices,
    /// In a type whose `==` says that no two rows are equal.
    NeverEqual,
}

/// What a damage changes.
#[derive(Clone, Copy, Debug, PartialEq, Eq)]
pub enum Place {
    /// The digests of the proof.
    Digests,
    /// The digests of the cap.
    Cap,
    /// The dimensions of the matrices.
    Sizes,
    /// The indices.
    Indices,
    /// The words of a row.
    Words,
    /// The rows of a query.
    Rows,
    /// The queries' lists of rows.
    RowLists,
    /// The words of a salt.
    SaltWords,
    /// The salts of a query.
    Salts,
    /// The queries' lists of salts.
    SaltLists,
}

/// How a damage changes a list.
#[derive(Clone, Copy, Debug, PartialEq, Eq)]
pub enum Change {
    /// One more item.
    Insert,
    /// An item less.
    Remove,
    /// Another item.
    Replace,
}

/// A change of an opening, of its cap or of the dimensions.
#[derive(Clone, Copy, Debug, PartialEq, Eq)]
pub struct Damage {
    pub place: Place,
    pub change: Change,
    /// Which item is changed, modulo their number.
    pub at: usize,
    /// From what the new item is made.
    pub value: usize,
}

/// An opening of one index, or of several by one proof: it is verified as it is, and after each damage.
#[derive(Clone, Debug, PartialEq, Eq)]
pub struct Step {
    pub is_pruned: bool,
    pub indices: Vec<usize>,
    pub rows: RowForm,
    pub damages: Vec<Damage>,
}

/// What is asked of both schemes.
#[derive(Clone, Debug, PartialEq, Eq)]
pub struct Script {
    pub hashing: Hashing,
    pub arity: usize,
    pub cap_height: usize,
    /// The seed of the salts, if the schemes are salted.
    pub salts: Option<u64>,
    /// The sizes of the matrices.
    pub sizes: Vec<Dimensions>,
    /// The seed of the words of the matrices.
    pub words: u64,
    /// Whether a clone of the scheme commits, too.
    pub has_clone: bool,
    pub steps: Vec<Step>,
}

impl Script {
    /// The height of the tallest matrix.
    pub fn tallest(&self) -> usize {
        self.sizes.iter().map(|size| size.height).max().unwrap_or(0)
    }

    /// The matrices.
    pub fn matrices<T: Word>(&self) -> Vec<Table<T>> {
        let mut random = Random::new(self.words);
        self.sizes.iter().map(|&size| Table::random(size, &mut random)).collect()
    }

    /// A random script.
    pub fn random(random: &mut Random) -> Script {
        let sizes = sizes(random);
        let tallest = sizes.iter().map(|size| size.height).max().unwrap_or(0);
        Script {
            hashing: random.choice(&Hashing::ALL),
            arity: random.choice(&[2, 4, 8]),
            cap_height: if random.one_in(20) { usize::MAX } else { random.below(6) },
            salts: random.one_in(2).then(|| random.number()),
            sizes,
            words: random.number(),
            has_clone: random.one_in(8),
            steps: (0..7).map(|step| random_step(random, tallest, step >= 4)).collect(),
        }
    }
}

impl Display for Script {
    fn fmt(&self, f: &mut fmt::Formatter<'_>) -> fmt::Result {
        let Script { hashing, arity, cap_height, salts, sizes, words, has_clone, steps } = self;
        let scheme = if salts.is_some() { "salted" } else { "plain" };
        write!(f, "  {hashing:?}, {scheme}, arity {arity}, cap height {cap_height}, words of seed {words}, matrices")?;
        sizes.iter().try_for_each(|size| write!(f, " {}x{}", size.height, size.width))?;
        if *has_clone {
            write!(f, "\n  a clone commits")?;
        }
        for Step { is_pruned, indices, rows, damages } in steps {
            let kind = if *is_pruned { "together" } else { "alone" };
            write!(f, "\n  {indices:?} {kind}, rows as {rows:?}")?;
            for Damage { place, change, at, value } in damages {
                write!(f, "\n    {change:?} of {place:?} at {at}: {value}")?;
            }
        }
        Ok(())
    }
}

/// The sizes of matrices. Most heights are those of a tree: the tallest one halved some times, each time rounded up.
fn sizes(random: &mut Random) -> Vec<Dimensions> {
    if random.one_in(200) {
        return Vec::new();
    }
    let tallest = match random.below(200) {
        0 => 0,
        1..25 => 1 + random.below(300),
        _ => 1 + random.below(40),
    };
    let other = |random: &mut Random| match random.below(40) {
        0 => random.below(tallest + 2),
        _ => height_after(tallest, random.below(1 + exponent(tallest))),
    };
    let mut heights: Vec<usize> = (0..random.below(5)).map(|_| other(random)).collect();
    heights.insert(random.below(heights.len() + 1), tallest);
    let width = |random: &mut Random| if random.one_in(30) { 0 } else { 1 + random.below(6) };
    heights.into_iter().map(|height| Dimensions { width: width(random), height }).collect()
}

/// A random step over leaves of this number.
fn random_step(random: &mut Random, tallest: usize, is_pruned: bool) -> Step {
    let count = if is_pruned { random.below(7) } else { 1 };
    let mut index = || random.below(tallest.max(1)) + usize::from(random.one_in(100));
    let indices = (0..count).map(|_| index()).collect();
    let rows = match random.below(8) {
        0 => RowForm::Slices,
        1 if is_pruned => RowForm::NeverEqual,
        _ => RowForm::Vectors,
    };
    Step { is_pruned, indices, rows, damages: (0..2).map(|_| random_damage(random)).collect() }
}

/// A random damage.
fn random_damage(random: &mut Random) -> Damage {
    let place = match random.below(24) {
        0..3 => Place::Digests,
        3..5 => Place::Cap,
        5..8 => Place::Sizes,
        8..11 => Place::Indices,
        11..17 => Place::Words,
        17 => Place::Rows,
        18 => Place::RowLists,
        19..22 => Place::SaltWords,
        22 => Place::Salts,
        _ => Place::SaltLists,
    };
    let change = random.choice(&[Change::Insert, Change::Remove, Change::Replace]);
    let value = (random.number() >> random.below(64)) as usize;
    Damage { place, change, at: random.below(1 << 20), value }
}
