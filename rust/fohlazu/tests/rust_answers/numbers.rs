//! Values of cases and answers as numbers: a list is its length and its items, a digest its words alone.

use fohlazu::merkle_tree::{AuthPath, PrunedProof};
use fohlazu::support::Dimensions;

/// The numbers of a case that are not read yet.
#[derive(Clone, Copy)]
pub struct Numbers<'a>(pub &'a [u64]);

impl Numbers<'_> {
    /// The next number.
    pub fn number(&mut self) -> u64 {
        let (first, rest) = self.0.split_first().expect("a case has all its numbers");
        self.0 = rest;
        *first
    }

    /// The next value.
    pub fn read<V: Part>(&mut self) -> V {
        V::read(self)
    }

    /// Checks that no number is left.
    pub fn end(&self) {
        assert!(self.0.is_empty(), "a case has no more numbers");
    }
}

/// A value that cases and answers have.
pub trait Part: Sized {
    /// Reads the value.
    fn read(numbers: &mut Numbers<'_>) -> Self;

    /// Adds the value to an answer.
    fn write(&self, answer: &mut Vec<u64>);
}

macro_rules! number_parts {
    ($($number:ty)*) => {$(
        impl Part for $number {
            fn read(numbers: &mut Numbers<'_>) -> $number {
                <$number>::try_from(numbers.number()).expect("a number fits its type")
            }

            fn write(&self, answer: &mut Vec<u64>) {
                answer.push(*self as u64);
            }
        }
    )*};
}

number_parts!(u8 u32 usize);

impl<T: Part, const D: usize> Part for [T; D] {
    fn read(numbers: &mut Numbers<'_>) -> [T; D] {
        std::array::from_fn(|_| numbers.read())
    }

    fn write(&self, answer: &mut Vec<u64>) {
        for word in self {
            word.write(answer);
        }
    }
}

impl<T: Part> Part for Vec<T> {
    fn read(numbers: &mut Numbers<'_>) -> Vec<T> {
        (0..usize::read(numbers)).map(|_| T::read(numbers)).collect()
    }

    fn write(&self, answer: &mut Vec<u64>) {
        self.len().write(answer);
        for item in self {
            item.write(answer);
        }
    }
}

impl<A: Part, B: Part> Part for (A, B) {
    fn read(numbers: &mut Numbers<'_>) -> (A, B) {
        let first = A::read(numbers);
        (first, B::read(numbers))
    }

    fn write(&self, answer: &mut Vec<u64>) {
        self.0.write(answer);
        self.1.write(answer);
    }
}

/// `HEIGHT WIDTH`.
impl Part for Dimensions {
    fn read(numbers: &mut Numbers<'_>) -> Dimensions {
        let (height, width) = numbers.read();
        Dimensions { width, height }
    }

    fn write(&self, answer: &mut Vec<u64>) {
        (self.height, self.width).write(answer);
    }
}

impl<X: Part> Part for PrunedProof<X> {
    fn read(numbers: &mut Numbers<'_>) -> PrunedProof<X> {
        PrunedProof { sibling_hashes: numbers.read() }
    }

    fn write(&self, answer: &mut Vec<u64>) {
        self.sibling_hashes.write(answer);
    }
}

impl<X: Part> Part for AuthPath<X> {
    fn read(numbers: &mut Numbers<'_>) -> AuthPath<X> {
        let (leaf_index, siblings) = numbers.read();
        AuthPath { leaf_index, siblings }
    }

    fn write(&self, answer: &mut Vec<u64>) {
        self.leaf_index.write(answer);
        self.siblings.write(answer);
    }
}
