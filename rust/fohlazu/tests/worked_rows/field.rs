//! How values are written, in cases and answers. What stands often in a list is written once, with its count:
//! `NUMBER*COUNT`, `WIDTHxHEIGHT*COUNT`, `ROW times COUNT`, `ROWS sets COUNT`. `FIRST..END` are the numbers from one up
//! to another.

use crate::case::{Case, fields};
use fohlazu::merkle_tree::PrunedProof;
use fohlazu::support::Dimensions;

/// How a list is written.
pub struct List {
    /// What stands between two items.
    between: &'static str,
    /// What stands between an item and its count.
    times: &'static str,
    /// An empty list.
    none: &'static str,
}

/// Numbers.
pub const NUMBERS: List = List { between: " ", times: "*", none: "-" };

/// Lists of numbers.
pub const ROWS: List = List { between: "; ", times: " times ", none: "none" };

/// Lists of rows.
const SETS: List = List { between: " / ", times: " sets ", none: "-" };

/// A value in a text, alone or in a list.
pub trait Item: Sized + Clone + PartialEq {
    /// How a list of such values is written.
    const LIST: List;

    /// How a list of such lists is written.
    const LISTS: List;

    /// The value that a text is.
    fn parse(text: &str) -> Self;

    /// The value as text.
    fn show(&self) -> String;

    /// The values that a part of a list stands for, without its count.
    fn parse_part(text: &str) -> Vec<Self> {
        vec![Self::parse(text)]
    }
}

/// A list as text.
pub fn show_list<T: Item>(items: &[T]) -> String {
    if items.is_empty() {
        return T::LIST.none.to_string();
    }
    items.iter().map(Item::show).collect::<Vec<_>>().join(T::LIST.between)
}

impl<T: Item> Item for Vec<T> {
    const LIST: List = T::LISTS;

    const LISTS: List = SETS;

    fn parse(text: &str) -> Vec<T> {
        let mut items = Vec::new();
        if text != T::LIST.none {
            for part in text.split(T::LIST.between) {
                let (part, count) = part.split_once(T::LIST.times).unwrap_or((part, "1"));
                let part = T::parse_part(part);
                items.extend(std::iter::repeat_n(part, usize::parse(count)).flatten());
            }
        }
        items
    }

    fn show(&self) -> String {
        show_list(self)
    }
}

/// The number that a text is.
fn number<T: std::str::FromStr>(text: &str) -> T {
    text.parse().unwrap_or_else(|_| panic!("no number: {text:?}"))
}

impl Item for usize {
    const LIST: List = NUMBERS;

    const LISTS: List = ROWS;

    fn parse(text: &str) -> usize {
        number(text)
    }

    fn show(&self) -> String {
        self.to_string()
    }

    fn parse_part(text: &str) -> Vec<usize> {
        match text.split_once("..") {
            Some((first, end)) => (number(first)..number(end)).collect(),
            None => vec![number(text)],
        }
    }
}

macro_rules! word_items {
    ($($word:ty)*) => {$(
        impl Item for $word {
            const LIST: List = NUMBERS;

            const LISTS: List = ROWS;

            fn parse(text: &str) -> $word {
                number(text)
            }

            fn show(&self) -> String {
                self.to_string()
            }
        }
    )*};
}

word_items!(u8 u32);

impl Item for [u32; 1] {
    const LIST: List = NUMBERS;

    const LISTS: List = ROWS;

    fn parse(text: &str) -> [u32; 1] {
        [number(text)]
    }

    fn show(&self) -> String {
        self[0].to_string()
    }
}

/// A digest of SHA-256 has two hexadecimal digits for each byte.
impl Item for [u8; 32] {
    const LIST: List = NUMBERS;

    const LISTS: List = ROWS;

    fn parse(text: &str) -> [u8; 32] {
        assert_eq!(text.len(), 64, "no digest: {text}");
        std::array::from_fn(|i| u8::from_str_radix(&text[2 * i..2 * i + 2], 16).expect("digits are hexadecimal"))
    }

    fn show(&self) -> String {
        self.iter().map(|byte| format!("{byte:02x}")).collect()
    }
}

impl Item for Dimensions {
    const LIST: List = List { between: " ", times: "*", none: "none" };

    const LISTS: List = ROWS;

    fn parse(text: &str) -> Dimensions {
        let (width, height) = text.split_once('x').expect("dimensions are WIDTHxHEIGHT");
        Dimensions { width: number(width), height: number(height) }
    }

    fn show(&self) -> String {
        format!("{}x{}", self.width, self.height)
    }
}

/// A value that is one field of a line, or several.
pub trait Field: Sized {
    /// Reads the value.
    fn read(case: &mut Case<'_>) -> Self;

    /// The value as text.
    fn show(&self) -> String;
}

impl Field for usize {
    fn read(case: &mut Case<'_>) -> usize {
        usize::parse(case.take())
    }

    fn show(&self) -> String {
        Item::show(self)
    }
}

impl<T: Item> Field for Vec<T> {
    fn read(case: &mut Case<'_>) -> Vec<T> {
        Vec::parse(case.take())
    }

    fn show(&self) -> String {
        show_list(self)
    }
}

impl<X: Item> Field for PrunedProof<X> {
    fn read(case: &mut Case<'_>) -> PrunedProof<X> {
        PrunedProof { sibling_hashes: case.read() }
    }

    fn show(&self) -> String {
        show_list(&self.sibling_hashes)
    }
}

impl<A: Field, B: Field> Field for (A, B) {
    fn read(case: &mut Case<'_>) -> (A, B) {
        let first = A::read(case);
        (first, B::read(case))
    }

    fn show(&self) -> String {
        fields([self.0.show(), self.1.show()])
    }
}
