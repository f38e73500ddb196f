//! The parts of cases and answers: unsigned decimal numbers, each list after its length, a digest without.

use std::fmt::Display;
use std::str::{FromStr, SplitAsciiWhitespace};

use p3_matrix::Dimensions;
use p3_matrix::dense::RowMajorMatrix;

/// A part of a case, or `bad`: its tokens are no such part.
pub type Part<T> = Result<T, &'static str>;

/// The tokens of a line.
pub struct Tokens<'a>(pub SplitAsciiWhitespace<'a>);

impl<'a> Tokens<'a> {
    pub fn word(&mut self) -> Part<&'a str> {
        self.0.next().ok_or("bad")
    }

    pub fn number<T: FromStr>(&mut self) -> Part<T> {
        self.word()?.parse().map_err(|_| "bad")
    }

    pub fn list<T>(&mut self, item: impl Fn(&mut Self) -> Part<T>) -> Part<Vec<T>> {
        (0..self.number()?).map(|_: usize| item(self)).collect()
    }

    pub fn row<T: FromStr>(&mut self) -> Part<Vec<T>> {
        self.list(Self::number)
    }

    pub fn rows<T: FromStr>(&mut self) -> Part<Vec<Vec<T>>> {
        self.list(Self::row)
    }

    pub fn digests<T: FromStr, const D: usize>(&mut self) -> Part<Vec<[T; D]>> {
        self.list(|tokens| (0..D).map(|_| tokens.number()).collect::<Part<Vec<T>>>()?.try_into().map_err(|_| "bad"))
    }

    pub fn size(&mut self) -> Part<Dimensions> {
        let (height, width) = (self.number()?, self.number()?);
        Ok(Dimensions { width, height })
    }

    /// `bad` for rows without columns, which a `RowMajorMatrix` can't have.
    pub fn matrices<T: FromStr + Clone + Default + Send + Sync>(&mut self) -> Part<Vec<RowMajorMatrix<T>>> {
        self.list(|tokens| {
            let Dimensions { width, height } = tokens.size()?;
            let count = height.checked_mul(width).filter(|_| width > 0 || height == 0).ok_or("bad")?;
            let values = (0..count).map(|_| tokens.number()).collect::<Part<_>>()?;
            Ok(RowMajorMatrix::new(values, width))
        })
    }
}

/// The text of a list, each token after a space.
pub fn list<T>(items: &[T], text: impl Fn(&T) -> String) -> String {
    format!(" {}{}", items.len(), items.iter().map(text).collect::<String>())
}

pub fn row<T: Display>(row: &[T]) -> String {
    list(row, |word| format!(" {word}"))
}

pub fn digests<T: Display, const D: usize>(digests: &[[T; D]]) -> String {
    list(digests, |digest| digest.iter().map(|word| format!(" {word}")).collect())
}
