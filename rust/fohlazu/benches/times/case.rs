//! The lines that are printed: what was measured, on what, and the least and the greatest of its times.

use core::error::Error;
use core::hint::black_box;
use core::time::Duration;
use fohlazu::support::Dimensions;
use std::time::Instant;

/// What a measurement returns.
pub type Outcome<T> = Result<T, Box<dyn Error>>;

/// What is measured: a part's scheme and batch.
#[derive(Clone, Copy)]
pub struct Case<'a> {
    pub part: &'a str,
    pub functions: &'a str,
    pub form: &'a str,
    pub arity: usize,
    pub digest_words: usize,
    pub dimensions: &'a [Dimensions],
}

impl Case<'_> {
    /// How many words the matrices have.
    fn words(&self) -> usize {
        self.dimensions.iter().map(|matrix| matrix.width * matrix.height).sum()
    }

    /// How often a call over all words is repeated: more often where it is short.
    pub fn repetitions(&self) -> usize {
        (16_777_216 / (self.words() * self.digest_words).max(1)).clamp(5, 100)
    }

    /// Runs a call once, then times it so often, and prints the line. Returns what the first call returned.
    pub fn time<R>(
        &self,
        work: &str,
        queries: usize,
        repetitions: usize,
        mut call: impl FnMut() -> Outcome<R>,
    ) -> Outcome<R> {
        let (mut least, mut most) = (Duration::MAX, Duration::ZERO);
        let first = call()?;
        for _ in 0..repetitions {
            let start = Instant::now();
            let again = call()?;
            let time = start.elapsed();
            black_box(again);
            least = least.min(time);
            most = most.max(time);
        }
        let Case { part, functions, form, arity, digest_words, dimensions } = self;
        let (rows, width) = dimensions.first().map_or((0, 0), |matrix| (matrix.height, matrix.width));
        let (matrices, words) = (dimensions.len(), self.words());
        println!(
            "{part},{work},{functions},{form},{arity},{digest_words},{rows},{width},{matrices},{words},{queries},\
             {repetitions},{:.3},{:.3}",
            least.as_secs_f64() * 1e6,
            most.as_secs_f64() * 1e6
        );
        Ok(first)
    }
}
