//! The speed of both, line by line: `bench [PART ..]`. README.md says how to run it.

mod functions;
mod lines;
mod times;
mod work;

use functions::{Eight, Fold, Sha256};
use lines::{Form, Hash, LINES, Lines, Shape, THREADS, Work};
use std::process::ExitCode;
use times::Times;

/// What is timed of one line.
struct Line {
    hash: Hash,
    form: Form,
    shape: Shape,
    work: Work,
    queries: usize,
}

impl Line {
    /// Times the line at an arity. Only what some line times is compiled.
    fn timed<const N: usize>(&self) -> Times {
        let (work, queries, dimensions) = (self.work, self.queries, &self.shape.dimensions());
        match (work, self.hash, self.form) {
            (Work::Commit, Hash::OneWord, Form::Scalar) => work::commit::<u32, _, N, 1>(Fold::<1>, dimensions),
            (Work::Commit, Hash::OneWord, Form::Packed) => work::commit::<Eight, _, N, 1>(Fold::<1>, dimensions),
            (Work::Commit, Hash::OneWord, Form::Batched) => work::commit::<u32, _, N, 1>(Fold::<8>, dimensions),
            (Work::Commit, Hash::OneWord, Form::Salted) => work::commit_salted::<u32, _, N, 1>(Fold::<1>, dimensions),
            (Work::Commit, Hash::EightWords, Form::Scalar) => work::commit::<u32, _, N, 8>(Fold::<1>, dimensions),
            (Work::Commit, Hash::EightWords, Form::Packed) => work::commit::<Eight, _, N, 8>(Fold::<1>, dimensions),
            (Work::Commit, Hash::EightWords, Form::Batched) => work::commit::<u32, _, N, 8>(Fold::<8>, dimensions),
            (Work::Commit, Hash::Sha256, Form::Scalar) => work::commit::<u8, _, N, 32>(Sha256::<1>, dimensions),
            (Work::Commit, Hash::Sha256, Form::Batched) => work::commit::<u8, _, N, 32>(Sha256::<8>, dimensions),
            (Work::Commit, Hash::Sha256, Form::Salted) => work::commit_salted::<u8, _, N, 32>(Sha256::<1>, dimensions),
            (_, Hash::OneWord, Form::Scalar) => work::open::<u32, _, N, 1>(Fold::<1>, work, queries, dimensions),
            (_, Hash::OneWord, Form::Salted) => work::open_salted::<u32, _, N, 1>(Fold::<1>, work, queries, dimensions),
            (_, Hash::EightWords, Form::Scalar) => work::open::<u32, _, N, 8>(Fold::<1>, work, queries, dimensions),
            (_, Hash::Sha256, Form::Batched) => work::open::<u8, _, N, 32>(Sha256::<8>, work, queries, dimensions),
            (work, hash, form) => panic!("{work:?} by {hash:?}, {form:?}: not compiled"),
        }
    }

    /// Times the line at an arity and prints it. Returns whether it is within its limit.
    fn is_within(&self, arity: usize, limit: f64) -> bool {
        let times = match arity {
            2 => self.timed::<2>(),
            _ => self.timed::<4>(),
        };
        let is_within = times.ratio() <= limit;
        println!(
            "{:<14} {:>7} {:<10} {:<7} {:<13} {arity} {:>11.1} {:>11.1} {:>6.2} {limit:>5.2}{}",
            format!("{:?}", self.work),
            self.queries,
            format!("{:?}", self.hash),
            format!("{:?}", self.form),
            self.shape.name(),
            times.here.as_secs_f64() * 1e6,
            times.original.as_secs_f64() * 1e6,
            times.ratio(),
            if is_within { "" } else { " over" },
        );
        is_within
    }
}

/// The lines of parts, or all where no part is named, each with its limits at the arities 2 and 4.
fn lines_of(parts: &[String]) -> Vec<(Line, [f64; 2])> {
    let mut found = Vec::new();
    let table = if cfg!(feature = "parallel") { THREADS } else { LINES };
    for &Lines { part, hashes, forms, shapes, works, queries, limits } in table {
        if !parts.is_empty() && !parts.iter().any(|name| name == part) {
            continue;
        }
        for &hash in hashes {
            for &form in forms {
                for &shape in shapes {
                    for &work in works {
                        let lines = queries.iter().map(|&queries| Line { hash, form, shape, work, queries });
                        found.extend(lines.map(|line| (line, limits)));
                    }
                }
            }
        }
    }
    found
}

/// Times the lines of the parts that are named, or all, and prints them. It fails if one is above its limit.
fn main() -> ExitCode {
    let parts: Vec<String> = std::env::args().skip(1).collect();
    println!(
        "{:<14} {:>7} {:<10} {:<7} {:<13} N {:>11} {:>11} {:>6} {:>5}",
        "work", "queries", "hash", "form", "matrices", "here us", "original us", "ratio", "limit"
    );
    let mut all_within = true;
    for (line, limits) in lines_of(&parts) {
        for (arity, limit) in [2, 4].into_iter().zip(limits) {
            all_within &= line.is_within(arity, limit);
        }
    }
    if all_within { ExitCode::SUCCESS } else { ExitCode::FAILURE }
}
