//! Times of the calls of the package: the work that bench/src times of the proved sources, under the same names and in
//! lines of the same form, so that both can be set side by side. Salts come from a counter here.
//!
//!     cargo bench --bench times -- short openings
//!
//! short     commits to one matrix of 2^10 to 2^14 rows and of width 1, 8, 64 or 1000
//! sizes     the same up to 2^20 rows
//! batches   commits to eight heights, to 256 short matrices beside a tall one, and to four matrices
//! openings  64 and 1024 openings, by a proof each and by one together, what is done with them, and collisions
//! logs      roots of 10^6 entries and of 10^7 leaf hashes, beside a commit; verification of proofs of inclusion
//! threads   commits to 2^18 rows of 64 bytes, on one thread and on all of them (feature `parallel`)

mod case;
mod generator;
mod logs;
mod schemes;
mod shapes;
#[cfg(feature = "parallel")]
mod threads;

use case::{Case, Outcome};
use core::fmt::Debug;
use fohlazu::hashes::{
    FoldCompress, FoldHash, Sha256Nodes, Sha256NodesInEights, Sha256Rows, Sha256RowsInEights, U32x8,
};
use fohlazu::merkle_tree::{MerkleTreeError, MerkleTreeHidingMmcs, MerkleTreeMmcs};
use fohlazu::support::{Dimensions, Matrix, Mmcs};
use generator::Counting;
use schemes::{time_collisions, time_commits, time_openings};
use shapes::{matrices, shapes};

/// How many salts a row has in the salted scheme.
const SALTS: usize = 4;

/// Measures what a part is about.
fn measure<W: Copy + Debug, M: Matrix<W> + Copy, S: Mmcs<W, M, Error = MerkleTreeError>>(
    case: &Case<'_>,
    form: &str,
    matrices: &[M],
    scheme: &mut S,
) -> Outcome<()> {
    let case = Case { form, ..*case };
    if case.part == "openings" { time_openings(&case, matrices, scheme) } else { time_commits(&case, matrices, scheme) }
}

/// Measures the fold functions: row by row and node by node, in eight lanes, eight messages a call, and with salts.
fn measure_fold<const N: usize, const D: usize>(part: &str, dimensions: &[Dimensions]) -> Outcome<()> {
    let case = Case { part, functions: "fold", form: "scalar", arity: N, digest_words: D, dimensions };
    let matrices = matrices::<u32>(dimensions)?;
    let rows: Vec<_> = matrices.iter().collect();
    let (hash, compress) = (FoldHash::<1>, FoldCompress::<N, 1>);
    let mut plain = MerkleTreeMmcs::<u32, u32, _, _, N, D>::new(hash, compress, 0);
    let mut packed = MerkleTreeMmcs::<U32x8, U32x8, _, _, N, D>::new(hash, compress, 0);
    let mut batched = MerkleTreeMmcs::<u32, u32, _, _, N, D>::new(FoldHash::<8>, FoldCompress::<N, 8>, 0);
    let mut salted =
        MerkleTreeHidingMmcs::<u32, u32, _, _, _, N, D, SALTS>::new(hash, compress, 0, Counting::default());
    if part == "openings" {
        time_collisions(&case, &rows, &plain)?;
    }
    measure(&case, "scalar", &rows, &mut plain)?;
    measure(&case, "packed", &rows, &mut packed)?;
    measure(&case, "batched", &rows, &mut batched)?;
    measure(&case, "salted", &rows, &mut salted)
}

/// Measures SHA-256: row by row and node by node, eight messages a call, and with salts.
fn measure_sha256<const N: usize>(part: &str, dimensions: &[Dimensions]) -> Outcome<()> {
    let case = Case { part, functions: "sha256", form: "scalar", arity: N, digest_words: 32, dimensions };
    let matrices = matrices::<u8>(dimensions)?;
    let rows: Vec<_> = matrices.iter().collect();
    let (hash, compress) = (Sha256Rows, Sha256Nodes::<N>);
    let mut plain = MerkleTreeMmcs::<u8, u8, _, _, N, 32>::new(hash, compress, 0);
    let mut batched = MerkleTreeMmcs::<u8, u8, _, _, N, 32>::new(Sha256RowsInEights, Sha256NodesInEights::<N>, 0);
    let mut salted = MerkleTreeHidingMmcs::<u8, u8, _, _, _, N, 32, SALTS>::new(hash, compress, 0, Counting::default());
    if part == "openings" {
        time_collisions(&case, &rows, &plain)?;
    }
    measure(&case, "scalar", &rows, &mut plain)?;
    measure(&case, "batched", &rows, &mut batched)?;
    measure(&case, "salted", &rows, &mut salted)
}

/// Measures a part that is about schemes.
fn measure_schemes(part: &str) -> Outcome<()> {
    for dimensions in shapes(part)? {
        measure_fold::<2, 1>(part, &dimensions)?;
        measure_fold::<4, 1>(part, &dimensions)?;
        measure_fold::<8, 1>(part, &dimensions)?;
        measure_fold::<2, 8>(part, &dimensions)?;
        measure_sha256::<2>(part, &dimensions)?;
        measure_sha256::<4>(part, &dimensions)?;
        measure_sha256::<8>(part, &dimensions)?;
    }
    Ok(())
}

/// Measures the parts that are named.
fn main() -> Outcome<()> {
    print!("part,work,functions,form,arity,digest_words,rows,width,matrices,words,");
    println!("queries,repetitions,least_us,most_us");
    // Cargo adds an argument of its own, which begins with a hyphen.
    for part in std::env::args().skip(1).filter(|word| !word.starts_with('-')) {
        match part.as_str() {
            "logs" => logs::time_logs()?,
            #[cfg(feature = "parallel")]
            "threads" => threads::time_threads()?,
            part => measure_schemes(part)?,
        }
    }
    Ok(())
}
