//! Commits on one thread and on all of them.

use crate::SALTS;
use crate::case::{Case, Outcome};
use crate::generator::Counting;
use crate::shapes::{equal, matrices};
use fohlazu::hashes::{Sha256Nodes, Sha256NodesInEights, Sha256Rows, Sha256RowsInEights};
use fohlazu::merkle_tree::{MerkleTreeHidingMmcs, MerkleTreeMmcs};
use fohlazu::parallel::Parallel;
use fohlazu::support::{CryptographicHasher, Dimensions, PseudoCompressionFunction};

/// How many rows there are, and how many bytes a row has in all.
const ROWS: usize = 262_144;

const BYTES: usize = 64;

/// How often each is timed, in turn.
const REPETITIONS: usize = 3;

const TURNS: usize = 5;

/// Times a commit by a plain scheme, and by a salted one.
fn time_scheme<H, C>(form: &str, work: [&str; 2], dimensions: &[Dimensions], hash: H, compress: C) -> Outcome<()>
where
    H: CryptographicHasher<u8, u8, 32> + Copy,
    C: PseudoCompressionFunction<u8, 2, 32> + Copy,
{
    let case = Case { part: "threads", functions: "sha256", form, arity: 2, digest_words: 32, dimensions };
    let matrices = matrices::<u8>(dimensions)?;
    let plain = MerkleTreeMmcs::<u8, u8, _, _, 2, 32>::new(hash, compress, 0);
    case.time(work[0], 0, REPETITIONS, || Ok(plain.commit(matrices.iter().collect())?))?;
    let mut salted = MerkleTreeHidingMmcs::<u8, u8, _, _, _, 2, 32, SALTS>::new(hash, compress, 0, Counting::default());
    case.time(work[1], 0, REPETITIONS, || Ok(salted.commit(matrices.iter().collect())?))?;
    Ok(())
}

/// Times commits to one matrix and to four, one message a call and eight, on one thread and on all, in turn.
pub fn time_threads() -> Outcome<()> {
    for _ in 0..TURNS {
        for dimensions in [equal(1, BYTES, ROWS), equal(4, BYTES / 4, ROWS)] {
            let work = ["commit", "salted commit"];
            let (rows, nodes) = (Sha256Rows, Sha256Nodes::<2>);
            time_scheme("singly", work, &dimensions, rows, nodes)?;
            time_scheme("singly on threads", work, &dimensions, Parallel(rows), Parallel(nodes))?;
            let (rows, nodes) = (Sha256RowsInEights, Sha256NodesInEights::<2>);
            time_scheme("eights", work, &dimensions, rows, nodes)?;
            time_scheme("eights on threads", work, &dimensions, Parallel(rows), Parallel(nodes))?;
        }
    }
    Ok(())
}
