//! The trees of logs, and verification of proofs about them.

use crate::case::{Case, Outcome};
use crate::shapes::{equal, matrices};
use fohlazu::hashes::{Sha256NodesInEights, Sha256RowsInEights};
use fohlazu::merkle_tree::MerkleTreeMmcs;
use fohlazu::support::RowMajorMatrix;
use fohlazu::tlog::{Frontier, leaf_hashes, verify_inclusion};

/// How many entries of `ENTRY` bytes a log has, and how many leaf hashes are pushed to another.
const ENTRIES: usize = 1_000_000;

const ENTRY: usize = 64;

const LEAVES: usize = 10_000_000;

/// How many entries are hashed together.
const PIECE: usize = 4096;

/// How many proofs are verified, each of so many digests, in a log of 2^20 entries.
const PROOFS: usize = 1024;

const DIGESTS: usize = 20;

const SIZE: usize = 1_048_576;

/// How often each is timed.
const REPETITIONS: usize = 5;

/// The root of a log of these bytes, cut into entries.
fn root_of_entries(bytes: &[u8]) -> Outcome<[u8; 32]> {
    let mut frontier = Frontier::new();
    for piece in bytes.chunks(ENTRY * PIECE) {
        let entries: Vec<&[u8]> = piece.chunks(ENTRY).collect();
        frontier.push_many(&leaf_hashes(&entries)?)?;
    }
    Ok(frontier.root())
}

/// The root of a log of these leaf hashes.
fn root_of_leaves(leaves: &[[u8; 32]]) -> Outcome<[u8; 32]> {
    let mut frontier = Frontier::new();
    frontier.push_many(leaves)?;
    Ok(frontier.root())
}

/// The root of the tree over rows, as a commit builds it.
fn root_of_rows(rows: &RowMajorMatrix<u8>) -> Outcome<[u8; 32]> {
    let (hash, compress) = (Sha256RowsInEights, Sha256NodesInEights::<2>);
    let scheme = MerkleTreeMmcs::<u8, u8, _, _, 2, 32>::new(hash, compress, 0);
    let (_cap, tree) = scheme.commit(vec![rows])?;
    Ok(*tree.root().value())
}

/// Verifies proofs of other leaves than they name: each is hashed to its end, and refused.
fn refuse_each(leaves: &[[u8; 32]]) -> Outcome<()> {
    let (leaf, proof) = (&leaves[DIGESTS], &leaves[..DIGESTS]);
    for index in 0..PROOFS {
        if verify_inclusion(index, SIZE, leaf, proof, leaf).is_ok() {
            return Err("a proof is accepted".into());
        }
    }
    Ok(())
}

/// Times the root of entries, that of leaf hashes beside a commit to them, which hashes each once more, and proofs.
pub fn time_logs() -> Outcome<()> {
    let shape = equal(1, ENTRY, ENTRIES);
    let case =
        Case { part: "logs", functions: "sha256", form: "frontier", arity: 2, digest_words: 32, dimensions: &shape };
    let entries = &matrices::<u8>(&shape)?[0];
    case.time("root of entries", 0, REPETITIONS, || root_of_entries(entries.values()))?;
    let shape = equal(1, 32, LEAVES);
    let case = Case { dimensions: &shape, ..case };
    let rows = &matrices::<u8>(&shape)?[0];
    let (leaves, _) = rows.values().as_chunks::<32>();
    case.time("root of leaves", 0, REPETITIONS, || root_of_leaves(leaves))?;
    case.time("inclusion", PROOFS, REPETITIONS, || refuse_each(leaves))?;
    let case = Case { form: "commit", ..case };
    case.time("root of leaves", 0, REPETITIONS, || root_of_rows(rows))?;
    Ok(())
}
