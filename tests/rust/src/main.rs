//! Answers cases by p3-merkle-tree: a case a line on standard input, its answer a line on standard output (README.md).

mod format;
mod hashes;

use std::fmt::Display;
use std::io;
use std::panic;
use std::str::FromStr;

use p3_commit::{BatchOpeningRef, Mmcs};
use p3_field::PackedValue;
use p3_merkle_tree::{MerkleCap, MerkleTreeError, MerkleTreeMmcs, PrunedMerklePaths};
use p3_symmetric::{CryptographicHasher, PseudoCompressionFunction};
use serde::{Deserialize, Serialize};

use format::{Tokens, digests, list, row};
use hashes::{Fold, Sha};

/// An answer, or what stands in place of one: `bad` for a line that is no case, and `panic`.
type Answer = Result<String, &'static str>;

/// The answer to a call, whose arguments are the tokens.
fn answer<W, H, C, const N: usize, const D: usize>(
    call: &str,
    mmcs: &MerkleTreeMmcs<W, W, H, C, N, D>,
    tokens: &mut Tokens,
) -> Answer
where
    W: PackedValue<Value = W> + Default + Eq + FromStr + Display,
    H: CryptographicHasher<W, [W; D]> + Sync,
    C: PseudoCompressionFunction<[W; D], N> + Sync,
    [W; D]: Serialize + for<'de> Deserialize<'de>,
{
    let layer = |cap: &MerkleCap<W, [W; D]>| digests(&(0..cap.num_roots()).map(|i| cap[i]).collect::<Vec<_>>());
    let found = match call {
        "commit" => Ok(layer(&mmcs.commit(tokens.matrices()?).0)),
        "layers" => {
            let (_, tree) = mmcs.commit(tokens.matrices()?);
            let layers: Vec<_> = (0..tree.num_layers()).rev().map(|height| tree.cap(height)).collect();
            Ok(list(&layers, layer))
        }
        "open" => {
            let index = tokens.number()?;
            let (_, tree) = mmcs.commit(tokens.matrices()?);
            let (values, siblings) = mmcs.open_batch(index, &tree).unpack();
            Ok(list(&values, |values| row(values)) + &digests(&siblings))
        }
        "prune" => {
            let indices = tokens.row()?;
            let (_, tree) = mmcs.commit(tokens.matrices()?);
            let (sets, proof) = mmcs.open_multi_batch(&indices, &tree);
            Ok(list(&sets, |set| list(set, |values| row(values))) + &digests(&proof.sibling_hashes))
        }
        "schedule" => mmcs.proof_arity_schedule(&tokens.list(Tokens::size)?).map(|steps| row(&steps)),
        "replay" => {
            let (dimensions, index, num_siblings) = (tokens.list(Tokens::size)?, tokens.number()?, tokens.number()?);
            let replayed = mmcs.replay_arity_and_positions(&dimensions, index, num_siblings);
            replayed.map(|replayed| row(&replayed.arity_schedule) + &row(&replayed.query_positions))
        }
        "verify" => {
            let (cap, dimensions) = (MerkleCap::new(tokens.digests()?), tokens.list(Tokens::size)?);
            let (index, values, siblings) = (tokens.number()?, tokens.rows()?, tokens.digests()?);
            let opening = BatchOpeningRef::new(&values, &siblings);
            mmcs.verify_batch(&cap, &dimensions, index, opening).map(|()| String::new())
        }
        "vprune" => {
            let (cap, dimensions) = (MerkleCap::new(tokens.digests()?), tokens.list(Tokens::size)?);
            let (indices, sets) = (tokens.row()?, tokens.list(Tokens::rows)?);
            let proof = PrunedMerklePaths { sibling_hashes: tokens.digests()? };
            mmcs.verify_multi_batch(&cap, &dimensions, &indices, &sets, &proof).map(|()| String::new())
        }
        "restore" => {
            let (dimensions, indices, sets) = (tokens.list(Tokens::size)?, tokens.row()?, tokens.list(Tokens::rows)?);
            let proof = PrunedMerklePaths { sibling_hashes: tokens.digests()? };
            let paths = mmcs.restore_and_recompute_paths(&dimensions, &indices, &sets, &proof);
            paths.map(|paths| list(&paths, |path| format!(" {}{}", path.leaf_index, digests(&path.siblings))))
        }
        _ => return Err("bad"),
    };
    Ok(found.map_or_else(refusal, |found| format!("ok{found}")))
}

/// The text of a refusal: its variant and its fields, which the debug text has among their names.
fn refusal(error: MerkleTreeError) -> String {
    let text = format!("{error:?}").replace("MalformedPrunedProof", "");
    let words = text.split(|c: char| !c.is_alphanumeric() && c != '_');
    let is_shown = |word: &&str| word.starts_with(|c: char| c.is_uppercase() || c.is_numeric());
    words.filter(is_shown).fold("err".to_string(), |text, word| text + " " + word)
}

/// The answer to a line.
fn case(line: &str) -> Answer {
    let mut tokens = Tokens(line.split_ascii_whitespace());
    let (call, hash, words, arity) = (tokens.word()?, tokens.word()?, tokens.word()?, tokens.word()?);
    let (cap_height, rule) = (tokens.number()?, tokens.word()?);
    macro_rules! by {
        ($hash:expr, $n:literal, $d:literal) => {
            answer(call, &MerkleTreeMmcs::<_, _, _, _, $n, $d>::new($hash, $hash, cap_height), &mut tokens)?
        };
    }
    let found = match (hash, words, arity, rule) {
        ("fold", "1", "2", "x") => by!(Fold, 2, 1),
        ("fold", "1", "4", "x") => by!(Fold, 4, 1),
        ("fold", "1", "8", "x") => by!(Fold, 8, 1),
        ("fold", "2", "2", "x") => by!(Fold, 2, 2),
        ("fold", "2", "4", "x") => by!(Fold, 4, 2),
        ("fold", "2", "8", "x") => by!(Fold, 8, 2),
        ("sha", "32", "2", "x") => by!(Sha, 2, 32),
        ("sha", "32", "4", "x") => by!(Sha, 4, 32),
        ("sha", "32", "8", "x") => by!(Sha, 8, 32),
        _ => return Err("bad"),
    };
    if tokens.word().is_ok() { Err("bad") } else { Ok(found) }
}

fn main() -> io::Result<()> {
    // A panic is an answer.
    panic::set_hook(Box::new(|_| {}));
    for line in io::stdin().lines() {
        let line = line?;
        let answer = panic::catch_unwind(|| case(&line)).unwrap_or(Err("panic"));
        println!("{}", answer.unwrap_or_else(str::to_string));
    }
    Ok(())
}
