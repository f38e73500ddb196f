//! The answers of a scheme.

use crate::numbers::{Numbers, Part};
use crate::table::Table;
use fohlazu::merkle_tree::{
    ArityAndPositions, BatchOpeningRef, MerkleCap, MerkleTreeError, MerkleTreeMmcs, PrunedProof, check_indices,
};
use fohlazu::support::{CryptographicHasher, Dimensions, Mmcs, PackedValue, PseudoCompressionFunction, SaltWord};

/// A word of rows and digests.
pub trait Word: Copy + Default + Part + SaltWord {}

impl Word for u32 {}

impl Word for u8 {}

/// An answer: numbers, or why there are none.
pub type Answer = Result<Vec<u64>, MerkleTreeError>;

/// The answer that is a value.
fn answer_of<V: Part>(value: &V) -> Answer {
    let mut answer = Vec::new();
    value.write(&mut answer);
    Ok(answer)
}

/// Reads the matrices at the end of a case.
fn tables_in<T: Part>(mut numbers: Numbers<'_>) -> Vec<Table<T>> {
    let tables = numbers.read();
    numbers.end();
    tables
}

/// The answer of a scheme to a call that schemes have with salts and without. A verdict has no numbers:
///
/// - `commit MATRICES`: the cap
/// - `open INDEX MATRICES`: the rows of the index, and their proof
/// - `prune INDICES MATRICES`: the rows of each index, and one proof of them
/// - `verify CAP DIMENSIONS INDEX ROWS PROOF`
/// - `vprune CAP DIMENSIONS INDICES SETS PROOF`
pub fn answer_to_shared<
    T: Word,
    X: Part + Copy,
    S: Mmcs<T, Table<T>, Commitment = MerkleCap<T, X>, Error = MerkleTreeError, Proof: Part, MultiProof: Part>,
>(
    scheme: &mut S,
    call: &str,
    mut numbers: Numbers<'_>,
) -> Answer {
    match call {
        "commit" => {
            let (cap, _) = scheme.commit(tables_in(numbers))?;
            answer_of(&cap.roots().to_vec())
        }
        "open" => {
            let index = numbers.read();
            let (_, tree) = scheme.commit(tables_in(numbers))?;
            check_indices(scheme.get_max_height(&tree), &[index])?;
            answer_of(&scheme.open_batch(index, &tree)?.unpack())
        }
        "prune" => {
            let indices: Vec<usize> = numbers.read();
            let (_, tree) = scheme.commit(tables_in(numbers))?;
            check_indices(scheme.get_max_height(&tree), &indices)?;
            answer_of(&scheme.open_multi_batch(&indices, &tree)?)
        }
        "verify" => {
            let (cap, dimensions): (_, Vec<Dimensions>) = (MerkleCap::new(numbers.read()), numbers.read());
            let (index, rows, proof): (_, Vec<_>, _) = (numbers.read(), numbers.read(), numbers.read());
            numbers.end();
            scheme.verify_batch(&cap, &dimensions, index, BatchOpeningRef::new(&rows, &proof))?;
            Ok(Vec::new())
        }
        "vprune" => {
            let (cap, dimensions): (_, Vec<Dimensions>) = (MerkleCap::new(numbers.read()), numbers.read());
            let (indices, rows, proof): (Vec<_>, Vec<_>, _) = (numbers.read(), numbers.read(), numbers.read());
            numbers.end();
            scheme.verify_multi_batch(&cap, &dimensions, &indices, &rows, &proof)?;
            Ok(Vec::new())
        }
        _ => panic!("no call: {call}"),
    }
}

/// The answer of a scheme to a call that plain schemes alone have:
///
/// - `layers MATRICES`: each layer, the leaves first
/// - `restore DIMENSIONS INDICES SETS PROOF`: the path of each index
/// - `schedule DIMENSIONS`: the steps
/// - `replay DIMENSIONS INDEX NUM_SIBLINGS`: the steps, and the positions of the path
pub fn answer_to_plain<
    T: Word,
    P: PackedValue<Value = T>,
    H: CryptographicHasher<P, P, D>,
    C: PseudoCompressionFunction<P, N, D>,
    const N: usize,
    const D: usize,
>(
    scheme: &MerkleTreeMmcs<P, P, H, C, N, D>,
    call: &str,
    mut numbers: Numbers<'_>,
) -> Answer {
    if call == "layers" {
        let (_, tree) = scheme.commit(tables_in::<T>(numbers))?;
        let mut layers = Vec::new();
        for cap_height in (0..tree.num_layers()).rev() {
            layers.push(tree.cap(cap_height)?.roots().to_vec());
        }
        return answer_of(&layers);
    }
    let dimensions: Vec<Dimensions> = numbers.read();
    match call {
        "schedule" => {
            numbers.end();
            answer_of(&scheme.proof_arity_schedule(&dimensions)?)
        }
        "replay" => {
            let (index, count) = numbers.read();
            numbers.end();
            let ArityAndPositions { arity_schedule, query_positions } =
                scheme.replay_arity_and_positions(&dimensions, index, count)?;
            answer_of(&(arity_schedule, query_positions))
        }
        "restore" => {
            let (indices, rows): (Vec<usize>, Vec<Vec<Vec<T>>>) = numbers.read();
            let proof: PrunedProof<[T; D]> = numbers.read();
            numbers.end();
            answer_of(&scheme.restore_and_recompute_paths(&dimensions, &indices, &rows, &proof)?)
        }
        _ => panic!("no call: {call}"),
    }
}
