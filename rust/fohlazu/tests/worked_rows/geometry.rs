//! Cases of schedules, proof lengths and heights, which need no words of matrices, and of the shapes of trees.

use crate::builders::layers_of;
use crate::case::{Answer, Case, fields, text_of};
use crate::field::show_list;
use crate::matrices::matrices_by;
use crate::scheme::{FoldScheme, ROOT, fold_scheme};
use fohlazu::hashes::{FoldCompress, FoldHash};
use fohlazu::merkle_tree::{BatchOpeningRef, MerkleCap, MerkleTree};
use fohlazu::support::{Dimensions, Matrix};

/// A matrix whose every word is the number of its row, from 0. It takes no memory, whatever its height.
#[derive(Clone, Copy, Debug)]
pub struct Numbers(Dimensions);

impl Matrix<u32> for Numbers {
    fn height(&self) -> usize {
        self.0.height
    }

    fn width(&self) -> usize {
        self.0.width
    }

    fn get(&self, row: usize, _column: usize) -> u32 {
        row as u32
    }
}

/// A matrix of each of these dimensions.
pub fn tall_matrices(dimensions: &[Dimensions]) -> Vec<Numbers> {
    dimensions.iter().copied().map(Numbers).collect()
}

/// Answers a case of heights by a scheme:
///
/// - `schedule | ARITY | CAP | HEIGHTS | STEPS`: the steps from the leaves up to the cap;
/// - `replay | ARITY | CAP | HEIGHTS | INDEX | NUMBER OF SIBLINGS | STEPS | POSITIONS`: the steps on the path of an
///   index, and its position in each group;
/// - `authenticated | ARITY | CAP | HEIGHTS | ANSWERS`: `yes` or `no` for each matrix;
/// - `pruned_len | ARITY | CAP | HEIGHTS | INDICES | DIGESTS`: the number of digests in a pruned proof of the indices.
pub fn geometry<const N: usize, const D: usize>(case: &mut Case<'_>, kind: &str, scheme: &FoldScheme<N, D>) -> Answer {
    let columns = case.columns();
    match kind {
        "schedule" => Ok(show_list(&scheme.proof_arity_schedule(&columns)?)),
        "replay" => {
            let (index, siblings): (usize, usize) = case.read();
            let path = scheme.replay_arity_and_positions(&columns, index, siblings)?;
            Ok(fields([show_list(&path.arity_schedule), show_list(&path.query_positions)]))
        }
        "authenticated" => {
            let mut answers = Vec::new();
            for matrix in 0..columns.len() {
                answers.push(if scheme.is_authenticated(&columns, matrix)? { "yes" } else { "no" });
            }
            Ok(answers.join(" "))
        }
        "pruned_len" => {
            let indices: Vec<usize> = case.read();
            Ok(scheme.pruned_len(&columns, &indices)?.to_string())
        }
        _ => panic!("no kind of case: {kind}"),
    }
}

/// How many slots of a layer are nodes: all up to the last that does not have the default digest.
pub fn node_count(layer: &MerkleCap<u32, [u32; 1]>) -> usize {
    layer.roots().iter().rposition(|digest| *digest != [0]).map_or(0, |last| last + 1)
}

/// `shape | ARITY | CAP | HEIGHTS | STEPS | LENGTHS`: the steps from the leaves up to the cap, then the nodes and the
/// slots of each layer, leaves first. The last node of a layer must not have the default digest.
pub fn shape<const N: usize>(case: &mut Case<'_>, scheme: &FoldScheme<N, 1>) -> Answer {
    let columns = case.columns();
    let steps = scheme.proof_arity_schedule(&columns)?;
    let (_, tree) = scheme.commit(matrices_by(&columns))?;
    let layers = layers_of(&tree)?;
    let lengths: Vec<_> = layers.iter().map(|layer| format!("{}/{}", node_count(layer), layer.num_roots())).collect();
    Ok(fields([show_list(&steps), lengths.join(" ")]))
}

/// `heights | HEIGHTS | ERROR`: the answer that all calls with heights give, or all their answers where two differ:
/// those of the number of digests of no index, the commit, the tree, the schedule and the check of an opening with one
/// word for each column and no siblings.
pub fn heights(case: &mut Case<'_>) -> Answer {
    let columns = case.columns();
    let scheme = fold_scheme::<2>(ROOT);
    let tree = MerkleTree::<u32, u32, Numbers, 2, 1>::new::<u32, u32, FoldHash<1>, FoldCompress<2, 1>>(
        &FoldHash::<1>,
        &FoldCompress::<2, 1>,
        tall_matrices(&columns),
    );
    let (rows, siblings) = (vec![vec![0]; columns.len()], Vec::new());
    let opening = BatchOpeningRef::new(&rows, &siblings);
    let answers = [
        scheme.pruned_len(&columns, &[]).map(|_| ()),
        scheme.commit(tall_matrices(&columns)).map(|_| ()),
        tree.map(|_| ()),
        scheme.proof_arity_schedule(&columns).map(|_| ()),
        scheme.verify_batch(&MerkleCap::new(Vec::new()), &columns, 0, opening),
    ];
    if answers.iter().all(|answer| *answer == answers[0]) {
        return Ok(text_of(&answers[0]));
    }
    Ok(fields(answers.each_ref().map(text_of)))
}
