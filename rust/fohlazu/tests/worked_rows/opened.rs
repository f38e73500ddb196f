//! What schemes commit to and open, and that they accept it.

use crate::case::{Answer, Case};
use crate::field::{Field, Item, show_list};
use crate::matrices::{Word, matrices_in};
use crate::scheme::{Statement, Tried};
use fohlazu::merkle_tree::{BatchOpening, BatchOpeningRef, MerkleTreeError, check_indices};
use fohlazu::support::{RowMajorMatrix, dimensions_of};

/// What a scheme has committed to.
pub struct Committed<T, X, D> {
    /// What openings are checked against.
    pub statement: Statement<T, X>,
    /// The tree.
    pub tree: D,
}

/// The rows of several leaves, and their proof.
pub type Sets<T, P> = (Vec<Vec<Vec<T>>>, P);

/// What a scheme commits to. The tree shows matrices of the same dimensions.
pub fn commit_shown<T: Word, X: Item, S: Tried<T, X>>(
    scheme: &mut S,
    matrices: Vec<RowMajorMatrix<T>>,
) -> Result<Committed<T, X, S::ProverData>, MerkleTreeError> {
    let dimensions = dimensions_of(&matrices)?;
    let (cap, tree) = scheme.commit(matrices)?;
    assert_eq!(dimensions_of(&scheme.get_matrices(&tree)?)?, dimensions, "the tree shows other matrices");
    Ok(Committed { statement: Statement { cap, dimensions }, tree })
}

/// The opening of a leaf of a tree by a scheme, where there is such a leaf.
pub fn leaf_by<T: Word, X: Item, S: Tried<T, X>>(
    scheme: &S,
    tree: &S::ProverData,
    index: usize,
) -> Result<BatchOpening<T, S::Proof>, MerkleTreeError> {
    check_indices(scheme.get_max_height(tree), &[index])?;
    scheme.open_batch(index, tree)
}

/// The opening of several leaves of a tree by a scheme, where there are such leaves.
pub fn leaves_by<T: Word, X: Item, S: Tried<T, X>>(
    scheme: &S,
    tree: &S::ProverData,
    indices: &[usize],
) -> Result<Sets<T, S::MultiProof>, MerkleTreeError> {
    check_indices(scheme.get_max_height(tree), indices)?;
    scheme.open_multi_batch(indices, tree)
}

/// The opening of a leaf, which is accepted.
pub fn accepted<T: Word, X: Item, S: Tried<T, X>>(
    scheme: &S,
    committed: &Committed<T, X, S::ProverData>,
    index: usize,
) -> Result<BatchOpening<T, S::Proof>, MerkleTreeError> {
    let opening = leaf_by(scheme, &committed.tree, index)?;
    let Statement { cap, dimensions } = &committed.statement;
    scheme.verify_batch(cap, dimensions, index, BatchOpeningRef::from(&opening))?;
    Ok(opening)
}

/// The opening of several leaves, which is accepted.
pub fn accepted_leaves<T: Word, X: Item, S: Tried<T, X>>(
    scheme: &S,
    committed: &Committed<T, X, S::ProverData>,
    indices: &[usize],
) -> Result<Sets<T, S::MultiProof>, MerkleTreeError> {
    let (rows, proof) = leaves_by(scheme, &committed.tree, indices)?;
    let Statement { cap, dimensions } = &committed.statement;
    scheme.verify_multi_batch(cap, dimensions, indices, &rows, &proof)?;
    Ok((rows, proof))
}

/// `commit | ARITY | CAP | MATRICES | ROOTS`: the cap. Matrices are written out or by their dimensions.
pub fn commit<T: Word, X: Item, S: Tried<T, X>>(case: &mut Case<'_>, scheme: &mut S) -> Answer {
    let committed = commit_shown(scheme, matrices_in(case.take()))?;
    Ok(show_list(committed.statement.cap.roots()))
}

/// A commitment, and what it opens at the queries of a case.
pub struct Opened<T, X, D, Q, O> {
    /// The commitment.
    pub committed: Committed<T, X, D>,
    /// The queries.
    pub queries: Q,
    /// The opening.
    pub opening: O,
}

/// What a scheme commits to, and how it opens an index.
pub type OpenedLeaf<T, X, D, P> = Opened<T, X, D, usize, (Vec<Vec<T>>, P)>;

/// Commits to the matrices of a case and opens its index.
pub fn opened_leaf<T: Word, X: Item, S: Tried<T, X>>(
    case: &mut Case<'_>,
    scheme: &mut S,
) -> Result<OpenedLeaf<T, X, S::ProverData, S::Proof>, MerkleTreeError> {
    let (matrices, queries) = (matrices_in(case.take()), case.read());
    let committed = commit_shown(scheme, matrices)?;
    let opening = accepted(scheme, &committed, queries)?.unpack();
    Ok(Opened { committed, queries, opening })
}

/// `open | ARITY | CAP | MATRICES | INDEX | ROWS | SIBLINGS`: the opening of a leaf.
pub fn open<T: Word, X: Item, S: Tried<T, X>>(case: &mut Case<'_>, scheme: &mut S) -> Answer {
    Ok(opened_leaf::<T, X, S>(case, scheme)?.opening.show())
}

/// What a scheme commits to, and how it opens several indices.
pub type OpenedLeaves<T, X, D, P> = Opened<T, X, D, Vec<usize>, Sets<T, P>>;

/// Commits to the matrices of a case and opens its indices.
pub fn opened_leaves<T: Word, X: Item, S: Tried<T, X>>(
    case: &mut Case<'_>,
    scheme: &mut S,
) -> Result<OpenedLeaves<T, X, S::ProverData, S::MultiProof>, MerkleTreeError> {
    let (matrices, queries) = (matrices_in(case.take()), case.read::<Vec<usize>>());
    let committed = commit_shown(scheme, matrices)?;
    let opening = accepted_leaves(scheme, &committed, &queries)?;
    Ok(Opened { committed, queries, opening })
}

/// `pruned | ARITY | CAP | MATRICES | INDICES | ROW SETS | DIGESTS`: the rows of each query, and the proof for all of
/// them.
pub fn pruned<T: Word, X: Item, S: Tried<T, X>>(case: &mut Case<'_>, scheme: &mut S) -> Answer {
    Ok(opened_leaves::<T, X, S>(case, scheme)?.opening.show())
}
