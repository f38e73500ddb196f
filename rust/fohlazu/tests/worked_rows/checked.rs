//! What is answered to openings that a line has, and what two of them lead to.

use crate::case::{Answer, Case, fields, text_of};
use crate::field::{Item, show_list};
use crate::matrices::Word;
use crate::scheme::{Leaves, Statement, Tried};
use fohlazu::merkle_tree::{BatchOpeningRef, InputPair, MerkleTreeError, Place};
use fohlazu::support::Dimensions;

/// The fields of the opening of no leaf, with salts or without.
const NO_LEAF: &str = "- | - | - | -";

/// The opening of a leaf that the next fields are: an index, rows and their proof.
type OwnLeaf<T, P> = (usize, (Vec<Vec<T>>, P));

/// The opening of several leaves that the next fields are: indices, the rows of each, and their proof.
type OwnLeaves<T, P> = (Vec<usize>, (Vec<Vec<Vec<T>>>, P));

/// The opening of several leaves, borrowed.
fn borrowed<T, P>((indices, (rows, proof)): &OwnLeaves<T, P>) -> Leaves<'_, T, P> {
    (indices, rows, proof)
}

/// The verdict that an extraction stands for which has nothing to find.
fn verdict_of<F>(found: Result<Option<F>, MerkleTreeError>) -> Result<(), MerkleTreeError> {
    found.map(|found| assert!(found.is_none(), "an opening collides with itself"))
}

/// `verify | ARITY | CAP | ROOTS | DIMENSIONS | INDEX | ROWS | SIBLINGS | ANSWER`: checks an opening. The extraction
/// from the opening and itself answers the same. With salts there are `SALTS A ROW` before the roots, and the salts of
/// the rows before the siblings.
pub fn verify<T: Word, X: Item, S: Tried<T, X>>(case: &mut Case<'_>, scheme: &S) -> Answer {
    let statement = Statement::read(case);
    let (index, (rows, proof)): OwnLeaf<T, S::Proof> = case.read();
    let opening = BatchOpeningRef::new(&rows, &proof);
    let verdict = scheme.verify_batch(&statement.cap, &statement.dimensions, index, opening);
    let twice = scheme.extract(&statement, (index, opening), (index, opening));
    assert_eq!(verdict_of(twice), verdict, "an extraction is answered otherwise");
    Ok(text_of(&verdict))
}

/// The verdict on several leaves.
fn verdict_on<T: Word, X: Item, S: Tried<T, X>>(
    scheme: &S,
    Statement { cap, dimensions }: &Statement<T, X>,
    (indices, rows, proof): Leaves<'_, T, S::MultiProof>,
) -> Result<(), MerkleTreeError> {
    scheme.verify_multi_batch(cap, dimensions, indices, rows, proof)
}

/// The verdict on several leaves, query by query: why their paths can't be restored, else the first refusal of a query
/// with its path. A scheme that restores no paths has the verdict on all at once.
fn verdict_by_paths<T: Word, X: Item, S: Tried<T, X>>(
    scheme: &S,
    statement: &Statement<T, X>,
    leaves: Leaves<'_, T, S::MultiProof>,
) -> Result<(), MerkleTreeError> {
    let Some(paths) = scheme.restore(&statement.dimensions, leaves)? else {
        return verdict_on(scheme, statement, leaves);
    };
    leaves.1.iter().zip(&paths).try_for_each(|(rows, path)| scheme.verify_path(statement, rows, path))
}

/// How many queries an opening has at most whose queries are compared each with each.
const LONG: usize = 64;

/// `verify_pruned | ARITY | CAP | ROOTS | DIMENSIONS | INDICES | ROW SETS | DIGESTS | ANSWER`: checks an opening of
/// several leaves. The extractions from it and the opening of no leaf, in either order, and from it and itself answer
/// the same, and so, without salts, do the checks of its queries with their restored paths. With salts there are
/// `SALTS A ROW` before the roots, and `SALT SETS` before the digests.
pub fn verify_pruned<T: Word, X: Item, S: Tried<T, X>>(case: &mut Case<'_>, scheme: &S) -> Answer {
    let statement = Statement::read(case);
    let opening: OwnLeaves<T, S::MultiProof> = case.read();
    let no_leaf: OwnLeaves<T, S::MultiProof> = Case::of(NO_LEAF, case.rule).read();
    let (leaves, none) = (borrowed(&opening), borrowed(&no_leaf));
    let verdict = verdict_on(scheme, &statement, leaves);
    assert_eq!(verdict_by_paths(scheme, &statement, leaves), verdict, "the queries are answered otherwise");
    assert_eq!(verdict_of(scheme.extract_multi(&statement, leaves, none)), verdict, "ahead of the opening of no leaf");
    // Heights that no tree has are the first opening's error.
    let of_none = verdict_on(scheme, &statement, none);
    let expected = if of_none.is_err() { &of_none } else { &verdict };
    assert_eq!(verdict_of(scheme.extract_multi(&statement, none, leaves)), *expected, "behind the opening of no leaf");
    if leaves.0.len() <= LONG {
        assert_eq!(verdict_of(scheme.extract_multi(&statement, leaves, leaves)), verdict, "beside itself");
    }
    Ok(text_of(&verdict))
}

/// The place of a collision with both inputs.
fn show_collision<T: Word, X: Item>(collision: &InputPair<T, X>) -> String {
    let (place, first, second) = match collision {
        InputPair::Words { place, first, second } => (place, show_list(first), show_list(second)),
        InputPair::Digests { place, first, second } => (place, show_list(first), show_list(second)),
    };
    let place = match place {
        Place::Leaf => "leaf".to_string(),
        Place::Group(level) => format!("group {level}"),
        Place::Rows(level) => format!("rows {level}"),
        Place::Pair(level) => format!("pair {level}"),
    };
    fields([place, first, second])
}

/// `extract | ARITY | CAP | ROOTS | DIMENSIONS | INDEX | ROWS | SIBLINGS | INDEX | ROWS | SIBLINGS | ANSWER`: what two
/// openings lead to, which is `none`, or a place with the input of the first and that of the second. With salts there
/// are `SALTS A ROW` before the roots, and the salts of the rows before the siblings.
pub fn extract<T: Word, X: Item, S: Tried<T, X>>(case: &mut Case<'_>, scheme: &S) -> Answer {
    let statement = Statement::read(case);
    let (index1, (rows1, proof1)): OwnLeaf<T, S::Proof> = case.read();
    let (index2, (rows2, proof2)): OwnLeaf<T, S::Proof> = case.read();
    let first = (index1, BatchOpeningRef::new(&rows1, &proof1));
    let second = (index2, BatchOpeningRef::new(&rows2, &proof2));
    Ok(match &scheme.extract(&statement, first, second)? {
        Some(collision) => show_collision(collision),
        None => "none".to_string(),
    })
}

/// `extract_pruned | ARITY | CAP | ROOTS | DIMENSIONS | INDICES | ROW SETS | DIGESTS | INDICES | ROW SETS | DIGESTS |
/// ANSWER`: what two openings of several leaves lead to, which is `none`, or the places of two queries in their lists,
/// and then a place with the input of the first and that of the second. With salts there are `SALTS A ROW` before the
/// roots, and `SALT SETS` before the digests.
pub fn extract_pruned<T: Word, X: Item, S: Tried<T, X>>(case: &mut Case<'_>, scheme: &S) -> Answer {
    let statement = Statement::read(case);
    let first: OwnLeaves<T, S::MultiProof> = case.read();
    let second: OwnLeaves<T, S::MultiProof> = case.read();
    Ok(match &scheme.extract_multi(&statement, borrowed(&first), borrowed(&second))? {
        Some((query1, query2, collision)) => fields([format!("{query1} {query2}"), show_collision(collision)]),
        None => "none".to_string(),
    })
}

/// `restore | ARITY | CAP | DIMENSIONS | INDICES | ROW SETS | DIGESTS | PATHS`: the index and the siblings of each
/// query.
pub fn restore<T: Word, X: Item, S: Tried<T, X>>(case: &mut Case<'_>, scheme: &S) -> Answer {
    let dimensions: Vec<Dimensions> = case.read();
    let leaves: OwnLeaves<T, S::MultiProof> = case.read();
    let paths = scheme.restore(&dimensions, borrowed(&leaves))?.expect("the scheme restores paths");
    if paths.is_empty() {
        return Ok("-".to_string());
    }
    let paths: Vec<_> =
        paths.iter().map(|path| format!("{}: {}", path.leaf_index, show_list(&path.siblings))).collect();
    Ok(paths.join("; "))
}
