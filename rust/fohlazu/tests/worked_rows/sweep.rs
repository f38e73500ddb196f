//! Honest openings of many lists of queries, by one pruned proof each, beside their twins.

use crate::case::{Answer, Case};
use crate::field::{Item, show_list};
use crate::matrices::{Word, matrices_by, twin_sets};
use crate::opened::{Committed, Sets, accepted, accepted_leaves, commit_shown};
use crate::queries::{batches_in, lists_in};
use crate::scheme::{Cap, FoldScheme, Tried, fold_scheme};
use fohlazu::merkle_tree::{BatchOpeningRef, InputPair, MerkleTreeError, Place};
use fohlazu::support::Dimensions;

/// What a sweep has tried.
#[derive(Default)]
struct Counts {
    lists: usize,
    digests: usize,
    collisions: usize,
    nones: usize,
}

impl Counts {
    /// Counts what an opening and its twin lead to: a collision at this place, or none where there is none.
    fn compare<T, X>(&mut self, found: Option<&InputPair<T, X>>, place: Option<&Place>) {
        match (found, place) {
            (Some(InputPair::Words { place: found, .. }), Some(place)) if found == place => self.collisions += 1,
            (None, None) => self.nones += 1,
            _ => panic!("an opening collides elsewhere with its twin"),
        }
    }
}

/// The least `k` with 2^k at least the height.
fn exponent_of(height: usize) -> u32 {
    height.next_power_of_two().trailing_zeros()
}

/// The place of a check at which the rows of a matrix of this exponent are hashed; none where its layer is above the
/// cap. The leaves have the other exponent, and the steps lead from them up to the cap.
fn place_of(leaves: u32, steps: &[usize], rows: u32) -> Option<Place> {
    if leaves == rows {
        return Some(Place::Leaf);
    }
    let mut exponent = leaves;
    for (level, step) in steps.iter().enumerate() {
        exponent = exponent.saturating_sub(exponent_of(*step));
        if exponent == rows {
            return Some(Place::Rows(level));
        }
    }
    None
}

/// That place for each of some matrices; no place at all where some rows have no twin.
fn twin_places<T: Word, const N: usize>(
    plain: &FoldScheme<N, 1>,
    dimensions: &[Dimensions],
) -> Result<Vec<Option<Place>>, MerkleTreeError> {
    if !T::HAS_TWINS || dimensions.iter().any(|matrix| matrix.width < 2) {
        return Ok(Vec::new());
    }
    let steps = plain.proof_arity_schedule(dimensions)?;
    let exponents: Vec<u32> = dimensions.iter().map(|matrix| exponent_of(matrix.height)).collect();
    let leaves = exponents.iter().copied().max().unwrap_or_default();
    Ok(exponents.into_iter().map(|exponent| place_of(leaves, &steps, exponent)).collect())
}

/// How many paths of a list of queries are compared, each with that of its leaf opened by itself.
const MOST_PATHS: usize = 64;

/// Checks that the paths that a proof restores are those of its leaves, where the scheme restores any.
fn check_paths<T: Word, X: Item, S: Tried<T, X>>(
    scheme: &S,
    committed: &Committed<T, X, S::ProverData>,
    indices: &[usize],
    (rows, proof): &Sets<T, S::MultiProof>,
) -> Result<(), MerkleTreeError> {
    let Some(paths) = scheme.restore(&committed.statement.dimensions, (indices, rows, proof))? else {
        return Ok(());
    };
    assert_eq!(paths.len(), indices.len(), "a proof has another number of paths");
    for (index, path) in indices.iter().zip(&paths).take(MOST_PATHS) {
        let (_, proof) = accepted(scheme, committed, *index)?.unpack();
        let is_alike = path.leaf_index == *index && path.siblings == S::siblings(&proof);
        assert!(is_alike, "a path is not that of its leaf");
    }
    Ok(())
}

/// Compares the opening of some leaves, and that of the first of them by itself, with the twins of each matrix, whose
/// rows collide at these places.
fn compare_twins<T: Word, X: Item, S: Tried<T, X>>(
    scheme: &S,
    committed: &Committed<T, X, S::ProverData>,
    indices: &[usize],
    (rows, proof): &Sets<T, S::MultiProof>,
    places: &[Option<Place>],
    counts: &mut Counts,
) -> Result<(), MerkleTreeError> {
    let statement = &committed.statement;
    for (matrix, place) in places.iter().enumerate() {
        let twins = twin_sets(rows, matrix);
        let found = scheme.extract_multi(statement, (indices, rows, proof), (indices, &twins, proof))?;
        let found = found.map(|(query1, query2, collision)| {
            assert_eq!((query1, query2), (0, 0), "other queries collide than the first");
            collision
        });
        let (Some(index), Some(twin)) = (indices.first(), twins.first()) else {
            counts.compare(found.as_ref(), None);
            continue;
        };
        counts.compare(found.as_ref(), place.as_ref());
        let leaf = accepted(scheme, committed, *index)?;
        let twin = BatchOpeningRef::new(twin, &leaf.opening_proof);
        let found = scheme.extract(statement, (*index, BatchOpeningRef::from(&leaf)), (*index, twin))?;
        counts.compare(found.as_ref(), place.as_ref());
    }
    Ok(())
}

/// `sweep | ARITY | CAP | BATCHES | QUERIES | LISTS DIGESTS COLLISIONS NONES`: of each batch of matrices, many lists of
/// queries are opened and accepted, and without salts restored; and so is the first leaf of each. Where all rows have
/// twins, each opening is compared with its twin, matrix by matrix. How many lists there are, how many digests their
/// proofs have, how many openings collide with a twin, and how many do not, since the matrix is not authenticated or
/// there is no query. With salts: `salted_sweep | ARITY | CAP | SALTS A ROW | SEED | BATCHES | QUERIES | ..`.
pub fn sweep<T: Word, X: Item, S: Tried<T, X>, const N: usize>(
    case: &mut Case<'_>,
    cap: Cap,
    scheme: &mut S,
) -> Answer {
    let (batches, queries) = (batches_in(case.take()), case.take());
    let plain = fold_scheme::<N>(cap);
    let mut counts = Counts::default();
    for dimensions in &batches {
        let committed = commit_shown(scheme, matrices_by(dimensions))?;
        let places = twin_places::<T, N>(&plain, dimensions)?;
        for indices in &lists_in(queries, scheme.get_max_height(&committed.tree)) {
            let opening = accepted_leaves(scheme, &committed, indices)?;
            let digests = S::digests(&opening.1).len();
            assert_eq!(plain.pruned_len(dimensions, indices)?, digests, "a proof has another number of digests");
            counts.lists += 1;
            counts.digests += digests;
            check_paths(scheme, &committed, indices, &opening)?;
            compare_twins(scheme, &committed, indices, &opening, &places, &mut counts)?;
        }
    }
    let Counts { lists, digests, collisions, nones } = counts;
    Ok(show_list(&[lists, digests, collisions, nones]))
}
