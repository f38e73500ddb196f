//! What is timed of a scheme.

use crate::case::{Case, Outcome};
use core::fmt::Debug;
use fohlazu::merkle_tree::{BatchOpening, BatchOpeningRef, MerkleCap, MerkleTreeError, MerkleTreeMmcs, check_indices};
use fohlazu::support::{CryptographicHasher, Dimensions, Matrix, Mmcs, PackedValue, PseudoCompressionFunction};

/// How many queries are opened.
const QUERIES: [usize; 2] = [64, 1024];

/// How often so many queries are opened, and their openings used.
fn repetitions(queries: usize) -> usize {
    (12_800 / queries.max(1)).clamp(10, 200)
}

/// So many random indices below a height.
fn queries(count: usize, height: usize) -> Vec<usize> {
    let mut state = 0x9e37_79b9_7f4a_7c15u64;
    let mut next = || {
        // Marsaglia's xorshift.
        state ^= state << 13;
        state ^= state >> 7;
        state ^= state << 17;
        (state >> 40) as usize % height.max(1)
    };
    (0..count).map(|_| next()).collect()
}

/// Times commits.
pub fn time_commits<W: Copy, M: Matrix<W> + Copy, S: Mmcs<W, M, Error = MerkleTreeError>>(
    case: &Case<'_>,
    matrices: &[M],
    scheme: &mut S,
) -> Outcome<()> {
    case.time("commit", 0, case.repetitions(), || Ok(scheme.commit(matrices.to_vec())?))?;
    Ok(())
}

/// Opens indices, each by its own proof.
fn open_each<W: Copy, M: Matrix<W> + Copy, S: Mmcs<W, M, Error = MerkleTreeError>>(
    scheme: &S,
    data: &S::ProverData,
    indices: &[usize],
) -> Outcome<Vec<BatchOpening<W, S::Proof>>> {
    let mut openings = Vec::with_capacity(indices.len());
    for index in indices {
        openings.push(scheme.open_batch(*index, data)?);
    }
    Ok(openings)
}

/// Verifies openings of indices.
fn verify_each<W: Copy, M: Matrix<W> + Copy, S: Mmcs<W, M, Error = MerkleTreeError>>(
    scheme: &S,
    commitment: &S::Commitment,
    dimensions: &[Dimensions],
    indices: &[usize],
    openings: &[BatchOpening<W, S::Proof>],
) -> Outcome<()> {
    for (index, opening) in indices.iter().zip(openings) {
        scheme.verify_batch(commitment, dimensions, *index, BatchOpeningRef::from(opening))?;
    }
    Ok(())
}

/// Times openings and their verification: of single indices, and of several by one proof.
pub fn time_openings<W: Copy + Debug, M: Matrix<W> + Copy, S: Mmcs<W, M, Error = MerkleTreeError>>(
    case: &Case<'_>,
    matrices: &[M],
    scheme: &mut S,
) -> Outcome<()> {
    let (commitment, data) = scheme.commit(matrices.to_vec())?;
    let scheme = &*scheme;
    for count in QUERIES {
        let indices = queries(count, scheme.get_max_height(&data));
        let times = repetitions(count);
        let openings = case.time("open", count, times, || open_each(scheme, &data, &indices))?;
        case.time("verify", count, times, || verify_each(scheme, &commitment, case.dimensions, &indices, &openings))?;
        let (rows, proof) = case.time("open together", count, times, || {
            check_indices(scheme.get_max_height(&data), &indices)?;
            Ok(scheme.open_multi_batch(&indices, &data)?)
        })?;
        case.time("verify together", count, times, || {
            Ok(scheme.verify_multi_batch(&commitment, case.dimensions, &indices, &rows, &proof)?)
        })?;
    }
    Ok(())
}

/// Looks for a collision in two equal openings of each index, which have none.
fn collide_each<
    W: PackedValue<Value = W>,
    H: CryptographicHasher<W, W, D>,
    C: PseudoCompressionFunction<W, N, D>,
    const N: usize,
    const D: usize,
>(
    scheme: &MerkleTreeMmcs<W, W, H, C, N, D>,
    cap: &MerkleCap<W, [W; D]>,
    dimensions: &[Dimensions],
    indices: &[usize],
    openings: &[BatchOpening<W, Vec<[W; D]>>],
) -> Outcome<()> {
    for (index, opening) in indices.iter().zip(openings) {
        let opening = BatchOpeningRef::from(opening);
        let found = scheme.extract_collision(cap, dimensions, *index, opening, *index, opening)?;
        if found.is_some() {
            return Err("a collision is found".into());
        }
    }
    Ok(())
}

/// Times the restored paths of several queries of the plain scheme, and the search for collisions.
pub fn time_collisions<
    W: PackedValue<Value = W>,
    M: Matrix<W> + Copy,
    H: CryptographicHasher<W, W, D>,
    C: PseudoCompressionFunction<W, N, D>,
    const N: usize,
    const D: usize,
>(
    case: &Case<'_>,
    matrices: &[M],
    scheme: &MerkleTreeMmcs<W, W, H, C, N, D>,
) -> Outcome<()> {
    let (cap, tree) = scheme.commit(matrices.to_vec())?;
    for count in QUERIES {
        let indices = queries(count, scheme.get_max_height(&tree));
        let times = repetitions(count);
        let pruned = scheme.open_batch_pruned(&indices, &tree)?;
        let (rows, proof) = (&pruned.opened_values, &pruned.pruned_proof);
        case.time("restore", count, times, || {
            Ok(scheme.restore_and_recompute_paths(case.dimensions, &indices, rows, proof)?)
        })?;
        let openings = open_each(scheme, &tree, &indices)?;
        case.time("collide", count, times, || collide_each(scheme, &cap, case.dimensions, &indices, &openings))?;
    }
    Ok(())
}
