//! Pruned proofs, and the paths that they restore.

use alloc::vec::Vec;
use fohlazu::support::RowParts;
use serde::{Deserialize, Serialize};

/// A leaf and the siblings on its path.
#[derive(Debug, Clone, PartialEq, Eq, Serialize, Deserialize)]
#[serde(bound(serialize = "[D; DIGEST_ELEMS]: Serialize"))]
#[serde(bound(deserialize = "[D; DIGEST_ELEMS]: serde::de::DeserializeOwned"))]
pub struct MerkleAuthPath<D, const DIGEST_ELEMS: usize> {
    /// The index of the leaf, from 0.
    pub leaf_index: usize,
    /// The siblings on the leaf's path, level by level from the leaves up, ascending on each level.
    pub siblings: Vec<[D; DIGEST_ELEMS]>,
}

/// The digests of a pruned proof, which opens several leaves at once.
#[derive(Debug, Clone, Serialize, Deserialize)]
#[serde(bound(serialize = "[D; DIGEST_ELEMS]: Serialize"))]
#[serde(bound(deserialize = "[D; DIGEST_ELEMS]: serde::de::DeserializeOwned"))]
pub struct PrunedMerklePaths<D, const DIGEST_ELEMS: usize> {
    /// The digests that the opened rows do not give: level by level from the leaves up, ascending on each level.
    pub sibling_hashes: Vec<[D; DIGEST_ELEMS]>,
}

/// The rows of several leaves, and one proof for all of them.
#[derive(Debug, Clone, Serialize, Deserialize)]
#[serde(bound(serialize = "T: Serialize, [D; DIGEST_ELEMS]: Serialize"))]
#[serde(bound(deserialize = "T: serde::de::DeserializeOwned, [D; DIGEST_ELEMS]: serde::de::DeserializeOwned"))]
pub struct PrunedBatchOpening<T, D, const DIGEST_ELEMS: usize> {
    /// For each query, in query order, one row of each matrix.
    pub opened_values: Vec<Vec<Vec<T>>>,
    /// What proves that they were committed to.
    pub pruned_proof: PrunedMerklePaths<D, DIGEST_ELEMS>,
}

/// The rows of each query as slices, where they lie.
pub(crate) fn slices_of<T, R: AsRef<[T]>>(sets: &[Vec<R>]) -> Vec<Vec<&[T]>> {
    sets.iter().map(|rows| rows.iter().map(AsRef::as_ref).collect()).collect()
}

/// The rows of each query, as the proved code reads rows that lie anywhere.
pub(crate) fn parts_of<'a, T>(sets: &'a [Vec<&'a [T]>]) -> Vec<RowParts<'a, T>> {
    sets.iter().map(|rows| RowParts::Slices(rows)).collect()
}
