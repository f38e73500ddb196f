// Made from crates/p3_merkle_verifier/src/pruned_check.rt by tools/erase.

//! Pruned openings: their check, and the restored path of each query. Both compute the digests of the covered nodes,
//! layer by layer up to the cap's.
//!
//! A query is one index, and its row set has one row of each matrix. A node is covered if it is a queried leaf or above
//! one; a proof has the digests of the other children of covered nodes. A matrix belongs to the layer whose exponent is
//! log2 of its height, rounded up. A restored path has the siblings of a query, computed or from the proof.

use crate::erased::p3_merkle_core::covered_nodes::Covered;
use crate::erased::p3_merkle_core::error::MerkleTreeError;
use crate::erased::p3_merkle_core::geometry::exponent_of;
use crate::erased::p3_merkle_core::pruning::{
    AuthPath, CoveredLayer, PrunedMerklePaths, check_pruned, children_of, siblings_on_path,
};
use crate::erased::p3_merkle_core::schedule::LevelStep;
use crate::erased::p3_merkle_hashing::nodes::{compress_children, inject_row_digests};
use crate::erased::p3_merkle_hashing::rows::LayerRows;
use crate::erased::p3_merkle_verifier::checker::Checker;
use crate::erased::p3_merkle_verifier::openings::{OpenedMatrix, PrunedOpeningRef, RestorableOpening};
use crate::erased::p3_merkle_verifier::path::is_entry;
use crate::erased::p3_support::compress::PseudoCompressionFunction;
use crate::erased::p3_support::hasher::CryptographicHasher;
use crate::erased::p3_support::packed::PackedValue;
use crate::erased::p3_support::row_parts::RowSets;
use crate::fallible::{AllocError, VecExt, try_vec};
use alloc::vec::Vec;
use core::marker::PhantomData;
use core::mem;

impl<'a, T, W: Copy, const D: usize> PrunedOpeningRef<'a, T, [W; D]> {
    /// The pruned opening of these indices, row sets and digests.
    pub(crate) fn new(
        indices: &'a [usize],
        sets: &'a [Vec<Vec<T>>],
        proof: &'a PrunedMerklePaths<W, D>,
    ) -> PrunedOpeningRef<'a, T, [W; D]> {
        PrunedOpeningRef { indices, sets: RowSets::Vecs(sets), sent: proof.sibling_hashes.as_slice() }
    }
}

/// The layer above `below`, which must be layer `level` and below the cap's layer. `digests` has the digest of each
/// covered node of `below`; the other children of the layer above have the next digests of the proof. `AllocError` if
/// memory runs out.
fn layer_above<'a, T, X: Copy>(
    restorable: &RestorableOpening<'_, T, X>,
    level: usize,
    below: &CoveredLayer<'a, X>,
    digests: &[X],
) -> Result<CoveredLayer<'a, X>, AllocError> {
    let mut covered = below.covered.try_clone()?;
    let LevelStep { step, has_rows, .. } = covered.climb();
    let left = &restorable.opening.sent[below.covered.boundary_below..];
    let children = children_of(&below.covered.nodes, digests, &covered.nodes, step, left)?;
    Ok(CoveredLayer { covered, step, has_rows, children })
}

/// For each covered node of the layer of the exponent `exponent`, ascending, the position of a query under it: the
/// first query of its lowest leaf. `AllocError` if memory runs out.
fn queries_at<T, X>(restorable: &RestorableOpening<'_, T, X>, exponent: usize) -> Result<Vec<usize>, AllocError> {
    let bits = restorable.schedule.exponent.saturating_sub(exponent);
    let leaves = &restorable.leaves.indices;
    let mut queries = Vec::with_room(leaves.len())?;
    let mut previous = 0;
    for slot in 0..leaves.len() {
        let node = leaves[slot] >> bits;
        if slot == 0 || previous != node {
            queries.push_reserved(restorable.leaves.first_queries[slot]);
        }
        previous = node;
    }
    Ok(queries)
}

/// The matrices of the exponent `exponent`, in input order, each with the rows that `queries` opened of it.
/// `AllocError` if memory runs out.
fn opened_matrices<'a, T, X>(
    restorable: &'a RestorableOpening<'_, T, X>,
    exponent: usize,
    queries: &'a [usize],
) -> Result<Vec<OpenedMatrix<'a, T>>, AllocError> {
    let dimensions = restorable.schedule.dimensions;
    let mut matrices = Vec::new();
    for place in 0..dimensions.len() {
        if exponent_of(dimensions[place].height) == exponent {
            matrices.try_push(OpenedMatrix {
                sets: restorable.opening.sets,
                queries,
                place,
                width: dimensions[place].width,
            })?;
        }
    }
    Ok(matrices)
}

/// The path of each query of an opening, in query order: the other children of the parent of each node on the path,
/// level by level, ascending. `layers` has the layers of the opening, from the leaves to the cap's. `AllocError` if
/// memory runs out.
pub(crate) fn paths_of<T, W: Copy, const D: usize>(
    restorable: &RestorableOpening<'_, T, [W; D]>,
    layers: &[CoveredLayer<'_, [W; D]>],
) -> Result<Vec<AuthPath<[W; D]>>, AllocError> {
    let mut capacity = 0usize;
    for layer in layers {
        capacity = capacity.saturating_add(layer.step.saturating_sub(1));
    }
    let leaves = &restorable.leaves;
    let mut places = try_vec(0, layers.len())?;
    let mut of_leaves = Vec::with_room(leaves.indices.len())?;
    // The leaves ascend, so each search goes on where the last one ended.
    for leaf in &leaves.indices {
        of_leaves.push_reserved(siblings_on_path(layers, &mut places, *leaf, capacity)?);
    }
    let indices = restorable.opening.indices;
    let mut paths: Vec<AuthPath<[W; D]>> = Vec::with_room(indices.len())?;
    for query in 0..indices.len() {
        let slot = leaves.slots[query];
        let first = leaves.first_queries[slot];
        // The first query of a leaf takes its path, the others copy it.
        let siblings = if query == first {
            mem::replace(&mut of_leaves[slot], Vec::new())
        } else {
            Vec::try_from_slice(&paths[first].siblings)?
        };
        paths.push_reserved(AuthPath { leaf_index: indices[query], siblings });
    }
    Ok(paths)
}

/// Whether `roots`, those of a cap, have the digest `digests[k]` at the position `nodes[k]`, for each `k`.
fn are_entries<X: PartialEq>(roots: &[X], nodes: &[usize], digests: &[X]) -> bool {
    nodes.iter().zip(digests).all(|(node, digest)| is_entry(roots, *node, digest))
}

impl<
    'a,
    P: PackedValue,
    PW: PackedValue,
    H: CryptographicHasher<P, PW, D>,
    C: PseudoCompressionFunction<PW, N, D>,
    const N: usize,
    const D: usize,
> Checker<'a, P, PW, H, C, [[PW::Value; D]; N], N, D>
{
    /// Checks by [`check_pruned`], with its errors, the form of a pruned opening, and that its rows agree wherever
    /// queries share a node. Returns the opening with its steps, the cap's layer and its distinct indices, from which
    /// each path can be restored; and the layer of its covered leaves, from which the layers above are computed.
    pub(crate) fn check_restorable<'b>(
        &'b self,
        opening: PrunedOpeningRef<'b, P::Value, [PW::Value; D]>,
    ) -> Result<(RestorableOpening<'b, P::Value, [PW::Value; D]>, CoveredLayer<'b, [PW::Value; D]>), MerkleTreeError>
    {
        let schedule = &self.schedule;
        let cap_layer = self.cap_layer;
        let indices = opening.indices;
        let num_digests = opening.sent.len();
        let leaves = check_pruned(schedule, cap_layer, indices, opening.sets, num_digests)?;
        let nodes = Vec::try_from_slice(&leaves.indices)?;
        let restorable = RestorableOpening { schedule, cap_layer, opening, leaves };
        let leaf_layer = CoveredLayer {
            covered: Covered::new(schedule, indices, nodes),
            step: 0,
            has_rows: true,
            children: Vec::new(),
        };
        Ok((restorable, leaf_layer))
    }

    /// For each covered node of the layer of the exponent `exponent`, ascending, the digest of the rows that the
    /// queries under it opened of the layer's matrices. `AllocError` if memory runs out.
    fn row_digests(
        &self,
        restorable: &RestorableOpening<'_, P::Value, [PW::Value; D]>,
        exponent: usize,
    ) -> Result<Vec<[PW::Value; D]>, AllocError> {
        let queries = queries_at(restorable, exponent)?;
        let matrices = opened_matrices(restorable, exponent, &queries)?;
        let height = queries.len();
        let rows = LayerRows::<P, PW, H, OpenedMatrix<'_, P::Value>, [PW::Value; D]> {
            hash: self.hash,
            matrices: &matrices,
            height,
            item: PhantomData,
        };
        let mut digests = try_vec([PW::Value::default(); D], height)?;
        rows.fill_batched(&mut Vec::new(), 0, &mut digests)?;
        Ok(digests)
    }

    /// The digests of the parents of `children`, which stand parent by parent. Each parent has `step` children, from 1
    /// to `N`. `AllocError` if memory runs out.
    pub(crate) fn group_digests(
        &self,
        children: &[[PW::Value; D]],
        step: usize,
    ) -> Result<Vec<[PW::Value; D]>, AllocError> {
        let mut digests = try_vec([PW::Value::default(); D], children.len() / step)?;
        let mut groups = Vec::new();
        let compress = self.compress;
        compress_children::<PW, C, N, D>(compress, &mut groups, children, step, &mut digests)?;
        Ok(digests)
    }

    /// The digests of the covered nodes of `here`, which must be layer `layer`, by ascending nodes. The digest of a
    /// leaf is that of the rows of its first query. The digest of any other node is the compression of its children;
    /// where matrices belong to the layer, it is compressed once more with the digest of their rows, which the queries
    /// under the node share. `AllocError` if memory runs out.
    pub(crate) fn node_digests(
        &self,
        restorable: &RestorableOpening<'_, P::Value, [PW::Value; D]>,
        layer: usize,
        here: &CoveredLayer<'_, [PW::Value; D]>,
    ) -> Result<Vec<[PW::Value; D]>, AllocError> {
        if layer == 0 {
            return self.row_digests(restorable, here.covered.exponent);
        }
        let mut digests = self.group_digests(&here.children, here.step)?;
        if !here.has_rows {
            return Ok(digests);
        }
        let rows = self.row_digests(restorable, here.covered.exponent)?;
        let mut pairs = Vec::new();
        inject_row_digests::<PW, C, N, D>(self.compress, &mut pairs, &rows, &mut digests)?;
        Ok(digests)
    }

    /// Checks that `roots`, those of a cap, have the digest of each covered node of `here`, the cap's layer, else
    /// `CapMismatch`. `OutOfMemory` if memory runs out.
    pub(crate) fn check_roots(
        &self,
        restorable: &RestorableOpening<'_, P::Value, [PW::Value; D]>,
        here: &CoveredLayer<'_, [PW::Value; D]>,
        roots: &[[PW::Value; D]],
    ) -> Result<(), MerkleTreeError> {
        let digests = self.node_digests(restorable, restorable.cap_layer, here)?;
        if !are_entries(roots, &here.covered.nodes, &digests) {
            return Err(MerkleTreeError::CapMismatch);
        }
        Ok(())
    }

    /// The cap's layer of a pruned opening, computed up from the layer of its leaves. Only one layer's children are
    /// stored. `AllocError` if memory runs out.
    fn top_layer<'b>(
        &self,
        restorable: &RestorableOpening<'_, P::Value, [PW::Value; D]>,
        leaf_layer: CoveredLayer<'b, [PW::Value; D]>,
    ) -> Result<CoveredLayer<'b, [PW::Value; D]>, AllocError> {
        let mut layer = leaf_layer;
        for level in 0..restorable.cap_layer {
            let digests = self.node_digests(restorable, level, &layer)?;
            // The children are freed before those of the next layer are listed.
            layer.children = Vec::new();
            layer = layer_above(restorable, level, &layer, &digests)?;
        }
        Ok(layer)
    }

    /// All layers of a pruned opening, from its leaves up to the cap's layer, with the digests of the covered nodes'
    /// children. The digest of a child is computed from the layer below if the child is covered; else it is one of the
    /// proof. `AllocError` if memory runs out.
    pub(crate) fn restored_layers<'b>(
        &self,
        restorable: &RestorableOpening<'_, P::Value, [PW::Value; D]>,
        leaf_layer: CoveredLayer<'b, [PW::Value; D]>,
    ) -> Result<Vec<CoveredLayer<'b, [PW::Value; D]>>, AllocError> {
        let mut layers = Vec::with_room(restorable.cap_layer + 1)?;
        layers.try_push(leaf_layer)?;
        for level in 0..restorable.cap_layer {
            let below = &layers[level];
            let digests = self.node_digests(restorable, level, below)?;
            let above = layer_above(restorable, level, below, &digests)?;
            layers.try_push(above)?;
        }
        Ok(layers)
    }

    /// Checks a pruned opening against the roots of a cap: checks its form, computes the digest of each covered node of
    /// the cap's layer from the rows and the proof's digests, and compares it with the root at that node.
    ///
    /// # Errors
    ///
    /// The first of these that applies, where `OutOfMemory` may come once the indices are known to be in range:
    ///
    /// - the error of [`check_pruned`];
    /// - `CapMismatch`: there is no root at a covered node of the cap's layer, or another digest than the one computed.
    pub(crate) fn check_pruned_opening(
        &self,
        roots: &[[PW::Value; D]],
        opening: PrunedOpeningRef<'_, P::Value, [PW::Value; D]>,
    ) -> Result<(), MerkleTreeError> {
        let (restorable, leaf_layer) = self.check_restorable(opening)?;
        let top = self.top_layer(&restorable, leaf_layer)?;
        self.check_roots(&restorable, &top, roots)
    }

    /// Restores the path of each query up to the cap's layer, in query order, from a pruned opening: each sibling is a
    /// digest of the proof, or is computed from the rows and these digests. No cap is compared.
    ///
    /// # Errors
    ///
    /// The error of [`check_pruned`]. `OutOfMemory` may come once the indices are known to be in range.
    pub(crate) fn restored_paths(
        &self,
        opening: PrunedOpeningRef<'_, P::Value, [PW::Value; D]>,
    ) -> Result<Vec<AuthPath<[PW::Value; D]>>, MerkleTreeError> {
        let (restorable, leaf_layer) = self.check_restorable(opening)?;
        let layers = self.restored_layers(&restorable, leaf_layer)?;
        Ok(paths_of(&restorable, &layers)?)
    }
}
