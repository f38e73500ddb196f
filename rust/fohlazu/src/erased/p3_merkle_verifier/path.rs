// Made from crates/p3_merkle_verifier/src/path.rt by tools/erase.

//! The check of one opening: its form, then the digests on its path, then the cap's entry. It does not allocate.
//!
//! Layer 0 is the leaves; level `l` leads from layer `l` to layer `l + 1`, and its step is how many children a node
//! above it has. A matrix belongs to the layer whose exponent is log2 of its height, rounded up.

use crate::erased::p3_merkle_core::error::MerkleTreeError;
use crate::erased::p3_merkle_core::gate::check_heights;
use crate::erased::p3_merkle_core::geometry::{check_row_widths, parent_of, position_of};
use crate::erased::p3_merkle_core::group::{group_with, pair_group};
use crate::erased::p3_merkle_core::schedule::{LevelStep, Schedule};
use crate::erased::p3_merkle_verifier::checker::Checker;
use crate::erased::p3_merkle_verifier::openings::{OpenedParts, OpenedRows, OpeningRef, SaltedRows};
use crate::erased::p3_support::compress::PseudoCompressionFunction;
use crate::erased::p3_support::hasher::CryptographicHasher;
use crate::erased::p3_support::packed::PackedValue;
use crate::erased::p3_support::row_parts::RowParts;

/// The node that the check of an opening has reached on the path from the leaf, with its digest.
pub(crate) struct PathState<X> {
    /// The exponent of the node's layer.
    pub exponent: usize,
    /// The node.
    pub node: usize,
    /// The number of siblings that are used so far.
    pub used: usize,
    /// The digest that the check computed for the node.
    pub digest: X,
}

impl<W: Copy, const D: usize> PathState<[W; D]> {
    /// The group that is compressed to this node's parent: the node's siblings with its own digest at its position,
    /// then default digests. `step` is how many children the parent has, and `siblings` are those of the whole path.
    fn group<const N: usize>(&self, default_digest: [W; D], step: usize, siblings: &[[W; D]]) -> [[W; D]; N] {
        let end = self.used + (step - 1);
        let others = &siblings[self.used..end];
        let position = position_of(self.node, step);
        group_with::<W, N, D>(default_digest, self.digest, position, others)
    }
}

/// One level of the check of an opening: what it compresses, and the node that it reaches.
pub(crate) struct PathLevel<X, G> {
    /// The level, counted from the leaves.
    pub level: usize,
    /// The siblings with the node's digest at its position, then default digests.
    pub group: G,
    /// The digests of the group and of the rows, if matrices belong to the layer above.
    pub pair: Option<G>,
    /// The node above the level.
    pub above: PathState<X>,
}

/// Checks the form of an opening of the leaf `index`, before anything is hashed: one row for each matrix, of its width
/// with `salt_elems` salts; heights that a tree can have; as many siblings as the levels below the cap need; and an
/// index below the tallest height. The errors are those of [`check_opening`](Checker::check_opening) without
/// `CapMismatch`.
///
/// The arity must be a power of two from 2 to 2^62, `cap_layer` at most the number of levels, and each width with its
/// salts must fit `usize`.
fn check_form<T>(
    schedule: &Schedule<'_>,
    cap_layer: usize,
    salt_elems: usize,
    index: usize,
    rows: RowParts<'_, T>,
    num_siblings: usize,
) -> Result<(), MerkleTreeError> {
    let dimensions = schedule.dimensions;
    // The number of rows is checked ahead of the heights, and their widths after the siblings.
    let (expected, got) = (dimensions.len(), rows.num_rows());
    if got != expected {
        return Err(MerkleTreeError::WrongBatchSize { expected, got });
    }
    check_heights(dimensions)?;
    let expected_proof_len = schedule.siblings_below(cap_layer);
    if num_siblings != expected_proof_len {
        return Err(MerkleTreeError::WrongHeight { expected_proof_len, num_siblings });
    }
    check_row_widths(dimensions, salt_elems, rows)?;
    let max_height = schedule.max_height;
    if index >= max_height {
        return Err(MerkleTreeError::IndexOutOfBounds { max_height, index });
    }
    Ok(())
}

impl<
    'a,
    P: PackedValue,
    PW: PackedValue,
    H: CryptographicHasher<P, PW, D>,
    C: PseudoCompressionFunction<PW, N, D>,
    const N: usize,
    const D: usize,
> Checker<'a, P, PW, H, C, [[PW::Value; D]; N], N, D>
{
    /// The digest of the rows of the matrices of the exponent `exponent`, hashed as one message. `rows` has a row of
    /// each matrix.
    #[inline(always)]
    fn row_digest<'x>(&'x self, rows: RowParts<'x, P::Value>, exponent: usize) -> [PW::Value; D] {
        let dimensions = self.schedule.dimensions;
        match rows {
            RowParts::Vecs(rows) => self.hash.hash_iter_slices(OpenedRows { dimensions, rows, exponent }),
            RowParts::Salted { rows, salts } => {
                self.hash.hash_iter_slices(SaltedRows { dimensions, rows, salts, exponent, due: &[] })
            }
            RowParts::Slices(_) | RowParts::SaltedSlices { .. } | RowParts::Flat { .. } => {
                let parts = OpenedParts::new(dimensions, rows, exponent);
                self.hash.hash_iter_slices(parts)
            }
        }
    }

    /// The start of the check of an opening: the leaf, with the digest of its rows.
    #[inline(always)]
    pub(crate) fn start(&self, opening: OpeningRef<'_, P::Value, [PW::Value; D]>) -> PathState<[PW::Value; D]> {
        let exponent = self.schedule.exponent;
        PathState { exponent, node: opening.index, used: 0, digest: self.row_digest(opening.rows, exponent) }
    }

    /// Computes level `level` of the check of an opening: from `state`, the node of the path in layer `level`, to its
    /// parent. `level` must be below the cap's layer, `state` that of this check at `level`, and the opening must have
    /// the siblings of the whole path to the cap.
    // A call that is not inlined writes the whole level to memory, and a verification needs only `above`.
    #[inline(always)]
    pub(crate) fn compute_level(
        &self,
        level: usize,
        opening: OpeningRef<'_, P::Value, [PW::Value; D]>,
        state: &PathState<[PW::Value; D]>,
    ) -> PathLevel<[PW::Value; D], [[PW::Value; D]; N]> {
        let LevelStep { step, has_rows, exponent } = self.schedule.step_up(N, level, state.exponent);
        let siblings = opening.siblings;
        let default_digest = [PW::Value::default(); D];
        let group = state.group::<N>(default_digest, step, siblings);
        let mut above = PathState {
            exponent,
            node: parent_of(state.node, step),
            used: state.used + (step - 1),
            digest: self.compress.compress(group),
        };
        if !has_rows {
            return PathLevel { level, group, pair: None, above };
        }
        let rows = self.row_digest(opening.rows, exponent);
        let pair = pair_group::<PW::Value, N, D>(default_digest, above.digest, rows);
        above.digest = self.compress.compress(pair);
        PathLevel { level, group, pair: Some(pair), above }
    }

    /// Checks an opening against the roots of a cap: its form, and that its path leads to the root above the leaf. Each
    /// row is that of its matrix, with `salt_elems` salts after it: 0 in an opening without salts. Each width with its
    /// salts must fit `usize`. Nothing is allocated.
    ///
    /// # Errors
    ///
    /// The first of these that applies:
    ///
    /// - `WrongBatchSize`: the number of rows is not that of the dimensions;
    /// - `EmptyBatch`, `TooLarge` or `IncompatibleHeights`: no tree can be built over such heights;
    /// - `WrongHeight`: the number of siblings is not what the levels below the cap need;
    /// - `WrongWidth`, for the first row whose length is not the width of its matrix with its salts;
    /// - `IndexOutOfBounds`: the index is not below the tallest height;
    /// - `CapMismatch`: there is no root above the leaf, or the path leads to another digest.
    pub(crate) fn check_opening(
        &self,
        roots: &[[PW::Value; D]],
        salt_elems: usize,
        opening: OpeningRef<'_, P::Value, [PW::Value; D]>,
    ) -> Result<(), MerkleTreeError> {
        let (index, num_siblings) = (opening.index, opening.siblings.len());
        check_form(&self.schedule, self.cap_layer, salt_elems, index, opening.rows, num_siblings)?;
        let reached = self.climb(opening);
        if is_entry(roots, reached.node, &reached.digest) { Ok(()) } else { Err(MerkleTreeError::CapMismatch) }
    }

    /// Climbs from the leaf of an opening to its ancestor in the cap's layer. The opening must have the siblings of the
    /// whole path.
    // A climb for each form of rows: one for all would choose the form anew at each layer, and takes a tenth longer.
    fn climb(&self, opening: OpeningRef<'_, P::Value, [PW::Value; D]>) -> PathState<[PW::Value; D]> {
        let OpeningRef { index, rows, siblings } = opening;
        match rows {
            RowParts::Vecs(vecs) => self.climb_over(OpeningRef { index, rows: RowParts::Vecs(vecs), siblings }),
            RowParts::Salted { rows, salts } => {
                self.climb_over(OpeningRef { index, rows: RowParts::Salted { rows, salts }, siblings })
            }
            RowParts::Slices(_) | RowParts::SaltedSlices { .. } | RowParts::Flat { .. } => self.climb_over(opening),
        }
    }

    /// The climb of [`climb`](Checker::climb), which is compiled for one form of rows where the caller names it.
    #[inline(always)]
    fn climb_over(&self, opening: OpeningRef<'_, P::Value, [PW::Value; D]>) -> PathState<[PW::Value; D]> {
        let mut state = self.start(opening);
        for level in 0..self.cap_layer {
            state = self.compute_level(level, opening, &state).above;
        }
        state
    }
}

/// Whether the roots of a cap have `digest` at the position `node`.
pub(crate) fn is_entry<X: PartialEq>(roots: &[X], node: usize, digest: &X) -> bool {
    roots.get(node).is_some_and(|root| *root == *digest)
}
