// Made from crates/p3_merkle_verifier/src/extraction.rt by tools/erase.

//! Two openings of one cap: whether their checks agree, and extraction of a collision. Both checks are walked side by
//! side, to the last place that they share and at which their inputs differ.
//!
//! A check has an input of the hash at the leaf, the words of its rows. On each level it has the digests of a group, a
//! node and its siblings; and where matrices belong to the layer above, the words of their rows, and a pair of both
//! digests. Two checks share the leaf or a level if they reach one node there.

use crate::erased::p3_merkle_core::collision::{Collision, InputPair, Place};
use crate::erased::p3_merkle_core::error::MerkleTreeError;
use crate::erased::p3_merkle_core::schedule::Schedule;
use crate::erased::p3_merkle_verifier::checker::Checker;
use crate::erased::p3_merkle_verifier::openings::{OpenedParts, OpenedWords, OpeningRef};
use crate::erased::p3_merkle_verifier::path::PathLevel;
use crate::erased::p3_support::compress::PseudoCompressionFunction;
use crate::erased::p3_support::hasher::CryptographicHasher;
use crate::erased::p3_support::matrix::Dimensions;
use crate::erased::p3_support::packed::PackedValue;
use crate::erased::p3_support::row_parts::RowParts;
use crate::fallible::{AllocError, VecExt};
use alloc::vec::Vec;

/// The rows of two openings, to be compared at the matrices of one exponent.
struct RowPair<'a, T> {
    /// The dimensions of all matrices.
    pub dimensions: &'a [Dimensions],
    /// The exponent of those whose rows are compared.
    pub exponent: usize,
    /// The rows of all matrices in the first opening.
    pub first: RowParts<'a, T>,
    /// The rows of all matrices in the second opening.
    pub second: RowParts<'a, T>,
}

impl<'a, T: Eq> RowPair<'a, T> {
    /// Whether both openings have the same words in the rows of the matrices of the exponent. Nothing is copied.
    fn agree(&self) -> bool {
        let first = OpenedWords::new(self.dimensions, self.first, self.exponent);
        let second = OpenedWords::new(self.dimensions, self.second, self.exponent);
        first.eq(second)
    }
}

/// The digests `first` and `second` that two checks compress at `place`, if they differ. `AllocError` if they do, and
/// memory runs out.
fn differing_digests<T, W: Copy + Eq, const D: usize>(
    place: Place,
    first: &[[W; D]],
    second: &[[W; D]],
) -> Result<Option<InputPair<T, [W; D]>>, AllocError> {
    if first == second {
        return Ok(None);
    }
    Ok(Some(InputPair::Digests { place, first: Vec::try_from_slice(first)?, second: Vec::try_from_slice(second)? }))
}

/// The words of the rows of the matrices of the exponent `exponent`, one after another. `rows` has a row for each of
/// `dimensions`. `AllocError` if memory runs out.
fn opened_words<T: Copy>(
    dimensions: &[Dimensions],
    rows: RowParts<'_, T>,
    exponent: usize,
) -> Result<Vec<T>, AllocError> {
    let mut words = Vec::new();
    for part in OpenedParts::new(dimensions, rows, exponent) {
        words.try_extend_from_slice(part)?;
    }
    Ok(words)
}

/// The words of `rows` that two checks hash at `place`, if they differ. Nothing is copied where they are the same.
/// `AllocError` if they differ, and memory runs out.
fn differing_words<T: Copy + Eq, W, const D: usize>(
    place: Place,
    rows: &RowPair<'_, T>,
) -> Result<Option<InputPair<T, [W; D]>>, AllocError> {
    if rows.agree() {
        return Ok(None);
    }
    Ok(Some(InputPair::Words {
        place,
        first: opened_words(rows.dimensions, rows.first, rows.exponent)?,
        second: opened_words(rows.dimensions, rows.second, rows.exponent)?,
    }))
}

/// The words that two checks hash at the leaf, if both openings are of one leaf and the words differ. `AllocError` if
/// so it is, and memory runs out.
fn leaf_difference<T: Copy + Eq, W: Copy + Eq, const D: usize>(
    schedule: &Schedule<'_>,
    first: OpeningRef<'_, T, [W; D]>,
    second: OpeningRef<'_, T, [W; D]>,
) -> Result<Option<InputPair<T, [W; D]>>, AllocError> {
    if first.index != second.index {
        return Ok(None);
    }
    let rows = RowPair {
        dimensions: schedule.dimensions,
        exponent: schedule.exponent,
        first: first.rows,
        second: second.rows,
    };
    differing_words(Place::Leaf, &rows)
}

/// The last inputs of a level in which two checks differ above their groups: the pairs, which are compressed last, else
/// the words of the rows. `None` if all are the same, or if no matrix belongs to the layer above the level. `first` and
/// `second` are the level in each check, and must reach one node; `rows` are the rows of both openings at the layer
/// above. `AllocError` if some differ, and memory runs out.
fn difference_above_group<T: Copy + Eq, W: Copy + Eq, const N: usize, const D: usize>(
    rows: &RowPair<'_, T>,
    first: &PathLevel<[W; D], [[W; D]; N]>,
    second: &PathLevel<[W; D], [[W; D]; N]>,
) -> Result<Option<InputPair<T, [W; D]>>, AllocError> {
    let (Some(first_pair), Some(second_pair)) = (&first.pair, &second.pair) else {
        return Ok(None);
    };
    match differing_digests(Place::Pair(first.level), first_pair, second_pair)? {
        Some(pair) => Ok(Some(pair)),
        None => differing_words(Place::Rows(first.level), rows),
    }
}

/// The last inputs of a level in which two checks differ: the pairs, else the words of the rows, else the groups.
/// `None` if all are the same, or if the checks do not share the node above the level. `first` and `second` are the
/// level in each check; `rows` are the rows of both openings at the layer above. `AllocError` if some differ, and
/// memory runs out.
fn level_difference<T: Copy + Eq, W: Copy + Eq, const N: usize, const D: usize>(
    rows: &RowPair<'_, T>,
    first: &PathLevel<[W; D], [[W; D]; N]>,
    second: &PathLevel<[W; D], [[W; D]; N]>,
) -> Result<Option<InputPair<T, [W; D]>>, AllocError> {
    if first.above.node != second.above.node {
        return Ok(None);
    }
    match difference_above_group(rows, first, second)? {
        Some(above) => Ok(Some(above)),
        None => differing_digests(Place::Group(first.level), &first.group, &second.group),
    }
}

/// Whether two checks have the same inputs on a level, or do not share the node above it. `first` and `second` are the
/// level in each check; `rows` are the rows of both openings at the layer above. The pairs are computed from the groups
/// and the rows, so they are not compared.
fn levels_agree<T: Eq, W: Copy + Eq, const N: usize, const D: usize>(
    rows: &RowPair<'_, T>,
    first: &PathLevel<[W; D], [[W; D]; N]>,
    second: &PathLevel<[W; D], [[W; D]; N]>,
) -> bool {
    if first.above.node != second.above.node {
        return true;
    }
    first.group == second.group && (first.pair.is_none() || rows.agree())
}

impl<
    'a,
    P: PackedValue,
    PW: PackedValue,
    H: CryptographicHasher<P, PW, D>,
    C: PseudoCompressionFunction<PW, N, D>,
    const N: usize,
    const D: usize,
> Checker<'a, P, PW, H, C, [[PW::Value; D]; N], N, D>
{
    /// True only if the checks of two openings have the same inputs at every place that both share. Both openings must
    /// have their siblings up to the cap. Nothing is allocated.
    pub(crate) fn agree(
        &self,
        first: OpeningRef<'_, P::Value, [PW::Value; D]>,
        second: OpeningRef<'_, P::Value, [PW::Value; D]>,
    ) -> bool {
        let leaves = RowPair {
            dimensions: self.schedule.dimensions,
            exponent: self.schedule.exponent,
            first: first.rows,
            second: second.rows,
        };
        if first.index == second.index && !leaves.agree() {
            return false;
        }
        let mut first_state = self.start(first);
        let mut second_state = self.start(second);
        for level in 0..self.cap_layer {
            let mine = self.compute_level(level, first, &first_state);
            let theirs = self.compute_level(level, second, &second_state);
            let rows = RowPair {
                dimensions: self.schedule.dimensions,
                exponent: mine.above.exponent,
                first: first.rows,
                second: second.rows,
            };
            if !levels_agree(&rows, &mine, &theirs) {
                return false;
            }
            first_state = mine.above;
            second_state = theirs.above;
        }
        true
    }

    /// The last place that the checks of two openings share and at which they differ, with both inputs. `None` if they
    /// agree. Both openings must have their siblings up to the cap. Only the inputs of places that differ are copied.
    /// `AllocError` if the checks differ at such a place, and memory runs out.
    pub(crate) fn last_difference(
        &self,
        first: OpeningRef<'_, P::Value, [PW::Value; D]>,
        second: OpeningRef<'_, P::Value, [PW::Value; D]>,
    ) -> Result<Option<Collision<P::Value, PW::Value, D>>, AllocError> {
        let mut first_state = self.start(first);
        let mut second_state = self.start(second);
        let mut last = leaf_difference(&self.schedule, first, second)?;
        for level in 0..self.cap_layer {
            let mine = self.compute_level(level, first, &first_state);
            let theirs = self.compute_level(level, second, &second_state);
            let rows = RowPair {
                dimensions: self.schedule.dimensions,
                exponent: mine.above.exponent,
                first: first.rows,
                second: second.rows,
            };
            let found = level_difference(&rows, &mine, &theirs)?;
            last = found.or(last);
            first_state = mine.above;
            second_state = theirs.above;
        }
        Ok(last)
    }

    /// Extracts a collision from two openings under the roots of a cap: the inputs at the last place that both checks
    /// share and at which they differ, or `None` if the checks agree.
    ///
    /// # Errors
    ///
    /// The first of these that applies:
    ///
    /// - the error of [`check_opening`](Self::check_opening) for the first opening;
    /// - that for the second opening;
    /// - `OutOfMemory`, only if the checks differ at a place that both share.
    pub(crate) fn extraction(
        &self,
        roots: &[[PW::Value; D]],
        first: OpeningRef<'_, P::Value, [PW::Value; D]>,
        second: OpeningRef<'_, P::Value, [PW::Value; D]>,
    ) -> Result<Option<Collision<P::Value, PW::Value, D>>, MerkleTreeError> {
        self.check_opening(roots, 0, first)?;
        self.check_opening(roots, 0, second)?;
        Ok(self.last_difference(first, second)?)
    }
}
