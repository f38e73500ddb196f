// Made from crates/p3_merkle_core/src/schedule.rt by tools/erase.

//! The schedule of a tree: the steps from the leaves to the root. It is computed once and stored; all other code reads
//! it. Only the clone and the two calls that return a list allocate.
//!
//! - Layer 0 is the leaves; level `l` leads from layer `l` to layer `l + 1`. The step of a level is how many children
//!   each node above it has: the arity, or 2 if a step of the arity would pass over a matrix's layer (a bridge step).
//! - The exponent of a height is its log2, rounded up. That of layer 0 is the tallest height's, and each step takes its
//!   own log2 from it, down to the root's 0. A matrix belongs to the layer of its exponent.

use crate::erased::p3_merkle_core::cap::CapRule;
use crate::erased::p3_merkle_core::geometry::{exponent_of, extremes_of, height_of_exponent, padded_len};
use crate::erased::p3_merkle_core::layer_shape::LayerShape;
use crate::erased::p3_support::matrix::Dimensions;
use crate::fallible::{AllocError, TryClone, VecExt};
use alloc::vec::Vec;

/// How many levels a tree has at most: each halves the heights, which are below 2^64, at least.
const MAX_LEVELS: usize = 64;

/// What the steps above a layer depend on: its exponent, and the next lower one that a matrix has.
#[derive(Clone, Copy)]
struct Exponents {
    /// The exponent of the layer.
    pub layer: usize,
    /// The greatest exponent below the layer's that a matrix has, if there is one.
    pub next_lower_exponent: Option<usize>,
}

/// Which exponents the matrices have, as a bit mask, so that the matrices are read once for all layers.
#[derive(Clone, Copy)]
struct MatrixExponents<'a> {
    pub dimensions: &'a [Dimensions],
    /// Bit `e` is set where a matrix has the exponent `e`. The exponent 64 has no bit: it is below no layer's.
    pub bits: usize,
}

impl<'a> MatrixExponents<'a> {
    /// The exponents on which the steps above a layer depend: `layer`, its own, which must be at most 64, and the next
    /// lower one that a matrix has.
    #[inline]
    fn exponents_at(&self, layer: usize) -> Exponents {
        let below = if layer < usize::BITS as usize { self.bits % (1 << layer) } else { self.bits };
        Exponents { layer, next_lower_exponent: below.checked_ilog2().map(|exponent| exponent as usize) }
    }
}

/// The step of a level, and whether matrices belong to the layer above it.
#[derive(Debug, Clone, Copy)]
struct LevelKind {
    /// Whether it is a bridge step of 2, and none of the whole arity.
    pub is_bridge: bool,
    /// Whether matrices belong to the layer above the level.
    pub has_rows: bool,
}

/// The step from the layer of `exponents`, with whether matrices belong to the layer that it leads to; and the
/// exponents of that layer. The step must begin below the root, at an exponent of at most 64. The arity must be at
/// least 2.
#[inline]
fn next_step(matrices: &MatrixExponents<'_>, arity: usize, exponents: Exponents) -> (LevelKind, Exponents) {
    let target = exponents.layer.saturating_sub(exponent_of(arity));
    // A matrix's exponent lies strictly between the layer's and what a step of the whole arity leaves of it.
    let is_bridge = exponents.next_lower_exponent.is_some_and(|exponent| exponent > target);
    let layer = if is_bridge { exponents.layer - 1 } else { target };
    // No matrix's exponent lies between those of the two layers: the next lower one is the upper layer's, or below it.
    let has_rows = exponents.next_lower_exponent == Some(layer);
    let above = if has_rows { matrices.exponents_at(layer) } else { Exponents { layer, ..exponents } };
    let level = LevelKind { is_bridge, has_rows };
    (level, above)
}

/// A step from one layer to the next.
#[derive(Clone, Copy)]
pub(crate) struct LevelStep {
    /// How many children a node of the next layer has.
    pub step: usize,
    /// Whether matrices belong to the next layer.
    pub has_rows: bool,
    /// The exponent of the next layer.
    pub exponent: usize,
}

/// The steps of the tree over matrices of some dimensions, from the leaves to the root.
#[derive(Clone, Copy)]
pub(crate) struct Schedule<'a> {
    /// The dimensions of all matrices.
    pub dimensions: &'a [Dimensions],
    /// How many children a node has at most.
    pub arity: usize,
    /// The tallest height, in rows, or 0 if there are no matrices.
    pub max_height: usize,
    /// The least height, in rows, or 0 if there are no matrices.
    pub min_height: usize,
    /// The exponent of the leaves.
    pub exponent: usize,
    /// How many steps lead from the leaves to the root.
    pub num_levels: usize,
    of_level: [LevelKind; MAX_LEVELS],
}

/// The steps of the tree over matrices of these dimensions, where a node has at most `arity` children. The heights need
/// not be lawful. The arity must be at least 2. It reads each matrix twice: for its height, and for its exponent.
#[inline]
pub(crate) fn schedule_of(dimensions: &[Dimensions], arity: usize) -> Schedule<'_> {
    let (max_height, min_height) = extremes_of(dimensions);
    let exponent = exponent_of(max_height);
    let mut bits = 0;
    for matrix in dimensions {
        let bit = exponent_of(matrix.height);
        if bit < usize::BITS as usize {
            bits |= 1 << bit;
        }
    }
    let matrices = MatrixExponents { dimensions, bits };
    let mut exponents = matrices.exponents_at(exponent);
    let none = LevelKind { is_bridge: false, has_rows: false };
    let mut of_level = [none; MAX_LEVELS];
    let mut num_levels = 0;
    while exponents.next_lower_exponent.is_some() {
        let (step, above) = next_step(&matrices, arity, exponents);
        of_level[num_levels] = step;
        num_levels += 1;
        exponents = above;
    }
    // No matrix belongs to a layer above: whole steps without rows lead to the root, and all of them are `none`.
    num_levels += exponents.layer.div_ceil(exponent_of(arity));
    Schedule { dimensions, arity, max_height, min_height, exponent, num_levels, of_level }
}

/// The steps of a tree, with its own copy of the dimensions. A tree stores them for its openings.
#[derive(Debug)]
pub(crate) struct OwnedSchedule {
    /// The dimensions of all matrices.
    pub dimensions: Vec<Dimensions>,
    /// How many children a node has at most.
    pub arity: usize,
    /// The tallest height, in rows, or 0 if there are no matrices.
    pub max_height: usize,
    min_height: usize,
    exponent: usize,
    num_levels: usize,
    of_level: [LevelKind; MAX_LEVELS],
}

impl OwnedSchedule {
    /// Computes the steps of the tree over matrices of these dimensions by [`schedule_of`]. The arity must be at least
    /// 2.
    #[inline]
    pub(crate) fn new(dimensions: Vec<Dimensions>, arity: usize) -> OwnedSchedule {
        let schedule = schedule_of(&dimensions, arity);
        OwnedSchedule {
            arity,
            max_height: schedule.max_height,
            min_height: schedule.min_height,
            exponent: schedule.exponent,
            num_levels: schedule.num_levels,
            of_level: schedule.of_level,
            dimensions,
        }
    }

    /// The steps, with the dimensions borrowed.
    #[inline]
    pub(crate) fn schedule(&self) -> Schedule<'_> {
        Schedule {
            dimensions: &self.dimensions,
            arity: self.arity,
            max_height: self.max_height,
            min_height: self.min_height,
            exponent: self.exponent,
            num_levels: self.num_levels,
            of_level: self.of_level,
        }
    }

    /// The same steps, with a copy of the dimensions.
    ///
    /// # Errors
    ///
    /// `AllocError` if memory runs out.
    #[inline]
    pub(crate) fn try_clone(&self) -> Result<OwnedSchedule, AllocError> {
        Ok(OwnedSchedule::new(self.dimensions.try_clone()?, self.arity))
    }
}

impl<'a> Schedule<'a> {
    /// The layer, counted from the leaves, that is the cap of this height by this rule (see [`CapRule`]). `cap_height`
    /// counts levels below the root. The arity must be a power of two from 2 to 2^62. It does not allocate.
    #[inline]
    pub(crate) fn cap_layer(&self, rule: CapRule, cap_height: usize) -> usize {
        // No step above the layer of the shortest matrix is a bridge step.
        let max_cap_height = match rule {
            CapRule::Lowered => exponent_of(self.min_height).div_ceil(exponent_of(self.arity)),
            CapRule::Fixed => self.num_levels,
        };
        self.num_levels.saturating_sub(cap_height.min(max_cap_height))
    }

    /// The step of a level, in children per node. The level must be below the root.
    #[inline]
    pub(crate) fn step(&self, level: usize) -> usize {
        if self.of_level[level].is_bridge { 2 } else { self.arity }
    }

    /// The step of a level, the exponent of the layer above it, and whether matrices belong to that layer. The level
    /// must be below the root. `exponent` must be that of the layer below: a caller that goes up level by level has it.
    /// `arity` must be that of the steps: a caller that has it as a constant divides by a constant.
    #[inline]
    pub(crate) fn step_up(&self, arity: usize, level: usize, exponent: usize) -> LevelStep {
        let kept = self.of_level[level];
        let step = if kept.is_bridge { 2 } else { arity };
        LevelStep { step, has_rows: kept.has_rows, exponent: exponent.saturating_sub(exponent_of(step)) }
    }

    /// The shape of the layer above the layer `below`. That is the number of a layer below the root; `exponent` and
    /// `len` must be its exponent and its number of nodes. The arity must be a power of two from 2 to 2^62, and
    /// [`check_heights`] must accept the heights.
    #[inline]
    pub(crate) fn layer_above(&self, below: usize, exponent: usize, len: usize) -> LayerShape {
        let arity = self.arity;
        let up = self.step_up(arity, below, exponent);
        // Where a bridge step halves a layer that is shorter than the arity, the 2^exponent slots that its nodes can
        // fill are grouped, and the slots after them are padding.
        let grouped_len =
            if self.of_level[below].is_bridge && len < arity { 1 << exponent } else { padded_len(len, arity) };
        let raw_len = grouped_len / up.step;
        LayerShape {
            below,
            step: up.step,
            exponent: up.exponent,
            raw_len,
            layer_len: padded_len(raw_len, arity),
            height: height_of_exponent(self.max_height, up.exponent),
            has_rows: up.has_rows,
        }
    }

    /// The exponent of a layer, counted from the leaves. The layer must be at most the number of levels.
    #[inline]
    pub(crate) fn layer_exponent(&self, layer: usize) -> usize {
        let mut exponent = self.exponent;
        for level in 0..layer {
            exponent = self.step_up(self.arity, level, exponent).exponent;
        }
        exponent
    }

    /// How many siblings the levels below a layer have, in digests: one less than the step of each
    /// (`total_siblings_for_levels` in Plonky3). The layer must be at most the number of levels, the arity a power of
    /// two from 2 to 2^62, and no height above `MAX_HEIGHT`.
    #[inline]
    pub(crate) fn siblings_below(&self, layer: usize) -> usize {
        // At arity 2 each level has one sibling.
        if self.arity == 2 {
            return layer;
        }
        let mut count = 0;
        for level in 0..layer {
            count += self.step(level) - 1;
        }
        count
    }

    /// The steps of the levels below a layer, from the leaves up, in children per node. The layer must be at most the
    /// number of levels. It allocates a list of one number for each level.
    ///
    /// # Errors
    ///
    /// `AllocError` if memory runs out.
    #[inline]
    pub(crate) fn schedule_below(&self, layer: usize) -> Result<Vec<usize>, AllocError> {
        let mut schedule = Vec::with_room(layer)?;
        for level in 0..layer {
            schedule.push_reserved(self.step(level));
        }
        Ok(schedule)
    }

    /// For each level below a layer, from the leaves up, the position of the index's ancestor there among its parent's
    /// children, from 0. The layer must be at most the number of levels. It allocates a list of one number for each
    /// level.
    ///
    /// # Errors
    ///
    /// `AllocError` if memory runs out.
    #[inline]
    pub(crate) fn positions_below(&self, layer: usize, index: usize) -> Result<Vec<usize>, AllocError> {
        let mut positions = Vec::with_room(layer)?;
        let mut ancestor = index;
        for level in 0..layer {
            let step = self.step(level);
            positions.push_reserved(ancestor % step);
            ancestor /= step;
        }
        Ok(positions)
    }
}
