// Made from crates/p3_merkle_core/src/covered_nodes.rt by tools/erase.

//! The covered nodes of the layers of a tree: the queried leaves, and the nodes above them. The boundary is the
//! children of covered nodes that are not covered themselves.

use crate::erased::p3_merkle_core::geometry::parent_of;
use crate::erased::p3_merkle_core::schedule::{LevelStep, Schedule};
use crate::fallible::{AllocError, VecExt};
use alloc::vec::Vec;

/// The covered nodes of one layer of a tree: the queried leaves, or the nodes above them. The boundary is the children
/// of covered nodes that are not covered themselves.
pub(crate) struct Covered<'a> {
    /// The steps of the tree.
    pub schedule: &'a Schedule<'a>,
    /// The queried indices.
    pub indices: &'a [usize],
    /// The layer, counted from the leaves.
    pub layer: usize,
    /// The layer's exponent.
    pub exponent: usize,
    /// The covered nodes, ascending.
    pub nodes: Vec<usize>,
    /// How many digests of a pruned proof belong to the levels below the layer: one for each node of the boundary
    /// there.
    pub boundary_below: usize,
}

impl<'a> Covered<'a> {
    /// The covered leaves: `nodes` must be the distinct `indices`, ascending. The indices must be below the tallest
    /// height, the arity a power of two from 2 to 2^62, and no height above [`MAX_HEIGHT`].
    #[inline]
    pub(crate) fn new(schedule: &'a Schedule<'a>, indices: &'a [usize], nodes: Vec<usize>) -> Covered<'a> {
        Covered { schedule, indices, layer: 0, exponent: schedule.exponent, nodes, boundary_below: 0 }
    }

    /// The same nodes, in a list of their own.
    ///
    /// # Errors
    ///
    /// `AllocError` if memory runs out.
    #[inline]
    pub(crate) fn try_clone(&self) -> Result<Covered<'a>, AllocError> {
        Ok(Covered {
            schedule: self.schedule,
            indices: self.indices,
            layer: self.layer,
            exponent: self.exponent,
            nodes: Vec::try_from_slice(&self.nodes)?,
            boundary_below: self.boundary_below,
        })
    }

    /// Climbs to the layer above, in place: replaces the covered nodes by their parents, and returns the step that led
    /// to them. This layer must be below the root.
    // Inlined: the count of a proof's digests is a loop of this alone.
    #[inline(always)]
    pub(crate) fn climb(&mut self) -> LevelStep {
        let schedule = self.schedule;
        let up = schedule.step_up(schedule.arity, self.layer, self.exponent);
        let below = self.nodes.len();
        replace_by_parents(&mut self.nodes, up.step);
        self.layer += 1;
        self.exponent = up.exponent;
        self.boundary_below += up.step * self.nodes.len() - below;
        up
    }

    /// How many digests a pruned proof of the indices has, where the cap is layer `layer`: on each level below it, one
    /// for each child of a covered node that is not covered itself. `layer` must be at most the number of levels, and
    /// not below the layer of these nodes. It does not allocate, and takes one step for each node and level.
    #[inline]
    pub(crate) fn boundary_len(mut self, layer: usize) -> usize {
        for _ in self.layer..layer {
            self.climb();
        }
        self.boundary_below
    }
}

/// Replaces `covered`, ascending nodes of a layer, by their parents in the layer above, each once, ascending. A parent
/// has `step` children, at least 1.
#[inline]
fn replace_by_parents(covered: &mut Vec<usize>, step: usize) {
    if covered.is_empty() {
        return;
    }
    let nodes = covered.as_mut_slice();
    let mut last = parent_of(nodes[0], step);
    nodes[0] = last;
    let mut kept = 0;
    for place in 1..nodes.len() {
        let node = parent_of(nodes[place], step);
        // Added without a branch: where a new parent begins can't be predicted.
        kept += usize::from(node != last);
        nodes[kept] = node;
        last = node;
    }
    covered.truncate(kept + 1);
}
