// Made from crates/tlog_tree/src/frontier.rt by tools/erase.

//! The tree of a log that only grows, by its whole nodes.

use crate::erased::sha256_eights::hash_many;
use crate::erased::tlog::{EMPTY_ROOT, SIZE_LIMIT, node_hash};
use crate::erased::tlog_tree::error::TreeError;
use crate::erased::tlog_tree::wanted::{WantedNode, keep};
use crate::fallible::{AllocError, VecExt, try_vec};
use alloc::vec::Vec;

/// So many leaf hashes of a piece are taken at once: what is computed of these needs less than 1 MiB.
const CHUNK: usize = 4096;

/// The tree of a log that only grows, by its whole nodes (the roots of the largest perfect subtrees, from left to
/// right) and nothing else. A log has at most 2^62 entries, and its tree at most 62 whole nodes.
#[derive(Debug, Clone, Default)]
pub struct Frontier {
    size: usize,
    nodes: Vec<[u8; 32]>,
}

impl Frontier {
    /// The tree of no entries.
    pub fn new() -> Frontier {
        Frontier { size: 0, nodes: Vec::new() }
    }

    /// The tree of a log of `size` entries by its whole nodes, from left to right, as if the entries had been pushed.
    /// Only the number of nodes is checked.
    ///
    /// # Errors
    ///
    /// The first of these that applies:
    ///
    /// - `SizeTooLarge` if the size is above 2^62;
    /// - `NodeCountMismatch` if there are not as many nodes as ones in the size's binary digits;
    /// - `OutOfMemory` if memory runs out.
    pub fn from_nodes(size: usize, nodes: &[[u8; 32]]) -> Result<Frontier, TreeError> {
        if size > SIZE_LIMIT {
            return Err(TreeError::SizeTooLarge);
        }
        if nodes.len() != size.count_ones() as usize {
            return Err(TreeError::NodeCountMismatch);
        }
        Ok(Frontier { size, nodes: Vec::try_from_slice(nodes)? })
    }

    /// How many entries the log has.
    pub fn size(&self) -> usize {
        self.size
    }

    /// The whole nodes, from left to right.
    pub fn nodes(&self) -> &[[u8; 32]] {
        &self.nodes
    }

    /// Appends leaf hashes to those of the log. After an error the log is as it was.
    ///
    /// # Errors
    ///
    /// - `SizeTooLarge` if there would be more than 2^62;
    /// - `OutOfMemory` if memory runs out.
    pub fn push_many(&mut self, hashes: &[[u8; 32]]) -> Result<(), TreeError> {
        self.push_kept(hashes, &mut [])
    }

    /// Appends leaf hashes as [`push_many`](Self::push_many) does, with the same errors. Each node of `wanted` whose
    /// last leaf comes gets its value, if `wanted` is in the order of its nodes' ends; after an error nothing is said
    /// of them.
    pub(crate) fn push_kept(&mut self, hashes: &[[u8; 32]], wanted: &mut [WantedNode]) -> Result<(), TreeError> {
        if hashes.len() > SIZE_LIMIT - self.size {
            return Err(TreeError::SizeTooLarge);
        }
        let mut size = self.size;
        let mut nodes = Vec::try_from_slice(&self.nodes)?;
        let mut rest = hashes;
        while !rest.is_empty() {
            let (chunk, behind) = rest.split_at(rest.len().min(CHUNK));
            let count = size + chunk.len();
            // No others get their values by this chunk.
            let end = wanted.partition_point(|node| node.end() <= count);
            let start = wanted[..end].partition_point(|node| node.end() <= size);
            nodes = grown(0, size, &nodes, chunk, &mut wanted[start..end])?;
            size = count;
            rest = behind;
        }
        self.size = size;
        self.nodes = nodes;
        Ok(())
    }

    /// The root of the log, MTH of RFC 9162, 2.1.1.
    pub fn root(&self) -> [u8; 32] {
        root_of_nodes(&self.nodes)
    }

    /// The root of the leaves that follow the first `whole` nodes of a layer; `None` if none follow. `whole` must be
    /// how many nodes of the layer have all their leaves.
    pub(crate) fn root_behind(&self, whole: usize) -> Option<[u8; 32]> {
        // The frontier begins with a node for each bit of `whole`. These stand in the layer, or above its whole nodes.
        let above = whole.count_ones() as usize;
        let (_, behind) = self.nodes.split_at(above.min(self.nodes.len()));
        if behind.is_empty() {
            return None;
        }
        Some(root_of_nodes(behind))
    }
}

/// The whole nodes of a log whose layer `layer_number`, taken as its leaves, had `size` nodes, and which had the whole
/// nodes `nodes`, once `more` follows in that layer. Each node of `wanted` in this layer or above it whose last leaf
/// comes gets its value. `AllocError` if memory runs out.
fn grown(
    layer_number: usize,
    size: usize,
    nodes: &[[u8; 32]],
    more: &[[u8; 32]],
    wanted: &mut [WantedNode],
) -> Result<Vec<[u8; 32]>, AllocError> {
    if more.is_empty() {
        return Vec::try_from_slice(nodes);
    }
    keep(wanted, layer_number, size, more);
    // A last node of the layer that has no sibling yet comes before the new ones.
    let (higher, lowest) = nodes.split_at(nodes.len().saturating_sub(size % 2));
    let mut layer = Vec::try_from_slice(lowest)?;
    layer.try_extend_from_slice(more)?;
    let above = parents(&layer)?;
    let mut whole = grown(layer_number + 1, size / 2, higher, &above, wanted)?;
    let (_, single) = layer.split_at(2 * (layer.len() / 2));
    whole.try_extend_from_slice(single)?;
    Ok(whole)
}

/// The root of a tree whose whole nodes, from left to right, are `nodes`.
pub(crate) fn root_of_nodes(nodes: &[[u8; 32]]) -> [u8; 32] {
    match nodes {
        [] => EMPTY_ROOT,
        [node] => *node,
        [node, rest @ ..] => node_hash(node, &root_of_nodes(rest)),
    }
}

/// The input of the hash of a node: a byte 1 and both children (RFC 9162, 2.1.1).
fn node_input(left: &[u8; 32], right: &[u8; 32]) -> [u8; 65] {
    let mut input = [1; 65];
    input[1..33].copy_from_slice(left);
    input[33..].copy_from_slice(right);
    input
}

/// The parents of `layer`, nodes of a layer that stand side by side from an even slot on. A last node without a sibling
/// has none. `AllocError` if memory runs out.
fn parents(layer: &[[u8; 32]]) -> Result<Vec<[u8; 32]>, AllocError> {
    let count = layer.len() / 2;
    let mut inputs = Vec::with_room(count)?;
    for i in 0..count {
        inputs.try_push(node_input(&layer[2 * i], &layer[2 * i + 1]))?;
    }
    let mut parents = try_vec([0; 32], count)?;
    hash_many(inputs.as_flattened(), &mut parents);
    Ok(parents)
}
