// Made from crates/tlog_tree/src/builder.rt by tools/erase.

//! The tree of a log that is read once, with the values of wanted nodes.

use crate::erased::tlog_tree::error::TreeError;
use crate::erased::tlog_tree::frontier::Frontier;
use crate::erased::tlog_tree::node_id::NodeId;
use crate::erased::tlog_tree::wanted::{WantedNode, whole_count};
use crate::fallible::{AllocError, VecExt, try_vec};
use alloc::vec::Vec;

/// The tree of a log that is read once, from its first entry on, with the values of the nodes that were wanted when it
/// began, and nothing else: what proofs of inclusion and of consistency are computed from.
#[derive(Debug, Clone)]
pub struct TreeBuilder {
    frontier: Frontier,
    /// In the order of their ends, so that a push looks at those alone that end in it.
    wanted: Vec<WantedNode>,
}

impl TreeBuilder {
    /// The tree of no entries, where these nodes are wanted, in any order and as often as they are named.
    ///
    /// # Errors
    ///
    /// `AllocError` if memory runs out.
    pub fn new(nodes: &[NodeId]) -> Result<TreeBuilder, AllocError> {
        let mut wanted = Vec::with_room(nodes.len())?;
        for index in 0..nodes.len() {
            wanted.try_push(WantedNode { id: nodes[index], index, value: [0; 32] })?;
        }
        wanted.sort_unstable_by_key(|node| node.end());
        Ok(TreeBuilder { frontier: Frontier::new(), wanted })
    }

    /// Appends leaf hashes to those of the log. After an error the builder is gone.
    ///
    /// # Errors
    ///
    /// - `SizeTooLarge` if there would be more than 2^62;
    /// - `OutOfMemory` if memory runs out.
    pub fn push_many(mut self, hashes: &[[u8; 32]]) -> Result<TreeBuilder, TreeError> {
        self.frontier.push_kept(hashes, &mut self.wanted)?;
        Ok(self)
    }

    /// The tree of the log so far.
    pub fn frontier(&self) -> &Frontier {
        &self.frontier
    }

    /// The values of the wanted nodes in the tree so far, in the order in which they were wanted: `None` if a node has
    /// no leaves. A node that the end of the log cuts off has the value that is passed on, the root of the leaves that
    /// it has.
    ///
    /// # Errors
    ///
    /// `AllocError` if memory runs out.
    pub fn values(&self) -> Result<Vec<Option<[u8; 32]>>, AllocError> {
        let mut values = try_vec(None, self.wanted.len())?;
        for node in &self.wanted {
            // Each index is below the count, though the node's type does not say so.
            if node.index < values.len() {
                values[node.index] = self.value(node);
            }
        }
        Ok(values)
    }

    /// The value of a wanted node: the hash that was kept for it, if all its leaves have come; the root of those that
    /// have come, if the end of the log cuts it off; `None` if none have come.
    fn value(&self, node: &WantedNode) -> Option<[u8; 32]> {
        let whole = whole_count(self.frontier.size(), node.id.layer);
        if node.id.slot < whole {
            return Some(node.value);
        }
        if node.id.slot == whole {
            return self.frontier.root_behind(whole);
        }
        None
    }
}
