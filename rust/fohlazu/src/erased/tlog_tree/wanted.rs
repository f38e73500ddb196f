// Made from crates/tlog_tree/src/wanted.rt by tools/erase.

//! Nodes that are wanted, and what becomes of them as a log grows.

use crate::erased::tlog::SIZE_LIMIT;
use crate::erased::tlog_tree::node_id::NodeId;

/// A node that is wanted.
#[derive(Clone, Copy, Debug, PartialEq, Eq)]
pub(crate) struct WantedNode {
    /// Which node it is.
    pub id: NodeId,
    /// Its index among the wanted nodes, in the order of the call.
    pub index: usize,
    /// Its value, once all leaves below it have come.
    pub value: [u8; 32],
}

impl WantedNode {
    /// How many leaves a log has once the last leaf below this node has come; `SIZE_LIMIT + 1` if no log has so many.
    pub(crate) fn end(&self) -> usize {
        if self.id.slot < whole_count(SIZE_LIMIT, self.id.layer) {
            (self.id.slot + 1) << self.id.layer
        } else {
            SIZE_LIMIT + 1
        }
    }

    /// This node, with its value if it is one of `nodes`, which stand in the layer from slot `first` on.
    fn kept(self, layer: usize, first: usize, nodes: &[[u8; 32]]) -> WantedNode {
        let slot = self.id.slot;
        if self.id.layer == layer && first <= slot && slot - first < nodes.len() {
            return WantedNode { value: nodes[slot - first], ..self };
        }
        self
    }
}

/// Sets the value of each wanted node that is one of `nodes`, which stand in the layer from slot `first` on.
pub(crate) fn keep(wanted: &mut [WantedNode], layer: usize, first: usize, nodes: &[[u8; 32]]) {
    for node in wanted.iter_mut() {
        *node = node.kept(layer, first, nodes);
    }
}

/// How many nodes of a layer have all their leaves, in a log of `size` entries.
pub(crate) fn whole_count(size: usize, layer: usize) -> usize {
    if layer < 64 { size >> layer } else { 0 }
}
