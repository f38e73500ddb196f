// Made from crates/tlog_tree/src/proof_nodes.rt by tools/erase.

//! Which nodes the digests of honest proofs are.

use crate::erased::tlog_tree::node_id::NodeId;
use crate::fallible::{AllocError, VecExt};
use alloc::vec::Vec;

/// The nodes whose values are the proof of inclusion of entry `index`, counted from 0, in a log of `size` entries, in
/// the order of the proof (RFC 9162, 2.1.3.1), as a [`TreeBuilder`](crate::erased::tlog_tree::TreeBuilder) takes them. The index must be
/// below the size.
///
/// # Errors
///
/// `AllocError` if memory runs out.
///
/// # Panics
///
/// - By `index_in` unless `index < size`.
pub fn inclusion_nodes(index: usize, size: usize) -> Result<Vec<NodeId>, AllocError> {
    assert!(index < size, "index_in");
    let mut nodes = Vec::new();
    add_path(&mut nodes, 0, index, size - 1)?;
    Ok(nodes)
}

/// The nodes of the new tree whose values are the proof of consistency from `old_size` to `new_size` entries, in the
/// order of the proof (RFC 9162, 2.1.4.1), as a [`TreeBuilder`](crate::erased::tlog_tree::TreeBuilder) takes them. The old size must be
/// above 0, and below the new one.
///
/// # Errors
///
/// `AllocError` if memory runs out.
///
/// # Panics
///
/// - By `some` unless `0 < old_size`.
/// - By `grown` unless `old_size < new_size`.
pub fn consistency_nodes(old_size: usize, new_size: usize) -> Result<Vec<NodeId>, AllocError> {
    assert!(0 < old_size, "some");
    assert!(old_size < new_size, "grown");
    let mut layer = 0;
    let mut old = old_size;
    let mut last = new_size - 1;
    // The last old node is whole up to this layer.
    while old % 2 == 0 {
        old /= 2;
        last /= 2;
        layer += 1;
    }
    let mut nodes = Vec::new();
    // If the old size is a power of two, the verifier has the node's value: it is the old root.
    if old > 1 {
        nodes.try_push(NodeId { layer, slot: old - 1 })?;
    }
    add_path(&mut nodes, layer, old - 1, last)?;
    Ok(nodes)
}

/// Appends to `nodes` the siblings on the way up from the node `slot` of layer `layer`, but for those past the end of
/// their layer. `last` is the last slot of layer `layer`, at least `slot`. `AllocError` if memory runs out.
fn add_path(nodes: &mut Vec<NodeId>, layer: usize, slot: usize, last: usize) -> Result<(), AllocError> {
    let mut layer = layer;
    let mut slot = slot;
    let mut last = last;
    while last > 0 {
        let sibling = if slot % 2 == 0 { slot + 1 } else { slot - 1 };
        if sibling <= last {
            nodes.try_push(NodeId { layer, slot: sibling })?;
        }
        slot /= 2;
        last /= 2;
        layer += 1;
    }
    Ok(())
}
