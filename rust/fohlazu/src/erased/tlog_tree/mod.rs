// Made from crates/tlog_tree/src/lib.rt by tools/erase.

//! Trees of logs by RFC 9162 that only grow, under SHA-256 eight nodes at a time.

pub(crate) mod builder;
pub(crate) mod error;
pub(crate) mod frontier;
pub(crate) mod leaf;
pub(crate) mod node_id;
pub(crate) mod proof_nodes;
pub(crate) mod wanted;

pub use builder::TreeBuilder;
pub use error::TreeError;
pub use frontier::Frontier;
pub use leaf::leaf_hashes;
pub use node_id::NodeId;
pub use proof_nodes::{consistency_nodes, inclusion_nodes};
