// Made from crates/p3_merkle_core/src/lib.rt by tools/erase.

//! What a Merkle commitment to matrices of different heights is: the shape of its tree, the value of each
//! node, when an opening is accepted, and what follows from that. The definitions stand in `specs/`; the code
//! computes shapes and says why dimensions or rows are refused.
//!
//! - The exponent of a height is its log2, rounded up. Heights are lawful if each is the tallest one halved, and each
//!   time rounded up, some number of times.
//! - Layer 0 is the leaves; level `l` leads from layer `l` to layer `l + 1`. The slots of a layer are its nodes, then
//!   default digests as padding. The step of a level is how many children each node above it has: the arity, or 2 if a
//!   step of the arity would pass over a matrix's layer (a bridge step).
//! - A matrix belongs to the layer of its exponent. The cap is one layer, and authenticates the matrices of its own
//!   layer and of those below it.
//! - A query is the index of a leaf. A node is covered if it is a queried leaf or above one. The boundary is the
//!   children of covered nodes that are not covered themselves: a pruned proof has their digests.

pub(crate) mod cap;
pub(crate) mod collision;
pub(crate) mod covered_nodes;
pub(crate) mod error;
pub(crate) mod gate;
pub(crate) mod geometry;
pub(crate) mod group;
pub(crate) mod layer_shape;
pub(crate) mod pruning;
pub(crate) mod schedule;
