// Made from crates/p3_merkle_prover/src/lib.rt by tools/erase.

//! The tree over a batch of matrices: how its layers are built one above the other, and how it opens one leaf or
//! several.

pub(crate) mod checked;
pub(crate) mod layer;
pub(crate) mod layers;
pub(crate) mod opener;
pub(crate) mod pruned_opener;
pub(crate) mod tree;
