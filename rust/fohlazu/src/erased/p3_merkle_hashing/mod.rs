// Made from crates/p3_merkle_hashing/src/lib.rt by tools/erase.

//! How the layers of a tree are hashed: the rows of matrices, and groups of children.

pub(crate) mod calls;
pub(crate) mod nodes;
pub(crate) mod rows;
