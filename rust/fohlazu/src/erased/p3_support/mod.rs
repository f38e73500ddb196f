// Made from crates/p3_support/src/lib.rt by tools/erase.

//! What a Merkle tree over matrices is built from: packed values, hashers, compressions and matrices, each a trait with
//! laws, and the matrices and records that the schemes share.

pub(crate) mod compress;
pub(crate) mod hasher;
pub(crate) mod matrix;
pub(crate) mod mmcs;
pub(crate) mod opening;
pub(crate) mod packed;
pub(crate) mod pair;
pub(crate) mod row_parts;
pub(crate) mod rows;
pub(crate) mod salts;
