// Made from crates/p3_merkle_verifier/src/lib.rt by tools/erase.

//! Checking openings of a tree, single and pruned, and extracting a collision from two of them.
//!
//! A check first verifies the form of an opening. Then it computes digests level by level up to the cap: those on the
//! leaf's path, or those of all nodes above several leaves. It compares the last ones with the cap's entries. From a
//! pruned opening it can restore the path of each index. It borrows a hash and a compression, and knows no scheme.

pub(crate) mod checker;
pub(crate) mod extraction;
pub(crate) mod openings;
pub(crate) mod path;
pub(crate) mod pruned_check;
pub(crate) mod pruned_extraction;
