// Made from crates/tlog_multiproof/src/lib.rt by tools/erase.

//! Several entries of a log by RFC 9162, proved by one smallest proof, under SHA-256: a log's tree is the tree of arity
//! 2 over one column of leaf hashes, with a compression that passes an only child on.

pub(crate) mod collision;
pub(crate) mod error;
pub(crate) mod opening;
pub(crate) mod tree;
pub(crate) mod verify;

pub use collision::entries_collision;
pub use error::EntriesError;
pub use opening::entry_nodes;
pub use verify::verify_entries;
