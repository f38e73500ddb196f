//! A stand-in for `serde` 1, for tests where no registry is reached: its traits, as far as this repository uses them,
//! for structs with named fields, lists, arrays, pairs and numbers. The names and the signatures are those of the crate,
//! and so is what a format sees of a value.
#![no_std]
#![forbid(unsafe_code)]

extern crate alloc;

pub mod de;
pub mod ser;

pub use de::{Deserialize, Deserializer};
pub use ser::{Serialize, Serializer};
#[cfg(feature = "derive")]
pub use serde_derive::{Deserialize, Serialize};
