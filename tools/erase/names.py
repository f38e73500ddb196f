"""What has another name in Rust than in the toolchain's library, and what has the same.

A name of the library that stands in no table here is refused: it may do something else in Rust, or end the program
where memory runs out.
"""

# Methods of the toolchain's `Vec` that return want of memory, and the names of crate::fallible for them.
FALLIBLE_METHODS = {
    "push": "try_push",
    "extend_from_slice": "try_extend_from_slice",
    "resize": "try_resize",
    "reserve": "try_room",
    "extend": "try_extend",
    "split_off": "try_split_off",
}
FALLIBLE_MAKERS = {"with_capacity": "with_room", "from_slice": "try_from_slice"}
FALLIBLE = FALLIBLE_METHODS | FALLIBLE_MAKERS

# Methods of Rust's library that end the program where memory runs out. A method of the sources may not be called by
# such a name either, since the call could not be told from one of these.
ALLOCATING = {
    "append", "clone_from", "cloned", "collect", "concat", "extend_from_within", "insert", "into_boxed_slice", "join",
    "push_str", "repeat", "reserve_exact", "resize_with", "shrink_to", "shrink_to_fit", "to_owned", "to_string",
    "to_vec",
}

# Methods that do in Rust what they do in the toolchain's library. Those of hashers, of generators and of vectors of
# words are of crate::sha256, of rand_core and of crate::simd.
SAME_METHODS = {
    "all", "as_array", "as_chunks", "as_flattened", "as_mut_slice", "as_slice", "binary_search", "checked_add",
    "checked_ilog2", "checked_mul", "clear", "copied", "copy_from_slice", "count_ones", "dedup", "div_ceil",
    "enumerate", "eq", "err", "filter", "finalize", "first", "fold", "ilog2", "interleave", "into", "into_iter",
    "is_empty", "is_err", "is_multiple_of", "is_none", "is_power_of_two", "is_some", "is_some_and", "iter",
    "iter_mut", "leading_zeros", "len", "map", "max", "min", "next", "next_multiple_of", "next_u64", "ok_or", "or",
    "partition_point", "position", "push_reserved", "rev", "saturating_add", "saturating_mul", "saturating_sub",
    "sort_unstable", "sort_unstable_by_key", "split_at", "split_first", "split_last", "to_array", "to_be_bytes",
    "trailing_ones", "trailing_zeros", "truncate", "unwrap_or", "update", "wrapping_add", "wrapping_mul", "zip",
}

# Types and modules of the library whose functions are called by a path, and these functions. `Vec::with_capacity` and
# `Vec::from_slice` get other names.
SAME_FUNCTIONS = {
    "Vec": {"new", "with_capacity", "from_slice"},
    "array": {"from_fn"},
    "mem": {"replace", "size_of_val"},
    "u32": {"BITS", "MAX", "from_be_bytes"},
    "u64": {"MAX"},
    "usize": {"BITS", "MAX", "from"},
}
# Types and traits of the library none of whose functions is called by a path.
OTHER_OWNERS = {
    "Default", "Eq", "Fn", "FnMut", "FnOnce", "From", "Into", "Iterator", "Option", "Ord", "PartialEq", "PartialOrd",
    "Result", "bool", "char", "f32", "f64", "i128", "i16", "i32", "i64", "i8", "isize", "slice", "str", "u128", "u16",
    "u8",
}
# Traits of the library whose methods are the same in Rust, and those that rewrite.py treats.
SAME_TRAITS = {"Copy", "Default", "Eq", "From", "Index", "Iterator", "PartialEq"}
TREATED_TRAITS = {"Clone", "Model"}
# Names of the library that may stand behind `std::` outside `use`.
SAME_PATHS = {"std::array::from_fn", "std::mem::size_of_val"}

# Words that no source may have: what they stand for was never looked at.
REFUSED_WORDS = {
    "Arc", "Box", "Cell", "Rc", "RefCell", "String", "async", "await", "dyn", "extern", "macro_rules", "static",
    "union", "unsafe", "yield",
}

# Derives that Rust has too.
SAME_DERIVES = {"Clone", "Copy", "Debug", "Default", "PartialEq", "Eq"}
# Attributes that Rust has too.
SAME_ATTRIBUTES = {"inline", "default"}

# Names of the toolchain's `std`, and where this package has them. Names of the prelude have no place.
STD_NAMES = {
    "alloc::AllocError": "crate::fallible::AllocError",
    "alloc::AllocFailed": None,
    "alloc::Global": None,
    "cmp::Eq": None,
    "convert::AsSlice": None,
    "marker::Model": None,
    "marker::PhantomData": "core::marker::PhantomData",
    "mem": "core::mem",
    "ops::Index": "core::ops::Index",
    "simd::prelude::*": "crate::simd::*",
}
# Names of other crates, and where this package has them.
CRATE_NAMES = {
    "thiserror::Error": None,
    "sha2::Digest": None,
    "sha2::Sha256": "crate::sha256::Sha256",
    "rand_core::CryptoRng": "rand_core::CryptoRng",
    "rand_core::Rng": "rand_core::Rng",
    "rand_core::SeedableRng": "rand_core::SeedableRng",
}
