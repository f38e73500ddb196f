// Made from crates/p3_merkle_core/src/collision.rt by tools/erase.

//! Collisions: two different inputs with one digest, at one place of two checks.

use alloc::vec::Vec;
/// The place of an input in the check of an opening. A check hashes the leaf, and then goes up level by level; level
/// `l` leads from layer `l` to layer `l + 1`.
#[derive(Debug, PartialEq, Eq, Clone, Copy)]
pub enum Place {
    /// The words hashed at the leaf.
    Leaf,
    /// The digests compressed on this level: the path's own among its siblings, then default digests.
    Group(usize),
    /// The words hashed for the matrices that belong to the layer above this level.
    Rows(usize),
    /// The digests compressed if matrices belong to the layer above this level: the group's, the rows', then default
    /// digests.
    Pair(usize),
}

/// Two different inputs at one place, of words `T` or of digests `X`. [`Collision`] is this pair at digests of words.
#[derive(Debug, PartialEq, Eq, Clone)]
pub enum InputPair<T, X> {
    /// Inputs of the hasher: the rows of the matrices there, one after another.
    Words {
        /// The place of both inputs.
        place: Place,
        /// The input of the first opening.
        first: Vec<T>,
        /// The input of the second.
        second: Vec<T>,
    },
    /// Inputs of the compression: as many digests as the arity.
    Digests {
        /// The place of both inputs.
        place: Place,
        /// The input of the first opening.
        first: Vec<X>,
        /// The input of the second.
        second: Vec<X>,
    },
}

/// Two different inputs with one digest, at one place of two checks: of words `T`, or of digests of `D` words `W`.
pub type Collision<T, W, const D: usize> = InputPair<T, [W; D]>;
