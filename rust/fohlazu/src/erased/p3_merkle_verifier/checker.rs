// Made from crates/p3_merkle_verifier/src/checker.rt by tools/erase.

//! What checks of openings compute with.

use crate::erased::p3_merkle_core::schedule::Schedule;
use crate::erased::p3_support::compress::PseudoCompressionFunction;
use crate::erased::p3_support::hasher::CryptographicHasher;
use crate::erased::p3_support::packed::PackedValue;
use core::marker::PhantomData;

/// Checks openings of one tree up to its cap. `G` is the type of a group. The arity `N` is a power of two from 2 to
/// 2^62.
pub(crate) struct Checker<
    'a,
    P: PackedValue,
    PW: PackedValue,
    H: CryptographicHasher<P, PW, D>,
    C: PseudoCompressionFunction<PW, N, D>,
    G,
    const N: usize,
    const D: usize,
> {
    /// The hasher of rows.
    pub hash: &'a H,
    /// The compression of the children of a node.
    pub compress: &'a C,
    /// The steps of the tree. Their arity is `N`.
    pub schedule: Schedule<'a>,
    /// The cap's layer, at most the number of levels.
    pub cap_layer: usize,
    /// The packings of words, and the type of a group.
    pub item: PhantomData<(P, PW, G)>,
}
