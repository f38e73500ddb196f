//! A stand-in for `p3-symmetric` 0.8, for tests where no registry is reached: hashers, compressions, digests and caps,
//! as far as this repository and the tests of p3-merkle-tree 0.8.0 use them. The names, the signatures and what each
//! call returns are those that p3-merkle-tree 0.8.0 relies on.
#![no_std]
#![forbid(unsafe_code)]

extern crate alloc;

mod permutation;
mod serializing;

pub use permutation::{CryptographicPermutation, PaddingFreeSponge, TruncatedPermutation};
pub use serializing::{CompressionFunctionFromHasher, SerializingHasher};

use alloc::vec::Vec;
use core::iter::once;
use core::marker::PhantomData;
use core::ops::Index;
use serde::{Deserialize, Serialize};

/// A hash function from lists of items to digests.
pub trait CryptographicHasher<Item: Clone, Out>: Clone {
    /// How many messages `hash_many` hashes side by side.
    const LANES: usize = 1;

    /// Whether a message in several pieces is hashed faster when it is copied into one slice first.
    const PREFER_CONTIGUOUS_INPUT: bool = false;

    /// The digest of the items of an iterator.
    fn hash_iter<I>(&self, input: I) -> Out
    where
        I: IntoIterator<Item = Item>;

    /// The digest of slices, one after another.
    fn hash_iter_slices<'a, I>(&self, input: I) -> Out
    where
        I: IntoIterator<Item = &'a [Item]>,
        Item: 'a,
    {
        self.hash_iter(input.into_iter().flat_map(|items| items.iter().cloned()))
    }

    /// The digest of a slice.
    fn hash_slice(&self, input: &[Item]) -> Out {
        self.hash_iter_slices(once(input))
    }

    /// The digest of one item.
    fn hash_item(&self, input: Item) -> Out {
        self.hash_slice(&[input])
    }

    /// Writes the digest of message `i` into `out[i]`. The messages are of one length, one after another.
    fn hash_many(&self, messages: &[Item], out: &mut [Out]) {
        let Some(len) = messages.len().checked_div(out.len()) else { return };
        assert_eq!(len * out.len(), messages.len(), "messages of different lengths");
        for (i, digest) in out.iter_mut().enumerate() {
            *digest = self.hash_slice(&messages[i * len..][..len]);
        }
    }
}

/// A compression from groups of `N` digests to digests.
pub trait PseudoCompressionFunction<T, const N: usize>: Clone {
    /// How many groups `compress_many` compresses side by side.
    const LANES: usize = 1;

    /// The digest of a group.
    fn compress(&self, input: [T; N]) -> T;

    /// Writes the digest of `groups[i]` into `out[i]`.
    fn compress_many(&self, groups: &[[T; N]], out: &mut [T])
    where
        T: Clone,
    {
        assert_eq!(groups.len(), out.len(), "a place for each group");
        for (group, digest) in groups.iter().zip(out) {
            *digest = self.compress(group.clone());
        }
    }
}

/// A digest of words `W` over data `F`.
#[derive(Copy, Clone, Debug, PartialEq, Eq)]
pub struct Hash<F, W, const DIGEST_ELEMS: usize> {
    value: [W; DIGEST_ELEMS],
    _marker: PhantomData<F>,
}

impl<F, W, const DIGEST_ELEMS: usize> From<[W; DIGEST_ELEMS]> for Hash<F, W, DIGEST_ELEMS> {
    fn from(value: [W; DIGEST_ELEMS]) -> Self {
        Hash { value, _marker: PhantomData }
    }
}

impl<F, W, const DIGEST_ELEMS: usize> From<Hash<F, W, DIGEST_ELEMS>> for [W; DIGEST_ELEMS] {
    fn from(digest: Hash<F, W, DIGEST_ELEMS>) -> Self {
        digest.value
    }
}

/// The digests of a layer of a tree over data `F`.
#[derive(Clone, Debug, PartialEq, Eq, Serialize, Deserialize)]
#[serde(bound(serialize = "Digest: Serialize"))]
#[serde(bound(deserialize = "Digest: Deserialize<'de>"))]
pub struct MerkleCap<F, Digest> {
    cap: Vec<Digest>,
    _phantom: PhantomData<F>,
}

impl<F, Digest> MerkleCap<F, Digest> {
    /// The cap of these digests.
    pub const fn new(cap: Vec<Digest>) -> Self {
        MerkleCap { cap, _phantom: PhantomData }
    }

    /// How many digests there are.
    pub const fn num_roots(&self) -> usize {
        self.cap.len()
    }

    /// The digests.
    pub fn roots(&self) -> &[Digest] {
        &self.cap
    }
}

impl<F, Digest> Index<usize> for MerkleCap<F, Digest> {
    type Output = Digest;

    fn index(&self, index: usize) -> &Digest {
        &self.cap[index]
    }
}
