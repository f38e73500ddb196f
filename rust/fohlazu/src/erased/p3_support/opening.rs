// Made from crates/p3_support/src/opening.rt by tools/erase.

//! What a commitment scheme hands out: borrowed digests, caps and openings.

use crate::fallible::{AllocError, TryClone};
use alloc::vec::Vec;
use core::marker::PhantomData;
use core::ops::Index;

/// A borrowed digest `X` of a tree over values `F`. Two are equal if their digests are.
pub struct DigestRef<'a, F, X> {
    value: &'a X,
    of: PhantomData<F>,
}

impl<'a, F, X> Clone for DigestRef<'a, F, X> {
    fn clone(&self) -> Self {
        *self
    }
}

impl<'a, F, X> Copy for DigestRef<'a, F, X> {}

impl<'a, F, X> TryClone for DigestRef<'a, F, X> {
    fn try_clone(&self) -> Result<Self, AllocError> {
        Ok(*self)
    }
}

impl<'a, F, X: core::fmt::Debug> core::fmt::Debug for DigestRef<'a, F, X> {
    fn fmt(&self, f: &mut core::fmt::Formatter<'_>) -> core::fmt::Result {
        f.debug_struct("DigestRef").field("value", &self.value).finish_non_exhaustive()
    }
}

impl<'a, F, X: PartialEq> PartialEq for DigestRef<'a, F, X> {
    fn eq(&self, other: &Self) -> bool {
        self.value == other.value
    }
}

impl<'a, F, X: Eq> Eq for DigestRef<'a, F, X> {}

/// A borrowed digest of `D` words `W` (`Hash` in Plonky3).
pub type Hash<'a, F, W, const D: usize> = DigestRef<'a, F, [W; D]>;

impl<'a, F, X> From<&'a X> for DigestRef<'a, F, X> {
    #[inline]
    fn from(value: &'a X) -> DigestRef<'a, F, X> {
        DigestRef { value, of: PhantomData }
    }
}

impl<'a, F, X> DigestRef<'a, F, X> {
    /// The borrowed digest.
    #[inline]
    pub fn value(&self) -> &'a X {
        self.value
    }
}

/// The commitment to a tree over values `F`: the digests `X` of one of its layers, in order.
pub struct MerkleCap<F, X> {
    roots: Vec<X>,
    of: PhantomData<F>,
}

impl<F, X: Clone> Clone for MerkleCap<F, X> {
    fn clone(&self) -> Self {
        Self { roots: self.roots.clone(), of: self.of.clone() }
    }
}

impl<F, X: core::fmt::Debug> core::fmt::Debug for MerkleCap<F, X> {
    fn fmt(&self, f: &mut core::fmt::Formatter<'_>) -> core::fmt::Result {
        f.debug_struct("MerkleCap").field("roots", &self.roots).finish_non_exhaustive()
    }
}

impl<F, X: PartialEq> PartialEq for MerkleCap<F, X> {
    fn eq(&self, other: &Self) -> bool {
        self.roots == other.roots
    }
}

impl<F, X: Eq> Eq for MerkleCap<F, X> {}

impl<F, X: TryClone> TryClone for MerkleCap<F, X> {
    fn try_clone(&self) -> Result<Self, AllocError> {
        Ok(Self { roots: self.roots.try_clone()?, of: self.of.try_clone()? })
    }
}

impl<F, X> MerkleCap<F, X> {
    /// The cap with these digests, in order.
    #[inline]
    pub fn new(roots: Vec<X>) -> MerkleCap<F, X> {
        MerkleCap { roots, of: PhantomData }
    }

    /// The number of digests.
    #[inline]
    pub fn num_roots(&self) -> usize {
        self.roots.len()
    }

    /// The digests, in order.
    #[inline]
    pub fn roots(&self) -> &[X] {
        self.roots.as_slice()
    }

    /// The digests, in order, without a copy.
    #[inline]
    pub fn into_roots(self) -> Vec<X> {
        self.roots
    }
}

/// `cap[i]` is digest `i`, where `i < cap.num_roots()`.
impl<F, X> Index<usize> for MerkleCap<F, X> {
    type Output = X;

    #[inline]
    fn index(&self, i: usize) -> &X {
        assert!(i < self.roots.len(), "can_index");
        &self.roots[i]
    }
}

/// The opened rows, one of each matrix, and the proof that they were committed to.
#[derive(Clone, Debug, PartialEq, Eq)]
pub struct BatchOpening<T, Proof> {
    /// One row of each matrix, in input order.
    pub opened_values: Vec<Vec<T>>,
    /// The proof of the rows.
    pub opening_proof: Proof,
}

impl<T: TryClone, Proof: TryClone> TryClone for BatchOpening<T, Proof> {
    fn try_clone(&self) -> Result<Self, AllocError> {
        Ok(Self { opened_values: self.opened_values.try_clone()?, opening_proof: self.opening_proof.try_clone()? })
    }
}

impl<T, Proof> BatchOpening<T, Proof> {
    /// The opening of these rows by this proof.
    #[inline]
    pub fn new(opened_values: Vec<Vec<T>>, opening_proof: Proof) -> BatchOpening<T, Proof> {
        BatchOpening { opened_values, opening_proof }
    }

    /// The rows and the proof.
    #[inline]
    pub fn unpack(self) -> (Vec<Vec<T>>, Proof) {
        (self.opened_values, self.opening_proof)
    }
}

/// A borrowed opening.
pub struct BatchOpeningRef<'a, T, Proof> {
    /// One row of each matrix, in input order.
    pub opened_values: &'a [Vec<T>],
    /// The proof of the rows.
    pub opening_proof: &'a Proof,
}

impl<'a, T, Proof> Clone for BatchOpeningRef<'a, T, Proof> {
    fn clone(&self) -> Self {
        *self
    }
}

impl<'a, T, Proof> Copy for BatchOpeningRef<'a, T, Proof> {}

impl<'a, T, Proof> TryClone for BatchOpeningRef<'a, T, Proof> {
    fn try_clone(&self) -> Result<Self, AllocError> {
        Ok(*self)
    }
}

impl<'a, T: core::fmt::Debug, Proof: core::fmt::Debug> core::fmt::Debug for BatchOpeningRef<'a, T, Proof> {
    fn fmt(&self, f: &mut core::fmt::Formatter<'_>) -> core::fmt::Result {
        f.debug_struct("BatchOpeningRef")
            .field("opened_values", &self.opened_values)
            .field("opening_proof", &self.opening_proof)
            .finish()
    }
}

impl<'a, T, Proof> BatchOpeningRef<'a, T, Proof> {
    /// The opening of these rows by this proof.
    #[inline]
    pub fn new(opened_values: &'a [Vec<T>], opening_proof: &'a Proof) -> BatchOpeningRef<'a, T, Proof> {
        BatchOpeningRef { opened_values, opening_proof }
    }

    /// The rows and the proof.
    #[inline]
    pub fn unpack(&self) -> (&'a [Vec<T>], &'a Proof) {
        (self.opened_values, self.opening_proof)
    }
}

impl<'a, T, Proof> From<&'a BatchOpening<T, Proof>> for BatchOpeningRef<'a, T, Proof> {
    #[inline]
    fn from(opening: &'a BatchOpening<T, Proof>) -> BatchOpeningRef<'a, T, Proof> {
        BatchOpeningRef { opened_values: opening.opened_values.as_slice(), opening_proof: &opening.opening_proof }
    }
}
