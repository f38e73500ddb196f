//! A stand-in for `p3-util` 0.8, where no registry is reached: the calls that p3-merkle-tree 0.8.0 makes.
#![no_std]
#![forbid(unsafe_code)]

/// The least `k` with `2^k >= n`, and 0 for 0.
pub const fn log2_ceil_usize(n: usize) -> usize {
    if n <= 1 { 0 } else { (n - 1).ilog2() as usize + 1 }
}

/// Compiles for types that threads may share.
pub const fn assert_sync<T: Sync>() {}

/// Pairs of two lists of one length.
pub mod zip_eq {
    use core::iter::Zip;

    /// The pairs of two lists, or this error if one of them is longer.
    pub fn zip_eq<A, AIter, B, BIter, Error>(a: A, b: B, err: Error) -> Result<Zip<AIter, BIter>, Error>
    where
        A: IntoIterator<IntoIter = AIter, Item = AIter::Item>,
        AIter: ExactSizeIterator,
        B: IntoIterator<IntoIter = BIter, Item = BIter::Item>,
        BIter: ExactSizeIterator,
    {
        let (a, b) = (a.into_iter(), b.into_iter());
        if a.len() == b.len() { Ok(a.zip(b)) } else { Err(err) }
    }
}
