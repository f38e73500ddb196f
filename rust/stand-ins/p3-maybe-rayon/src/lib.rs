//! A stand-in for `p3-maybe-rayon` 0.8, where no registry is reached: the calls that p3-merkle-tree 0.8.0 makes, in one
//! thread, or with the feature `parallel` those of rayon.
#![no_std]
#![forbid(unsafe_code)]

/// What p3-merkle-tree takes, by names that it does not write.
#[cfg(feature = "parallel")]
pub mod prelude {
    pub use rayon::prelude::*;
}

/// What p3-merkle-tree takes, by names that it does not write.
#[cfg(not(feature = "parallel"))]
pub mod prelude {
    use core::slice::{Chunks, ChunksExactMut, ChunksMut};

    /// Pieces of a slice.
    pub trait ParallelSlice<T> {
        /// Pieces of so many items, and the rest.
        fn par_chunks(&self, chunk_size: usize) -> Chunks<'_, T>;
    }

    impl<T> ParallelSlice<T> for [T] {
        fn par_chunks(&self, chunk_size: usize) -> Chunks<'_, T> {
            self.chunks(chunk_size)
        }
    }

    /// Pieces of a slice that can be changed.
    pub trait ParallelSliceMut<T> {
        /// Pieces of so many items, and the rest.
        fn par_chunks_mut(&mut self, chunk_size: usize) -> ChunksMut<'_, T>;

        /// Pieces of so many items, without the rest.
        fn par_chunks_exact_mut(&mut self, chunk_size: usize) -> ChunksExactMut<'_, T>;
    }

    impl<T> ParallelSliceMut<T> for [T] {
        fn par_chunks_mut(&mut self, chunk_size: usize) -> ChunksMut<'_, T> {
            self.chunks_mut(chunk_size)
        }

        fn par_chunks_exact_mut(&mut self, chunk_size: usize) -> ChunksExactMut<'_, T> {
            self.chunks_exact_mut(chunk_size)
        }
    }

    /// A call for each item.
    pub trait ParallelIterator: Iterator + Sized {
        /// Calls `op` with each item, and a value that is made once.
        fn for_each_init<S, Init: Fn() -> S, Op: Fn(&mut S, Self::Item)>(self, init: Init, op: Op) {
            let mut value = init();
            self.for_each(|item| op(&mut value, item));
        }
    }

    impl<I: Iterator> ParallelIterator for I {}
}
