//! A stand-in for `itertools` 0.14, where no registry is reached: the calls that p3-merkle-tree 0.8.0 makes.
#![no_std]
#![forbid(unsafe_code)]

extern crate alloc;

use alloc::vec::{IntoIter, Vec};
use core::iter::Peekable;

/// More calls of iterators.
pub trait Itertools: Iterator {
    /// A vector of the items.
    fn collect_vec(self) -> Vec<Self::Item>
    where
        Self: Sized,
    {
        self.collect()
    }

    /// The items by ascending keys. Those of one key keep their order.
    fn sorted_by_key<K: Ord, F: FnMut(&Self::Item) -> K>(self, f: F) -> IntoIter<Self::Item>
    where
        Self: Sized,
    {
        let mut items = self.collect_vec();
        items.sort_by_key(f);
        items.into_iter()
    }

    /// The first items for which `accept` says so. The next one stays.
    fn peeking_take_while<F: FnMut(&Self::Item) -> bool>(&mut self, accept: F) -> PeekingTakeWhile<'_, Self, F>
    where
        Self: PeekingNext + Sized,
    {
        PeekingTakeWhile { iter: self, accept }
    }
}

impl<I: Iterator> Itertools for I {}

/// An iterator whose next item can be looked at.
pub trait PeekingNext: Iterator {
    /// The next item, if there is one and `accept` says so.
    fn peeking_next<F: FnOnce(&Self::Item) -> bool>(&mut self, accept: F) -> Option<Self::Item>;
}

impl<I: Iterator> PeekingNext for Peekable<I> {
    fn peeking_next<F: FnOnce(&Self::Item) -> bool>(&mut self, accept: F) -> Option<I::Item> {
        self.next_if(accept)
    }
}

/// The first items of an iterator, as [`Itertools::peeking_take_while`] takes them.
pub struct PeekingTakeWhile<'a, I, F> {
    iter: &'a mut I,
    accept: F,
}

impl<I: PeekingNext, F: FnMut(&I::Item) -> bool> Iterator for PeekingTakeWhile<'_, I, F> {
    type Item = I::Item;

    fn next(&mut self) -> Option<I::Item> {
        self.iter.peeking_next(&mut self.accept)
    }
}
