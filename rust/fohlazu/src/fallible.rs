//! What the proved sources take from their toolchain's library in another form than Rust's: calls on vectors, and
//! clones, whose want of memory is an error.

use alloc::vec::Vec;
use core::marker::PhantomData;

/// Memory ran out.
#[derive(Clone, Copy, Debug, Default, PartialEq, Eq)]
pub struct AllocError;

impl core::fmt::Display for AllocError {
    fn fmt(&self, f: &mut core::fmt::Formatter<'_>) -> core::fmt::Result {
        f.write_str("out of memory")
    }
}

impl core::error::Error for AllocError {}

/// A clone whose want of memory is an error: `Clone` would end the program. A type that is `Copy` returns `Ok(*self)`.
pub trait TryClone: Sized {
    /// A clone.
    ///
    /// # Errors
    ///
    /// `AllocError` if memory runs out.
    fn try_clone(&self) -> Result<Self, AllocError>;
}

macro_rules! clone_by_copy {
    ($($number:ty)*) => {$(
        impl TryClone for $number {
            #[inline]
            fn try_clone(&self) -> Result<Self, AllocError> {
                Ok(*self)
            }
        }
    )*};
}

clone_by_copy!(u8 u16 u32 u64 u128 usize i8 i16 i32 i64 i128 isize bool char);

impl<T: ?Sized> TryClone for &T {
    fn try_clone(&self) -> Result<Self, AllocError> {
        Ok(*self)
    }
}

impl<T: ?Sized> TryClone for PhantomData<T> {
    fn try_clone(&self) -> Result<Self, AllocError> {
        Ok(PhantomData)
    }
}

impl<T: Copy, const N: usize> TryClone for [T; N] {
    fn try_clone(&self) -> Result<Self, AllocError> {
        Ok(*self)
    }
}

impl<A: TryClone, B: TryClone> TryClone for (A, B) {
    fn try_clone(&self) -> Result<Self, AllocError> {
        Ok((self.0.try_clone()?, self.1.try_clone()?))
    }
}

impl<T: TryClone> TryClone for Vec<T> {
    fn try_clone(&self) -> Result<Self, AllocError> {
        let mut copy = Vec::with_room(self.len())?;
        for item in self {
            copy.push(item.try_clone()?);
        }
        Ok(copy)
    }
}

/// Calls on a vector whose want of memory is an error.
pub(crate) trait VecExt<T>: Sized {
    /// An empty vector with room for `count` items.
    fn with_room(count: usize) -> Result<Self, AllocError>;

    /// A vector with a copy of these items.
    fn try_from_slice(items: &[T]) -> Result<Self, AllocError>
    where
        T: Copy;

    /// Makes room for `count` more items.
    fn try_room(&mut self, count: usize) -> Result<(), AllocError>;

    /// Appends an item.
    fn try_push(&mut self, item: T) -> Result<(), AllocError>;

    /// Appends an item where there is room for it, so that no memory is wanted.
    fn push_reserved(&mut self, item: T);

    /// Appends a copy of these items.
    fn try_extend_from_slice(&mut self, items: &[T]) -> Result<(), AllocError>
    where
        T: Copy;

    /// Appends what an iterator yields.
    fn try_extend(&mut self, items: impl IntoIterator<Item = T>) -> Result<(), AllocError>;

    /// Cuts the vector to `len` items, or fills it with `value` up to that length.
    fn try_resize(&mut self, len: usize, value: T) -> Result<(), AllocError>
    where
        T: Copy;

    /// Takes the items from `at` on. The vector must have at least `at` items.
    fn try_split_off(&mut self, at: usize) -> Result<Self, AllocError>;
}

impl<T> VecExt<T> for Vec<T> {
    #[inline]
    fn with_room(count: usize) -> Result<Self, AllocError> {
        let mut items = Vec::new();
        items.try_reserve_exact(count).map_err(|_| AllocError)?;
        Ok(items)
    }

    #[inline]
    fn try_from_slice(items: &[T]) -> Result<Self, AllocError>
    where
        T: Copy,
    {
        let mut copy = Vec::with_room(items.len())?;
        copy.extend_from_slice(items);
        Ok(copy)
    }

    #[inline]
    fn try_room(&mut self, count: usize) -> Result<(), AllocError> {
        self.try_reserve(count).map_err(|_| AllocError)
    }

    #[inline]
    fn try_push(&mut self, item: T) -> Result<(), AllocError> {
        if self.len() == self.capacity() {
            self.try_room(1)?;
        }
        self.push(item);
        Ok(())
    }

    #[inline]
    fn push_reserved(&mut self, item: T) {
        debug_assert!(self.len() < self.capacity());
        self.push(item);
    }

    #[inline]
    fn try_extend_from_slice(&mut self, items: &[T]) -> Result<(), AllocError>
    where
        T: Copy,
    {
        self.try_room(items.len())?;
        self.extend_from_slice(items);
        Ok(())
    }

    fn try_extend(&mut self, items: impl IntoIterator<Item = T>) -> Result<(), AllocError> {
        let items = items.into_iter();
        self.try_room(items.size_hint().0)?;
        for item in items {
            self.try_push(item)?;
        }
        Ok(())
    }

    #[inline]
    fn try_resize(&mut self, len: usize, value: T) -> Result<(), AllocError>
    where
        T: Copy,
    {
        self.try_room(len.saturating_sub(self.len()))?;
        self.resize(len, value);
        Ok(())
    }

    fn try_split_off(&mut self, at: usize) -> Result<Self, AllocError> {
        let mut rest = Vec::with_room(self.len() - at)?;
        rest.extend(self.drain(at..));
        Ok(rest)
    }
}

/// `vec![value; count]`.
pub(crate) fn try_vec<T: Copy>(value: T, count: usize) -> Result<Vec<T>, AllocError> {
    let mut items = Vec::with_room(count)?;
    items.resize(count, value);
    Ok(items)
}

/// `vec![value, ..]`.
// Only modules of the feature sha2 call it.
#[cfg(feature = "sha2")]
pub(crate) fn try_list<T, const N: usize>(values: [T; N]) -> Result<Vec<T>, AllocError> {
    let mut items = Vec::with_room(N)?;
    items.extend(values);
    Ok(items)
}
