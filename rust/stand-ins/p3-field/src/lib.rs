//! A stand-in for `p3-field` 0.8, for tests where no registry is reached: packed values, as far as this repository uses
//! them, and fields, as far as the tests of p3-merkle-tree 0.8.0 do. The names, the signatures and what each call
//! returns are those that p3-merkle-tree 0.8.0 relies on; the crate has much else besides.
#![no_std]

/// A type that may be in a lane of a packed value.
pub trait Packable: 'static + Default + Copy + Send + Sync + PartialEq + Eq {}

macro_rules! packable {
    ($($word:ty)*) => {$( impl Packable for $word {} )*};
}

packable!(u8 u16 u32 u64 u128);

/// A ring with numbers in it.
pub trait PrimeCharacteristicRing: Sized + Default + Clone {
    /// The number 1.
    const ONE: Self;

    /// The number of a byte.
    fn from_u8(int: u8) -> Self;

    /// The number of a word.
    fn from_u32(int: u32) -> Self;
}

/// A value that can be written as bytes.
pub trait RawDataSerializable: Sized {
    /// The bytes.
    fn into_bytes(self) -> impl IntoIterator<Item = u8>;
}

/// A field, whose elements can be packed.
pub trait Field: PrimeCharacteristicRing + RawDataSerializable + Packable {
    /// Elements that are worked on together.
    type Packing: PackedValue<Value = Self>;
}

/// A list of `WIDTH` values of one type, the lanes, that are worked on together.
///
/// # Safety
///
/// A type has the layout of an array of its lanes.
pub unsafe trait PackedValue: 'static + Copy + Send + Sync {
    /// What a lane holds.
    type Value: Packable;

    /// The number of lanes.
    const WIDTH: usize;

    /// The packed value whose lane `k` is `f(k)`.
    fn from_fn<F>(f: F) -> Self
    where
        F: FnMut(usize) -> Self::Value;

    /// The lanes in order.
    fn as_slice(&self) -> &[Self::Value];

    /// The packed value that has `value` in every lane.
    fn broadcast(value: Self::Value) -> Self {
        Self::from_fn(|_| value)
    }

    /// Packs arrays: lane `k` of element `e` is `row_fn(k)[e]`.
    fn pack_columns_fn<const N: usize>(row_fn: impl Fn(usize) -> [Self::Value; N]) -> [Self; N] {
        core::array::from_fn(|e| Self::from_fn(|k| row_fn(k)[e]))
    }

    /// Unpacks arrays: `rows[k][e]` becomes lane `k` of `packed[e]`.
    fn unpack_into<const N: usize>(packed: &[Self; N], rows: &mut [[Self::Value; N]]) {
        assert_eq!(rows.len(), Self::WIDTH, "a row for each lane");
        for (k, row) in rows.iter_mut().enumerate() {
            *row = core::array::from_fn(|e| packed[e].as_slice()[k]);
        }
    }
}

// SAFETY: a single value has the layout of an array of one.
unsafe impl<T: Packable> PackedValue for T {
    type Value = T;

    const WIDTH: usize = 1;

    #[inline]
    fn from_fn<F: FnMut(usize) -> T>(mut f: F) -> T {
        f(0)
    }

    #[inline]
    fn as_slice(&self) -> &[T] {
        core::slice::from_ref(self)
    }
}

// SAFETY: an array is one of its lanes.
unsafe impl<T: Packable, const WIDTH: usize> PackedValue for [T; WIDTH] {
    type Value = T;

    const WIDTH: usize = WIDTH;

    #[inline]
    fn from_fn<F: FnMut(usize) -> T>(f: F) -> [T; WIDTH] {
        core::array::from_fn(f)
    }

    #[inline]
    fn as_slice(&self) -> &[T] {
        self
    }
}
