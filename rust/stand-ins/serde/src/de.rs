//! Values that are read, and formats that they are read from.

use alloc::vec::Vec;
use core::fmt::{self, Display, Formatter};
use core::marker::PhantomData;

/// Why a value can't be read.
pub trait Error: Sized + core::error::Error {
    /// The error of a text.
    fn custom<T: Display>(msg: T) -> Self;
}

/// A value that can be read from any format.
pub trait Deserialize<'de>: Sized {
    /// Reads a value.
    fn deserialize<D: Deserializer<'de>>(deserializer: D) -> Result<Self, D::Error>;
}

/// A value that borrows nothing from what it is read from.
pub trait DeserializeOwned: for<'de> Deserialize<'de> {}

impl<T: for<'de> Deserialize<'de>> DeserializeOwned for T {}

/// A format that values are read from.
pub trait Deserializer<'de>: Sized {
    /// Why a value can't be read.
    type Error: Error;

    /// Reads a byte.
    fn deserialize_u8<V: Visitor<'de>>(self, visitor: V) -> Result<V::Value, Self::Error>;

    /// Reads a number of 32 bits.
    fn deserialize_u32<V: Visitor<'de>>(self, visitor: V) -> Result<V::Value, Self::Error>;

    /// Reads a number of 64 bits.
    fn deserialize_u64<V: Visitor<'de>>(self, visitor: V) -> Result<V::Value, Self::Error>;

    /// Reads a struct without fields.
    fn deserialize_unit_struct<V: Visitor<'de>>(self, name: &'static str, visitor: V)
    -> Result<V::Value, Self::Error>;

    /// Reads a list.
    fn deserialize_seq<V: Visitor<'de>>(self, visitor: V) -> Result<V::Value, Self::Error>;

    /// Reads an array or a pair.
    fn deserialize_tuple<V: Visitor<'de>>(self, len: usize, visitor: V) -> Result<V::Value, Self::Error>;

    /// Reads a struct.
    fn deserialize_struct<V: Visitor<'de>>(
        self,
        name: &'static str,
        fields: &'static [&'static str],
        visitor: V,
    ) -> Result<V::Value, Self::Error>;
}

/// Takes what a format reads.
pub trait Visitor<'de>: Sized {
    /// The value that becomes of it.
    type Value;

    /// Writes what is expected.
    fn expecting(&self, formatter: &mut Formatter<'_>) -> fmt::Result;

    /// Takes a byte.
    fn visit_u8<E: Error>(self, v: u8) -> Result<Self::Value, E> {
        self.visit_u64(v.into())
    }

    /// Takes a number of 32 bits.
    fn visit_u32<E: Error>(self, v: u32) -> Result<Self::Value, E> {
        self.visit_u64(v.into())
    }

    /// Takes a number of 64 bits.
    fn visit_u64<E: Error>(self, v: u64) -> Result<Self::Value, E> {
        Err(E::custom(format_args!("{v}, where this is expected: {}", Expected(&self))))
    }

    /// Takes nothing.
    fn visit_unit<E: Error>(self) -> Result<Self::Value, E> {
        Err(E::custom(format_args!("nothing, where this is expected: {}", Expected(&self))))
    }

    /// Takes items, one after another.
    fn visit_seq<A: SeqAccess<'de>>(self, seq: A) -> Result<Self::Value, A::Error> {
        let _ = seq;
        Err(A::Error::custom(format_args!("a list, where this is expected: {}", Expected(&self))))
    }
}

/// What a visitor expects, as a text.
struct Expected<'a, V>(&'a V);

impl<'de, V: Visitor<'de>> Display for Expected<'_, V> {
    fn fmt(&self, f: &mut Formatter<'_>) -> fmt::Result {
        self.0.expecting(f)
    }
}

/// Reads a value with something that is known beforehand.
pub trait DeserializeSeed<'de>: Sized {
    /// The value.
    type Value;

    /// Reads it.
    fn deserialize<D: Deserializer<'de>>(self, deserializer: D) -> Result<Self::Value, D::Error>;
}

impl<'de, T: Deserialize<'de>> DeserializeSeed<'de> for PhantomData<T> {
    type Value = T;

    fn deserialize<D: Deserializer<'de>>(self, deserializer: D) -> Result<T, D::Error> {
        T::deserialize(deserializer)
    }
}

/// Items that a format reads, one after another.
pub trait SeqAccess<'de> {
    /// Why an item can't be read.
    type Error: Error;

    /// The next item, read with a seed; or `None` if there is none.
    fn next_element_seed<T: DeserializeSeed<'de>>(&mut self, seed: T) -> Result<Option<T::Value>, Self::Error>;

    /// The next item, or `None` if there is none.
    fn next_element<T: Deserialize<'de>>(&mut self) -> Result<Option<T>, Self::Error> {
        self.next_element_seed(PhantomData)
    }
}

/// The next of `expected` items, or an error if there is none: for what derives write.
#[doc(hidden)]
pub fn next_field<'de, T: Deserialize<'de>, A: SeqAccess<'de>>(seq: &mut A, name: &str) -> Result<T, A::Error> {
    seq.next_element()?.ok_or_else(|| A::Error::custom(format_args!("`{name}` is missing")))
}

macro_rules! numbers {
    ($($number:ty, $call:ident;)*) => {$(
        impl<'de> Deserialize<'de> for $number {
            fn deserialize<D: Deserializer<'de>>(deserializer: D) -> Result<$number, D::Error> {
                struct Number;

                impl Visitor<'_> for Number {
                    type Value = $number;

                    fn expecting(&self, formatter: &mut Formatter<'_>) -> fmt::Result {
                        formatter.write_str(stringify!($number))
                    }

                    fn visit_u64<E: Error>(self, v: u64) -> Result<$number, E> {
                        v.try_into().map_err(|_| E::custom(format_args!("{v} is too large")))
                    }
                }

                deserializer.$call(Number)
            }
        }
    )*};
}

numbers! {
    u8, deserialize_u8;
    u32, deserialize_u32;
    u64, deserialize_u64;
    usize, deserialize_u64;
}

/// Takes the items of a value of this type.
struct Items<T>(PhantomData<T>);

impl<'de, T: Deserialize<'de>> Visitor<'de> for Items<Vec<T>> {
    type Value = Vec<T>;

    fn expecting(&self, formatter: &mut Formatter<'_>) -> fmt::Result {
        formatter.write_str("a list")
    }

    fn visit_seq<A: SeqAccess<'de>>(self, mut seq: A) -> Result<Vec<T>, A::Error> {
        let mut items = Vec::new();
        while let Some(item) = seq.next_element()? {
            items.push(item);
        }
        Ok(items)
    }
}

impl<'de, T: Deserialize<'de>> Deserialize<'de> for Vec<T> {
    fn deserialize<D: Deserializer<'de>>(deserializer: D) -> Result<Vec<T>, D::Error> {
        deserializer.deserialize_seq(Items(PhantomData::<Self>))
    }
}

macro_rules! arrays {
    ($($len:literal)*) => {$(
        impl<'de, T: Deserialize<'de>> Visitor<'de> for Items<[T; $len]> {
            type Value = [T; $len];

            fn expecting(&self, formatter: &mut Formatter<'_>) -> fmt::Result {
                formatter.write_str(concat!("an array of ", $len))
            }

            fn visit_seq<A: SeqAccess<'de>>(self, mut seq: A) -> Result<[T; $len], A::Error> {
                let mut items = Vec::new();
                for _ in 0..$len {
                    items.push(next_field(&mut seq, "an item")?);
                }
                items.try_into().map_err(|_| A::Error::custom("an array of another length"))
            }
        }

        impl<'de, T: Deserialize<'de>> Deserialize<'de> for [T; $len] {
            fn deserialize<D: Deserializer<'de>>(deserializer: D) -> Result<[T; $len], D::Error> {
                deserializer.deserialize_tuple($len, Items(PhantomData::<Self>))
            }
        }
    )*};
}

arrays!(1 2 3 4 5 6 7 8 9 10 11 12 13 14 15 16 17 18 19 20 21 22 23 24 25 26 27 28 29 30 31 32);

impl<'de, A: Deserialize<'de>, B: Deserialize<'de>> Visitor<'de> for Items<(A, B)> {
    type Value = (A, B);

    fn expecting(&self, formatter: &mut Formatter<'_>) -> fmt::Result {
        formatter.write_str("a pair")
    }

    fn visit_seq<S: SeqAccess<'de>>(self, mut seq: S) -> Result<(A, B), S::Error> {
        Ok((next_field(&mut seq, "the first")?, next_field(&mut seq, "the second")?))
    }
}

impl<'de, A: Deserialize<'de>, B: Deserialize<'de>> Deserialize<'de> for (A, B) {
    fn deserialize<D: Deserializer<'de>>(deserializer: D) -> Result<(A, B), D::Error> {
        deserializer.deserialize_tuple(2, Items(PhantomData::<Self>))
    }
}

impl<'de, T: ?Sized> Deserialize<'de> for PhantomData<T> {
    fn deserialize<D: Deserializer<'de>>(deserializer: D) -> Result<PhantomData<T>, D::Error> {
        struct Nothing<T: ?Sized>(PhantomData<T>);

        impl<T: ?Sized> Visitor<'_> for Nothing<T> {
            type Value = PhantomData<T>;

            fn expecting(&self, formatter: &mut Formatter<'_>) -> fmt::Result {
                formatter.write_str("nothing")
            }

            fn visit_unit<E: Error>(self) -> Result<PhantomData<T>, E> {
                Ok(PhantomData)
            }
        }

        deserializer.deserialize_unit_struct("PhantomData", Nothing(PhantomData))
    }
}
