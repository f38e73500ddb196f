//! Values that are written, and formats that they are written in.

use alloc::vec::Vec;
use core::fmt::Display;
use core::marker::PhantomData;

/// Why a format refuses a value.
pub trait Error: Sized + core::error::Error {
    /// The error of a text.
    fn custom<T: Display>(msg: T) -> Self;
}

/// A value that can be written in any format.
pub trait Serialize {
    /// Writes the value.
    fn serialize<S: Serializer>(&self, serializer: S) -> Result<S::Ok, S::Error>;
}

/// A format that values are written in.
pub trait Serializer: Sized {
    /// What is left when a value is written.
    type Ok;
    /// Why a value is refused.
    type Error: Error;
    /// What writes a list.
    type SerializeSeq: SerializeSeq<Ok = Self::Ok, Error = Self::Error>;
    /// What writes an array or a pair.
    type SerializeTuple: SerializeTuple<Ok = Self::Ok, Error = Self::Error>;
    /// What writes a struct.
    type SerializeStruct: SerializeStruct<Ok = Self::Ok, Error = Self::Error>;

    /// Writes a byte.
    fn serialize_u8(self, v: u8) -> Result<Self::Ok, Self::Error>;

    /// Writes a number of 32 bits.
    fn serialize_u32(self, v: u32) -> Result<Self::Ok, Self::Error>;

    /// Writes a number of 64 bits.
    fn serialize_u64(self, v: u64) -> Result<Self::Ok, Self::Error>;

    /// Writes a struct without fields.
    fn serialize_unit_struct(self, name: &'static str) -> Result<Self::Ok, Self::Error>;

    /// Begins a list.
    fn serialize_seq(self, len: Option<usize>) -> Result<Self::SerializeSeq, Self::Error>;

    /// Begins an array or a pair.
    fn serialize_tuple(self, len: usize) -> Result<Self::SerializeTuple, Self::Error>;

    /// Begins a struct.
    fn serialize_struct(self, name: &'static str, len: usize) -> Result<Self::SerializeStruct, Self::Error>;
}

/// Writes a list, item by item.
pub trait SerializeSeq {
    /// What is left when a value is written.
    type Ok;
    /// Why a value is refused.
    type Error: Error;

    /// Writes the next item.
    fn serialize_element<T: ?Sized + Serialize>(&mut self, value: &T) -> Result<(), Self::Error>;

    /// Ends the list.
    fn end(self) -> Result<Self::Ok, Self::Error>;
}

/// Writes an array or a pair, item by item.
pub trait SerializeTuple {
    /// What is left when a value is written.
    type Ok;
    /// Why a value is refused.
    type Error: Error;

    /// Writes the next item.
    fn serialize_element<T: ?Sized + Serialize>(&mut self, value: &T) -> Result<(), Self::Error>;

    /// Ends the array or the pair.
    fn end(self) -> Result<Self::Ok, Self::Error>;
}

/// Writes a struct, field by field.
pub trait SerializeStruct {
    /// What is left when a value is written.
    type Ok;
    /// Why a value is refused.
    type Error: Error;

    /// Writes the next field.
    fn serialize_field<T: ?Sized + Serialize>(&mut self, key: &'static str, value: &T) -> Result<(), Self::Error>;

    /// Ends the struct.
    fn end(self) -> Result<Self::Ok, Self::Error>;
}

macro_rules! numbers {
    ($($number:ty, $call:ident, $as:ty;)*) => {$(
        impl Serialize for $number {
            fn serialize<S: Serializer>(&self, serializer: S) -> Result<S::Ok, S::Error> {
                serializer.$call(*self as $as)
            }
        }
    )*};
}

numbers! {
    u8, serialize_u8, u8;
    u32, serialize_u32, u32;
    u64, serialize_u64, u64;
    usize, serialize_u64, u64;
}

impl<T: Serialize> Serialize for Vec<T> {
    fn serialize<S: Serializer>(&self, serializer: S) -> Result<S::Ok, S::Error> {
        let mut list = serializer.serialize_seq(Some(self.len()))?;
        for item in self {
            list.serialize_element(item)?;
        }
        list.end()
    }
}

macro_rules! arrays {
    ($($len:literal)*) => {$(
        impl<T: Serialize> Serialize for [T; $len] {
            fn serialize<S: Serializer>(&self, serializer: S) -> Result<S::Ok, S::Error> {
                let mut array = serializer.serialize_tuple($len)?;
                for item in self {
                    array.serialize_element(item)?;
                }
                array.end()
            }
        }
    )*};
}

arrays!(1 2 3 4 5 6 7 8 9 10 11 12 13 14 15 16 17 18 19 20 21 22 23 24 25 26 27 28 29 30 31 32);

impl<A: Serialize, B: Serialize> Serialize for (A, B) {
    fn serialize<S: Serializer>(&self, serializer: S) -> Result<S::Ok, S::Error> {
        let mut pair = serializer.serialize_tuple(2)?;
        pair.serialize_element(&self.0)?;
        pair.serialize_element(&self.1)?;
        pair.end()
    }
}

impl<T: ?Sized> Serialize for PhantomData<T> {
    fn serialize<S: Serializer>(&self, serializer: S) -> Result<S::Ok, S::Error> {
        serializer.serialize_unit_struct("PhantomData")
    }
}
