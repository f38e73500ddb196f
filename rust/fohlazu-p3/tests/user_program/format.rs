//! A format of serde: numbers of 64 bits one after another, and the length of a list ahead of its items.

use serde::de::{self, DeserializeOwned, DeserializeSeed, Deserializer, SeqAccess, Visitor};
use serde::ser::{self, Serialize, SerializeSeq, SerializeStruct, SerializeTuple, Serializer};
use std::fmt::{self, Display, Formatter};

/// A value as it arrives where it was sent to: written, and read from all that was written.
pub fn sent<T: Serialize, U: DeserializeOwned>(value: &T) -> U {
    let mut numbers = Vec::new();
    value.serialize(Writer(&mut numbers)).expect("a value is written");
    let mut left = numbers.as_slice();
    let value = U::deserialize(Reader(&mut left)).expect("a value is read");
    assert!(left.is_empty(), "all is read");
    value
}

/// Why a value can't be written or read.
#[derive(Debug)]
pub struct Refused(String);

impl Display for Refused {
    fn fmt(&self, f: &mut Formatter<'_>) -> fmt::Result {
        f.write_str(&self.0)
    }
}

impl std::error::Error for Refused {}

impl ser::Error for Refused {
    fn custom<T: Display>(msg: T) -> Refused {
        Refused(msg.to_string())
    }
}

impl de::Error for Refused {
    fn custom<T: Display>(msg: T) -> Refused {
        Refused(msg.to_string())
    }
}

struct Writer<'a>(&'a mut Vec<u64>);

impl Writer<'_> {
    fn number(self, number: u64) -> Result<(), Refused> {
        self.0.push(number);
        Ok(())
    }
}

impl Serializer for Writer<'_> {
    type Ok = ();
    type Error = Refused;
    type SerializeSeq = Self;
    type SerializeTuple = Self;
    type SerializeStruct = Self;

    fn serialize_u8(self, v: u8) -> Result<(), Refused> {
        self.number(v.into())
    }

    fn serialize_u32(self, v: u32) -> Result<(), Refused> {
        self.number(v.into())
    }

    fn serialize_u64(self, v: u64) -> Result<(), Refused> {
        self.number(v)
    }

    fn serialize_unit_struct(self, _: &'static str) -> Result<(), Refused> {
        Ok(())
    }

    fn serialize_seq(self, len: Option<usize>) -> Result<Self, Refused> {
        self.0.push(len.expect("a list has a length") as u64);
        Ok(self)
    }

    fn serialize_tuple(self, _: usize) -> Result<Self, Refused> {
        Ok(self)
    }

    fn serialize_struct(self, _: &'static str, _: usize) -> Result<Self, Refused> {
        Ok(self)
    }
}

impl SerializeSeq for Writer<'_> {
    type Ok = ();
    type Error = Refused;

    fn serialize_element<T: ?Sized + Serialize>(&mut self, value: &T) -> Result<(), Refused> {
        value.serialize(Writer(self.0))
    }

    fn end(self) -> Result<(), Refused> {
        Ok(())
    }
}

impl SerializeTuple for Writer<'_> {
    type Ok = ();
    type Error = Refused;

    fn serialize_element<T: ?Sized + Serialize>(&mut self, value: &T) -> Result<(), Refused> {
        value.serialize(Writer(self.0))
    }

    fn end(self) -> Result<(), Refused> {
        Ok(())
    }
}

impl SerializeStruct for Writer<'_> {
    type Ok = ();
    type Error = Refused;

    fn serialize_field<T: ?Sized + Serialize>(&mut self, _: &'static str, value: &T) -> Result<(), Refused> {
        value.serialize(Writer(self.0))
    }

    fn end(self) -> Result<(), Refused> {
        Ok(())
    }
}

struct Reader<'a, 'de>(&'a mut &'de [u64]);

impl Reader<'_, '_> {
    fn number(&mut self) -> Result<u64, Refused> {
        let (number, left) = self.0.split_first().ok_or(Refused("the end".into()))?;
        *self.0 = left;
        Ok(*number)
    }
}

impl<'de> Deserializer<'de> for Reader<'_, 'de> {
    type Error = Refused;

    fn deserialize_u8<V: Visitor<'de>>(self, visitor: V) -> Result<V::Value, Refused> {
        self.deserialize_u64(visitor)
    }

    fn deserialize_u32<V: Visitor<'de>>(self, visitor: V) -> Result<V::Value, Refused> {
        self.deserialize_u64(visitor)
    }

    fn deserialize_u64<V: Visitor<'de>>(mut self, visitor: V) -> Result<V::Value, Refused> {
        visitor.visit_u64(self.number()?)
    }

    fn deserialize_unit_struct<V: Visitor<'de>>(self, _: &'static str, visitor: V) -> Result<V::Value, Refused> {
        visitor.visit_unit()
    }

    fn deserialize_seq<V: Visitor<'de>>(mut self, visitor: V) -> Result<V::Value, Refused> {
        let left = self.number()?;
        visitor.visit_seq(Items { reader: self, left })
    }

    fn deserialize_tuple<V: Visitor<'de>>(self, len: usize, visitor: V) -> Result<V::Value, Refused> {
        visitor.visit_seq(Items { reader: self, left: len as u64 })
    }

    fn deserialize_struct<V: Visitor<'de>>(
        self,
        _: &'static str,
        fields: &'static [&'static str],
        visitor: V,
    ) -> Result<V::Value, Refused> {
        self.deserialize_tuple(fields.len(), visitor)
    }
}

struct Items<'a, 'de> {
    reader: Reader<'a, 'de>,
    left: u64,
}

impl<'de> SeqAccess<'de> for Items<'_, 'de> {
    type Error = Refused;

    fn next_element_seed<T: DeserializeSeed<'de>>(&mut self, seed: T) -> Result<Option<T::Value>, Refused> {
        if self.left == 0 {
            return Ok(None);
        }
        self.left -= 1;
        seed.deserialize(Reader(self.reader.0)).map(Some)
    }
}
