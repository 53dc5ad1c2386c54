//! A binary format of the shape of bincode, which does not describe itself: numbers in little-endian order, one byte before an
//! option, a length of 8 bytes before a sequence or a text, nothing before a tuple.
use serde::de::value::Error;
use serde::de::{DeserializeOwned, Deserializer, Error as _, SeqAccess, Visitor};
use serde::ser::{Impossible, SerializeSeq, SerializeTuple, Serializer};
use serde::{Serialize, forward_to_deserialize_any};
use std::fmt::Display;

fn fault(told: impl Display) -> Error {
    Error::custom(told)
}

struct Writer<'a>(&'a mut Vec<u8>);

macro_rules! write_numbers {
    ($($call:ident $number:ty;)*) => {$(
        fn $call(self, number: $number) -> Result<(), Error> {
            self.0.extend(number.to_le_bytes());
            Ok(())
        }
    )*};
}

macro_rules! not_written {
    ($($call:ident($($argument:ty),*) -> $answer:ty;)*) => {$(
        fn $call(self, $(_: $argument),*) -> Result<$answer, Error> {
            Err(fault(concat!("the format has no ", stringify!($call))))
        }
    )*};
}

type No = Impossible<(), Error>;

impl<'a> Serializer for Writer<'a> {
    type Ok = ();
    type Error = Error;
    type SerializeSeq = Writer<'a>;
    type SerializeTuple = Writer<'a>;
    type SerializeTupleStruct = No;
    type SerializeTupleVariant = No;
    type SerializeMap = No;
    type SerializeStruct = No;
    type SerializeStructVariant = No;

    write_numbers! {
        serialize_u8 u8; serialize_u16 u16; serialize_u32 u32; serialize_u64 u64;
        serialize_i8 i8; serialize_i16 i16; serialize_i32 i32; serialize_i64 i64;
    }

    not_written! {
        serialize_bool(bool) -> ();
        serialize_f32(f32) -> ();
        serialize_f64(f64) -> ();
        serialize_bytes(&[u8]) -> ();
        serialize_unit() -> ();
        serialize_unit_struct(&'static str) -> ();
        serialize_unit_variant(&'static str, u32, &'static str) -> ();
        serialize_tuple_struct(&'static str, usize) -> No;
        serialize_tuple_variant(&'static str, u32, &'static str, usize) -> No;
        serialize_map(Option<usize>) -> No;
        serialize_struct(&'static str, usize) -> No;
        serialize_struct_variant(&'static str, u32, &'static str, usize) -> No;
    }

    fn is_human_readable(&self) -> bool {
        false
    }

    fn serialize_char(self, value: char) -> Result<(), Error> {
        self.serialize_u32(value.into())
    }

    fn serialize_str(self, text: &str) -> Result<(), Error> {
        self.0.extend((text.len() as u64).to_le_bytes());
        self.0.extend(text.as_bytes());
        Ok(())
    }

    fn serialize_none(self) -> Result<(), Error> {
        self.serialize_u8(0)
    }

    fn serialize_some<V: ?Sized + Serialize>(self, value: &V) -> Result<(), Error> {
        self.0.push(1);
        value.serialize(self)
    }

    fn serialize_newtype_struct<V: ?Sized + Serialize>(self, _: &'static str, value: &V) -> Result<(), Error> {
        value.serialize(self)
    }

    fn serialize_newtype_variant<V: ?Sized + Serialize>(
        self,
        _: &'static str,
        _: u32,
        _: &'static str,
        _: &V,
    ) -> Result<(), Error> {
        Err(fault("the format has no variants"))
    }

    fn serialize_seq(self, length: Option<usize>) -> Result<Self, Error> {
        let length = length.ok_or_else(|| fault("the length must be known"))?;
        self.0.extend((length as u64).to_le_bytes());
        Ok(self)
    }

    fn serialize_tuple(self, _: usize) -> Result<Self, Error> {
        Ok(self)
    }
}

macro_rules! parts {
    ($($part:ident $call:ident;)*) => {$(
        impl $part for Writer<'_> {
            type Ok = ();
            type Error = Error;

            fn $call<V: ?Sized + Serialize>(&mut self, value: &V) -> Result<(), Error> {
                value.serialize(Writer(self.0))
            }

            fn end(self) -> Result<(), Error> {
                Ok(())
            }
        }
    )*};
}

parts! {
    SerializeSeq serialize_element;
    SerializeTuple serialize_element;
}

/// Returns the bytes of a value.
pub fn to_bytes(value: &impl Serialize) -> Result<Vec<u8>, Error> {
    let mut bytes = Vec::new();
    value.serialize(Writer(&mut bytes))?;
    Ok(bytes)
}

struct Reader<'a>(&'a [u8]);

impl Reader<'_> {
    fn bytes<const N: usize>(&mut self) -> Result<[u8; N], Error> {
        let (bytes, rest) = self.0.split_first_chunk().ok_or_else(|| fault("the input ends"))?;
        self.0 = rest;
        Ok(*bytes)
    }

    fn length(&mut self) -> Result<usize, Error> {
        usize::try_from(u64::from_le_bytes(self.bytes()?)).map_err(fault)
    }
}

macro_rules! read_numbers {
    ($($call:ident $visit:ident $number:ty;)*) => {$(
        fn $call<V: Visitor<'de>>(self, visitor: V) -> Result<V::Value, Error> {
            visitor.$visit(<$number>::from_le_bytes(self.bytes()?))
        }
    )*};
}

impl<'de> Deserializer<'de> for &mut Reader<'_> {
    type Error = Error;

    read_numbers! {
        deserialize_u8 visit_u8 u8; deserialize_u16 visit_u16 u16; deserialize_u32 visit_u32 u32; deserialize_u64 visit_u64 u64;
        deserialize_i8 visit_i8 i8; deserialize_i16 visit_i16 i16; deserialize_i32 visit_i32 i32; deserialize_i64 visit_i64 i64;
    }

    fn is_human_readable(&self) -> bool {
        false
    }

    fn deserialize_any<V: Visitor<'de>>(self, _: V) -> Result<V::Value, Error> {
        Err(fault("the format does not describe itself"))
    }

    fn deserialize_char<V: Visitor<'de>>(self, visitor: V) -> Result<V::Value, Error> {
        let number = u32::from_le_bytes(self.bytes()?);
        visitor.visit_char(char::from_u32(number).ok_or_else(|| fault("no char"))?)
    }

    fn deserialize_string<V: Visitor<'de>>(self, visitor: V) -> Result<V::Value, Error> {
        let length = self.length()?;
        let (bytes, rest) = self.0.split_at_checked(length).ok_or_else(|| fault("the input ends"))?;
        self.0 = rest;
        visitor.visit_str(std::str::from_utf8(bytes).map_err(fault)?)
    }

    fn deserialize_option<V: Visitor<'de>>(self, visitor: V) -> Result<V::Value, Error> {
        match self.bytes()? {
            [0] => visitor.visit_none(),
            [1] => visitor.visit_some(self),
            _ => Err(fault("bad option tag")),
        }
    }

    fn deserialize_newtype_struct<V: Visitor<'de>>(self, _: &'static str, visitor: V) -> Result<V::Value, Error> {
        visitor.visit_newtype_struct(self)
    }

    fn deserialize_seq<V: Visitor<'de>>(self, visitor: V) -> Result<V::Value, Error> {
        let left = self.length()?;
        visitor.visit_seq(Elements { reader: self, left })
    }

    fn deserialize_tuple<V: Visitor<'de>>(self, left: usize, visitor: V) -> Result<V::Value, Error> {
        visitor.visit_seq(Elements { reader: self, left })
    }

    forward_to_deserialize_any! {
        bool f32 f64 str bytes byte_buf unit unit_struct tuple_struct map struct enum identifier ignored_any
    }
}

struct Elements<'a, 'b> {
    reader: &'a mut Reader<'b>,
    left: usize,
}

impl<'de> SeqAccess<'de> for Elements<'_, '_> {
    type Error = Error;

    fn next_element_seed<S: serde::de::DeserializeSeed<'de>>(&mut self, seed: S) -> Result<Option<S::Value>, Error> {
        if self.left == 0 {
            return Ok(None);
        }
        self.left -= 1;
        seed.deserialize(&mut *self.reader).map(Some)
    }

    fn size_hint(&self) -> Option<usize> {
        Some(self.left)
    }
}

/// Returns the value of all the bytes.
pub fn from_bytes<V: DeserializeOwned>(bytes: &[u8]) -> Result<V, Error> {
    let mut reader = Reader(bytes);
    let value = V::deserialize(&mut reader)?;
    if reader.0.is_empty() { Ok(value) } else { Err(fault("bytes are left")) }
}
