//! Values of BSON as a source of serde's.

use serde::de::value::{BorrowedStrDeserializer, MapAccessDeserializer};
use serde::de::{self, DeserializeSeed, IntoDeserializer, MapAccess, SeqAccess, Unexpected, Visitor};

use super::{lane, wrapper};
use crate::de::{Error, Result};
use crate::document::LEVELS;
use crate::raw::{Iter, RawArrayIter, RawBsonRef};
use crate::spec::BinarySubtype;

/// A value that is read, of at most `levels` levels.
#[derive(Clone, Copy)]
pub(crate) struct Deserializer<'de> {
    value: RawBsonRef<'de>,
    levels: usize,
    is_human_readable: bool,
}

impl<'de> Deserializer<'de> {
    pub(crate) fn new(value: RawBsonRef<'de>, is_human_readable: bool) -> Deserializer<'de> {
        Deserializer::within(value, LEVELS, is_human_readable)
    }

    pub(super) fn within(value: RawBsonRef<'de>, levels: usize, is_human_readable: bool) -> Deserializer<'de> {
        Deserializer { value, levels, is_human_readable }
    }

    /// A value inside.
    fn inside(self, value: RawBsonRef<'de>) -> Deserializer<'de> {
        Deserializer { value, ..self }
    }

    /// The source of the values inside, which are a level deeper.
    fn deeper(self) -> Result<Deserializer<'de>> {
        match self.levels.checked_sub(1) {
            Some(levels) => Ok(Deserializer { levels, ..self }),
            None => Err(Error::custom("more levels than allowed")),
        }
    }

    fn map(self, items: Iter<'de>) -> Result<Map<'de>> {
        Ok(Map { items, value: None, source: self.deeper()? })
    }
}

impl<'de> de::Deserializer<'de> for Deserializer<'de> {
    type Error = Error;

    fn is_human_readable(&self) -> bool {
        self.is_human_readable
    }

    fn deserialize_any<V: Visitor<'de>>(self, visitor: V) -> Result<V::Value> {
        match self.value {
            RawBsonRef::Double(number) => visitor.visit_f64(number),
            RawBsonRef::String(text) => visitor.visit_borrowed_str(text),
            RawBsonRef::Document(document) => visitor.visit_map(self.map(document.iter())?),
            RawBsonRef::Array(array) => {
                visitor.visit_seq(Seq { items: array.iter(), number: 0, source: self.deeper()? })
            }
            RawBsonRef::Boolean(is_true) => visitor.visit_bool(is_true),
            RawBsonRef::Null => visitor.visit_unit(),
            RawBsonRef::Int32(number) => visitor.visit_i32(number),
            RawBsonRef::Int64(number) => visitor.visit_i64(number),
            RawBsonRef::Binary(binary) if binary.subtype == BinarySubtype::Generic => {
                visitor.visit_borrowed_bytes(binary.bytes)
            }
            value => wrapper::give(value, self.deeper()?.levels, visitor),
        }
    }

    fn deserialize_bytes<V: Visitor<'de>>(self, visitor: V) -> Result<V::Value> {
        match self.value {
            RawBsonRef::Binary(binary) => visitor.visit_borrowed_bytes(binary.bytes),
            RawBsonRef::ObjectId(id) => visitor.visit_bytes(&id.bytes()),
            _ => self.deserialize_any(visitor),
        }
    }

    fn deserialize_byte_buf<V: Visitor<'de>>(self, visitor: V) -> Result<V::Value> {
        self.deserialize_bytes(visitor)
    }

    fn deserialize_option<V: Visitor<'de>>(self, visitor: V) -> Result<V::Value> {
        match self.value {
            RawBsonRef::Null => visitor.visit_none(),
            _ => visitor.visit_some(self),
        }
    }

    /// Under the names of the crate's own types a value comes as it is.
    fn deserialize_newtype_struct<V: Visitor<'de>>(self, name: &'static str, visitor: V) -> Result<V::Value> {
        match (name, self.value) {
            (super::RAW_BSON, RawBsonRef::Document(_) | RawBsonRef::Array(_)) => lane::give(self.value, visitor),
            (super::RAW_BSON, value) if wrapper::has(value) => lane::give(value, visitor),
            (super::RAW_BSON, _) => self.deserialize_any(visitor),
            _ => visitor.visit_newtype_struct(self),
        }
    }

    fn deserialize_enum<V: Visitor<'de>>(
        self,
        _: &'static str,
        _: &'static [&'static str],
        visitor: V,
    ) -> Result<V::Value> {
        match self.value {
            RawBsonRef::String(text) => visitor.visit_enum(BorrowedStrDeserializer::new(text)),
            RawBsonRef::Document(document) => {
                visitor.visit_enum(MapAccessDeserializer::new(self.map(document.iter())?))
            }
            value => {
                let found = format!("a value of type {:?}", value.element_type());
                Err(de::Error::invalid_type(Unexpected::Other(&found), &"a string or a document with one key"))
            }
        }
    }

    fn deserialize_ignored_any<V: Visitor<'de>>(self, visitor: V) -> Result<V::Value> {
        visitor.visit_unit()
    }

    serde::forward_to_deserialize_any! {
        bool i8 i16 i32 i64 i128 u8 u16 u32 u64 u128 f32 f64 char str string unit unit_struct seq tuple tuple_struct map struct identifier
    }
}

/// The elements of a document.
struct Map<'de> {
    items: Iter<'de>,
    value: Option<(&'de str, RawBsonRef<'de>)>,
    source: Deserializer<'de>,
}

impl<'de> MapAccess<'de> for Map<'de> {
    type Error = Error;

    fn next_key_seed<K: DeserializeSeed<'de>>(&mut self, seed: K) -> Result<Option<K::Value>> {
        let Some(item) = self.items.next() else { return Ok(None) };
        let (key, value) = item?;
        self.value = Some((key, value));
        seed.deserialize(Key(key)).map(Some)
    }

    fn next_value_seed<V: DeserializeSeed<'de>>(&mut self, seed: V) -> Result<V::Value> {
        let (key, value) = self.value.take().ok_or_else(|| Error::custom("a value comes after its key"))?;
        seed.deserialize(self.source.inside(value)).map_err(|error| error.under(key))
    }
}

/// The values of an array.
struct Seq<'de> {
    items: RawArrayIter<'de>,
    number: usize,
    source: Deserializer<'de>,
}

impl<'de> SeqAccess<'de> for Seq<'de> {
    type Error = Error;

    fn next_element_seed<S: DeserializeSeed<'de>>(&mut self, seed: S) -> Result<Option<S::Value>> {
        let Some(item) = self.items.next() else { return Ok(None) };
        let number = self.number;
        self.number += 1;
        let value = item.map_err(|error| Error::from(error).at(number))?;
        seed.deserialize(self.source.inside(value)).map(Some).map_err(|error| error.under(number.to_string()))
    }
}

/// A key.
#[derive(Clone, Copy)]
struct Key<'de>(&'de str);

/// Reads keys as numbers, where those are asked for.
macro_rules! numbers {
    ($($name:ident $visit:ident,)*) => {
        $(
            fn $name<V: Visitor<'de>>(self, visitor: V) -> Result<V::Value> {
                match self.0.parse() {
                    Ok(number) => visitor.$visit(number),
                    Err(_) => visitor.visit_borrowed_str(self.0),
                }
            }
        )*
    };
}

impl<'de> de::Deserializer<'de> for Key<'de> {
    type Error = Error;

    fn deserialize_any<V: Visitor<'de>>(self, visitor: V) -> Result<V::Value> {
        visitor.visit_borrowed_str(self.0)
    }

    fn deserialize_option<V: Visitor<'de>>(self, visitor: V) -> Result<V::Value> {
        visitor.visit_some(self)
    }

    fn deserialize_newtype_struct<V: Visitor<'de>>(self, _: &'static str, visitor: V) -> Result<V::Value> {
        visitor.visit_newtype_struct(self)
    }

    fn deserialize_enum<V: Visitor<'de>>(
        self,
        _: &'static str,
        _: &'static [&'static str],
        visitor: V,
    ) -> Result<V::Value> {
        visitor.visit_enum(self.0.into_deserializer())
    }

    numbers! {
        deserialize_bool visit_bool,
        deserialize_i8 visit_i8,
        deserialize_i16 visit_i16,
        deserialize_i32 visit_i32,
        deserialize_i64 visit_i64,
        deserialize_u8 visit_u8,
        deserialize_u16 visit_u16,
        deserialize_u32 visit_u32,
        deserialize_u64 visit_u64,
        deserialize_f32 visit_f32,
        deserialize_f64 visit_f64,
    }

    serde::forward_to_deserialize_any! {
        i128 u128 char str string bytes byte_buf unit unit_struct seq tuple tuple_struct map struct identifier ignored_any
    }
}
