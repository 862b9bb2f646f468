//! How a value of BSON gets through serde as it is: as its tag and two parts, borrowed from the document.

use std::fmt;

use serde::de::value::SeqDeserializer;
use serde::de::{self, Deserialize, IntoDeserializer, SeqAccess, Visitor};

use crate::de::Error;
use crate::oid::ObjectId;
use crate::raw::{RawBinaryRef, RawBsonRef, RawDbPointerRef, RawDocument, RawJavaScriptCodeWithScopeRef, RawRegexRef};
use crate::spec::ElementType;
use crate::{ffi, DateTime, Decimal128, Timestamp};

/// A part of a value.
#[derive(Clone, Copy)]
pub(super) enum Part<'de> {
    Text(&'de str),
    Bytes(&'de [u8]),
    /// Bytes that are in no document, and how many.
    Few([u8; 16], usize),
    Number(i64),
}

impl<'de> Part<'de> {
    fn few(bytes: &[u8]) -> Part<'de> {
        let mut all = [0; 16];
        all[..bytes.len()].copy_from_slice(bytes);
        Part::Few(all, bytes.len())
    }
}

/// The parts of a value that no other type of serde has.
fn parts(value: RawBsonRef<'_>) -> [Part<'_>; 2] {
    let none = Part::Number(0);
    match value {
        RawBsonRef::Array(array) => [Part::Bytes(array.as_bytes()), none],
        RawBsonRef::Document(document) => [Part::Bytes(document.as_bytes()), none],
        RawBsonRef::RegularExpression(regex) => [Part::Text(regex.pattern), Part::Text(regex.options)],
        RawBsonRef::JavaScriptCode(text) | RawBsonRef::Symbol(text) => [Part::Text(text), none],
        RawBsonRef::JavaScriptCodeWithScope(code) => [Part::Text(code.code), Part::Bytes(code.scope.as_bytes())],
        RawBsonRef::Timestamp(time) => [Part::Number(time.time.into()), Part::Number(time.increment.into())],
        RawBsonRef::Binary(binary) => [Part::Bytes(binary.bytes), Part::Number(u8::from(binary.subtype).into())],
        RawBsonRef::ObjectId(id) => [Part::few(&id.bytes()), none],
        RawBsonRef::DateTime(time) => [Part::Number(time.timestamp_millis()), none],
        RawBsonRef::Decimal128(decimal) => [Part::few(&decimal.bytes()), none],
        RawBsonRef::DbPointer(pointer) => [Part::Text(pointer.namespace), Part::few(&pointer.id.bytes())],
        _ => [none, none],
    }
}

/// Hands a value over, under the key of a lane.
pub(super) fn give<'de, V: Visitor<'de>>(value: RawBsonRef<'de>, visitor: V) -> Result<V::Value, Error> {
    let [one, two] = parts(value);
    let all = [Part::Number(value.element_type() as i64), one, two];
    visitor.visit_map(Lane { key: Some(super::LANE), parts: all })
}

struct Lane<'de> {
    key: Option<&'static str>,
    parts: [Part<'de>; 3],
}

impl<'de> de::MapAccess<'de> for Lane<'de> {
    type Error = Error;

    fn next_key_seed<K: de::DeserializeSeed<'de>>(&mut self, seed: K) -> Result<Option<K::Value>, Error> {
        let Some(key) = self.key.take() else { return Ok(None) };
        seed.deserialize(key.into_deserializer()).map(Some)
    }

    fn next_value_seed<S: de::DeserializeSeed<'de>>(&mut self, seed: S) -> Result<S::Value, Error> {
        seed.deserialize(SeqDeserializer::new(self.parts.into_iter()))
    }
}

impl<'de> IntoDeserializer<'de, Error> for Part<'de> {
    type Deserializer = Part<'de>;

    fn into_deserializer(self) -> Part<'de> {
        self
    }
}

impl<'de> de::Deserializer<'de> for Part<'de> {
    type Error = Error;

    fn deserialize_any<V: Visitor<'de>>(self, visitor: V) -> Result<V::Value, Error> {
        match self {
            Part::Text(text) => visitor.visit_borrowed_str(text),
            Part::Bytes(bytes) => visitor.visit_borrowed_bytes(bytes),
            Part::Few(bytes, len) => visitor.visit_bytes(&bytes[..len]),
            Part::Number(number) => visitor.visit_i64(number),
        }
    }

    serde::forward_to_deserialize_any! {
        bool i8 i16 i32 i64 i128 u8 u16 u32 u64 u128 f32 f64 char str string bytes byte_buf option unit unit_struct newtype_struct seq
        tuple tuple_struct map struct enum identifier ignored_any
    }
}

impl<'de> Deserialize<'de> for Part<'de> {
    fn deserialize<D: de::Deserializer<'de>>(deserializer: D) -> Result<Part<'de>, D::Error> {
        struct OfPart;

        impl<'de> Visitor<'de> for OfPart {
            type Value = Part<'de>;

            fn expecting(&self, f: &mut fmt::Formatter<'_>) -> fmt::Result {
                f.write_str("a part of a value of BSON")
            }

            fn visit_borrowed_str<E>(self, text: &'de str) -> Result<Part<'de>, E> {
                Ok(Part::Text(text))
            }

            fn visit_borrowed_bytes<E>(self, bytes: &'de [u8]) -> Result<Part<'de>, E> {
                Ok(Part::Bytes(bytes))
            }

            fn visit_bytes<E: de::Error>(self, bytes: &[u8]) -> Result<Part<'de>, E> {
                if bytes.len() > 16 {
                    return Err(E::invalid_length(bytes.len(), &self));
                }
                Ok(Part::few(bytes))
            }

            fn visit_i64<E>(self, number: i64) -> Result<Part<'de>, E> {
                Ok(Part::Number(number))
            }
        }

        deserializer.deserialize_any(OfPart)
    }
}

/// A value that came through a lane.
pub(super) struct Taken<'de>(pub(super) RawBsonRef<'de>);

/// The value of these parts, if they are those of one.
fn value_of<'de>(tag: Part<'de>, one: Part<'de>, two: Part<'de>) -> Option<RawBsonRef<'de>> {
    let Part::Number(tag) = tag else { return None };
    Some(match (ElementType::from(u8::try_from(tag).ok()?)?, one, two) {
        (ElementType::Array, Part::Bytes(bytes), _) => {
            RawBsonRef::Array(ffi::array(RawDocument::from_bytes(bytes).ok()?))
        }
        (ElementType::EmbeddedDocument, Part::Bytes(bytes), _) => {
            RawBsonRef::Document(RawDocument::from_bytes(bytes).ok()?)
        }
        (ElementType::RegularExpression, Part::Text(pattern), Part::Text(options)) => {
            RawBsonRef::RegularExpression(RawRegexRef { pattern, options })
        }
        (ElementType::JavaScriptCode, Part::Text(code), _) => RawBsonRef::JavaScriptCode(code),
        (ElementType::Symbol, Part::Text(text), _) => RawBsonRef::Symbol(text),
        (ElementType::JavaScriptCodeWithScope, Part::Text(code), Part::Bytes(scope)) => {
            let scope = RawDocument::from_bytes(scope).ok()?;
            RawBsonRef::JavaScriptCodeWithScope(RawJavaScriptCodeWithScopeRef { code, scope })
        }
        (ElementType::Timestamp, Part::Number(time), Part::Number(increment)) => {
            let (time, increment) = (u32::try_from(time).ok()?, u32::try_from(increment).ok()?);
            RawBsonRef::Timestamp(Timestamp { time, increment })
        }
        (ElementType::Binary, Part::Bytes(bytes), Part::Number(subtype)) => {
            RawBsonRef::Binary(RawBinaryRef { subtype: u8::try_from(subtype).ok()?.into(), bytes })
        }
        (ElementType::ObjectId, Part::Few(bytes, 12), _) => RawBsonRef::ObjectId(id_of(&bytes)?),
        (ElementType::DateTime, Part::Number(millis), _) => RawBsonRef::DateTime(DateTime::from_millis(millis)),
        (ElementType::Decimal128, Part::Few(bytes, 16), _) => RawBsonRef::Decimal128(Decimal128::from_bytes(bytes)),
        (ElementType::DbPointer, Part::Text(namespace), Part::Few(bytes, 12)) => {
            RawBsonRef::DbPointer(RawDbPointerRef { namespace, id: id_of(&bytes)? })
        }
        (ElementType::Undefined, ..) => RawBsonRef::Undefined,
        (ElementType::MaxKey, ..) => RawBsonRef::MaxKey,
        (ElementType::MinKey, ..) => RawBsonRef::MinKey,
        _ => return None,
    })
}

fn id_of(bytes: &[u8]) -> Option<ObjectId> {
    bytes.first_chunk().copied().map(ObjectId::from_bytes)
}

impl<'de> Deserialize<'de> for Taken<'de> {
    fn deserialize<D: de::Deserializer<'de>>(deserializer: D) -> Result<Taken<'de>, D::Error> {
        struct OfParts;

        impl<'de> Visitor<'de> for OfParts {
            type Value = Taken<'de>;

            fn expecting(&self, f: &mut fmt::Formatter<'_>) -> fmt::Result {
                f.write_str("the parts of a value of BSON")
            }

            fn visit_seq<A: SeqAccess<'de>>(self, mut seq: A) -> Result<Taken<'de>, A::Error> {
                let mut part = || seq.next_element()?.ok_or_else(|| de::Error::custom("a part of a value is missing"));
                value_of(part()?, part()?, part()?).map(Taken).ok_or_else(|| de::Error::custom("no value of BSON"))
            }
        }

        deserializer.deserialize_seq(OfParts)
    }
}
