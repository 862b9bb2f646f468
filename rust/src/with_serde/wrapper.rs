//! Values as Extended JSON wraps them, as `{"$oid": "507f.."}`, for formats that have no such values.

use std::borrow::Cow;

use serde::de::value::MapDeserializer;
use serde::de::{self, IntoDeserializer, Visitor};
use serde::ser::{Serialize, SerializeStruct, Serializer};

use crate::de::Error;
use crate::oid::ObjectId;
use crate::raw::{RawBson, RawBsonRef, RawDocument, RawDocumentBuf, RawJavaScriptCodeWithScope};
use crate::spec::BinarySubtype;
use crate::values::{from_base64, Base64};
use crate::{Binary, DateTime, DbPointer, Decimal128, Regex, Timestamp, Uuid};

/// A wrapper, or a part of one.
pub(super) enum Tree<'de> {
    Map(Vec<(&'static str, Tree<'de>)>),
    Text(Cow<'de, str>),
    Bytes(Cow<'de, [u8]>),
    Number(i64),
    True,
    /// A document, and how many levels it may have.
    Document(&'de RawDocument, usize),
}

fn text<'de>(text: impl Into<Cow<'de, str>>) -> Tree<'de> {
    Tree::Text(text.into())
}

fn one<'de>(key: &'static str, value: Tree<'de>) -> Tree<'de> {
    Tree::Map(vec![(key, value)])
}

/// Whether a value has a wrapper: the others are values of serde.
pub(super) fn has(value: RawBsonRef<'_>) -> bool {
    !matches!(
        value,
        RawBsonRef::Double(_)
            | RawBsonRef::String(_)
            | RawBsonRef::Document(_)
            | RawBsonRef::Array(_)
            | RawBsonRef::Boolean(_)
            | RawBsonRef::Null
            | RawBsonRef::Int32(_)
            | RawBsonRef::Int64(_)
    ) && !matches!(value, RawBsonRef::Binary(binary) if binary.subtype == BinarySubtype::Generic)
}

/// The wrapper of a value that has one: in a format that people read as Extended JSON has it, and else with bytes and numbers. A scope may
/// have `levels` levels.
pub(super) fn of(value: RawBsonRef<'_>, is_human_readable: bool, levels: usize) -> Tree<'_> {
    match value {
        RawBsonRef::ObjectId(id) if is_human_readable => one("$oid", text(id.to_hex())),
        RawBsonRef::ObjectId(id) => one("$oid", Tree::Bytes(id.bytes().to_vec().into())),
        RawBsonRef::DateTime(time) if is_human_readable => {
            one("$date", one("$numberLong", text(time.timestamp_millis().to_string())))
        }
        RawBsonRef::DateTime(time) => one("$date", Tree::Number(time.timestamp_millis())),
        RawBsonRef::Decimal128(decimal) if is_human_readable => one("$numberDecimal", text(decimal.to_string())),
        RawBsonRef::Decimal128(decimal) => one("$numberDecimalBytes", Tree::Bytes(decimal.bytes().to_vec().into())),
        RawBsonRef::Binary(binary) => {
            let number = u8::from(binary.subtype);
            let (body, subtype) = if is_human_readable {
                (("base64", text(Base64(binary.bytes).to_string())), text(format!("{number:02x}")))
            } else {
                (("bytes", Tree::Bytes(binary.bytes.into())), Tree::Number(number.into()))
            };
            one("$binary", Tree::Map(vec![body, ("subType", subtype)]))
        }
        RawBsonRef::RegularExpression(regex) => one(
            "$regularExpression",
            Tree::Map(vec![("pattern", text(regex.pattern)), ("options", text(regex.options))]),
        ),
        RawBsonRef::Timestamp(time) => one(
            "$timestamp",
            Tree::Map(vec![("t", Tree::Number(time.time.into())), ("i", Tree::Number(time.increment.into()))]),
        ),
        RawBsonRef::JavaScriptCode(code) => one("$code", text(code)),
        RawBsonRef::JavaScriptCodeWithScope(code) => {
            Tree::Map(vec![("$code", text(code.code)), ("$scope", Tree::Document(code.scope, levels))])
        }
        RawBsonRef::Symbol(symbol) => one("$symbol", text(symbol)),
        RawBsonRef::DbPointer(pointer) => {
            let id = of(RawBsonRef::ObjectId(pointer.id), is_human_readable, levels);
            one("$dbPointer", Tree::Map(vec![("$ref", text(pointer.namespace)), ("$id", id)]))
        }
        RawBsonRef::Undefined => one("$undefined", Tree::True),
        RawBsonRef::MaxKey => one("$maxKey", Tree::Number(1)),
        RawBsonRef::MinKey => one("$minKey", Tree::Number(1)),
        other => unreachable!("{:?} has no wrapper", other.element_type()),
    }
}

/// Hands the wrapper of a value over to what reads any.
pub(super) fn give<'de, V: Visitor<'de>>(value: RawBsonRef<'de>, levels: usize, visitor: V) -> Result<V::Value, Error> {
    de::Deserializer::deserialize_any(of(value, true, levels), visitor)
}

impl<'de> IntoDeserializer<'de, Error> for Tree<'de> {
    type Deserializer = Tree<'de>;

    fn into_deserializer(self) -> Tree<'de> {
        self
    }
}

impl<'de> de::Deserializer<'de> for Tree<'de> {
    type Error = Error;

    fn deserialize_any<V: Visitor<'de>>(self, visitor: V) -> Result<V::Value, Error> {
        match self {
            Tree::Map(parts) => visitor.visit_map(MapDeserializer::new(parts.into_iter())),
            Tree::Text(Cow::Borrowed(text)) => visitor.visit_borrowed_str(text),
            Tree::Text(Cow::Owned(text)) => visitor.visit_string(text),
            Tree::Bytes(Cow::Borrowed(bytes)) => visitor.visit_borrowed_bytes(bytes),
            Tree::Bytes(Cow::Owned(bytes)) => visitor.visit_byte_buf(bytes),
            Tree::Number(number) => visitor.visit_i64(number),
            Tree::True => visitor.visit_bool(true),
            Tree::Document(document, levels) => {
                super::Deserializer::within(RawBsonRef::Document(document), levels, true).deserialize_any(visitor)
            }
        }
    }

    serde::forward_to_deserialize_any! {
        bool i8 i16 i32 i64 i128 u8 u16 u32 u64 u128 f32 f64 char str string bytes byte_buf option unit unit_struct newtype_struct seq
        tuple tuple_struct map struct enum identifier ignored_any
    }
}

/// A wrapper is a struct with the name of its first key. So it differs from a document with such a key.
impl Serialize for Tree<'_> {
    fn serialize<S: Serializer>(&self, serializer: S) -> Result<S::Ok, S::Error> {
        match self {
            Tree::Map(parts) => {
                let name = if parts.len() == 2 && parts[0].0 == "$code" { "$codeWithScope" } else { parts[0].0 };
                let mut made = serializer.serialize_struct(name, parts.len())?;
                for (key, part) in parts {
                    made.serialize_field(key, part)?;
                }
                made.end()
            }
            Tree::Text(text) => serializer.serialize_str(text),
            Tree::Bytes(bytes) => serializer.serialize_bytes(bytes),
            Tree::Number(number) => serializer.serialize_i64(*number),
            Tree::True => serializer.serialize_bool(true),
            Tree::Document(document, levels) => {
                super::types::Within { value: RawBsonRef::Document(document), levels: *levels }.serialize(serializer)
            }
        }
    }
}

/// A whole number, whatever its kind.
fn number(value: RawBsonRef<'_>) -> Option<i64> {
    value.as_i64().or_else(|| value.as_i32().map(i64::from))
}

/// The value whose wrapper has this one key, with this value; none, if that is no wrapper.
pub(super) fn unwrapped(key: &str, value: RawBsonRef<'_>) -> Option<RawBson> {
    let is_one = |value| (number(value) == Some(1)).then_some(());
    let text = value.as_str();
    Some(match key {
        "$oid" => RawBson::ObjectId(match value.as_binary() {
            Some(binary) => ObjectId::from_bytes(binary.bytes.try_into().ok()?),
            None => ObjectId::parse_str(text?).ok()?,
        }),
        "$date" => RawBson::DateTime(match (value.as_document(), text) {
            (Some(body), _) => DateTime::from_millis(body.get_str("$numberLong").ok()?.parse().ok()?),
            (_, Some(text)) => DateTime::parse_rfc3339_str(text).ok()?,
            _ => DateTime::from_millis(number(value)?),
        }),
        "$numberInt" => RawBson::Int32(text?.parse().ok()?),
        "$numberLong" => RawBson::Int64(text?.parse().ok()?),
        "$numberDouble" => RawBson::Double(text?.replace("Infinity", "inf").parse().ok()?),
        "$numberDecimal" => RawBson::Decimal128(text?.parse().ok()?),
        "$numberDecimalBytes" => RawBson::Decimal128(Decimal128::from_bytes(value.as_binary()?.bytes.try_into().ok()?)),
        "$binary" => RawBson::Binary(binary_of(value.as_document()?)?),
        "$uuid" => RawBson::from(Uuid::parse_str(text?).ok()?),
        "$regularExpression" => {
            let body = value.as_document()?;
            RawBson::RegularExpression(Regex::new(body.get_str("pattern").ok()?, body.get_str("options").ok()?))
        }
        "$timestamp" => {
            let part = |key| u32::try_from(number(value.as_document()?.get(key).ok()??)?).ok();
            RawBson::Timestamp(Timestamp { time: part("t")?, increment: part("i")? })
        }
        "$code" => RawBson::JavaScriptCode(text?.to_owned()),
        "$symbol" => RawBson::Symbol(text?.to_owned()),
        "$dbPointer" => {
            let body = value.as_document()?;
            let namespace = body.get_str("$ref").ok()?.to_owned();
            RawBson::DbPointer(DbPointer { namespace, id: body.get_object_id("$id").ok()? })
        }
        "$undefined" if value.as_bool() == Some(true) => RawBson::Undefined,
        "$maxKey" => is_one(value).map(|()| RawBson::MaxKey)?,
        "$minKey" => is_one(value).map(|()| RawBson::MinKey)?,
        _ => return None,
    })
}

/// The binary value of the body of its wrapper.
fn binary_of(body: &RawDocument) -> Option<Binary> {
    let (subtype, bytes) = match body.get("subType").ok()?? {
        RawBsonRef::String(digits) => {
            (u8::from_str_radix(digits, 16).ok()?, from_base64(body.get_str("base64").ok()?)?)
        }
        value => (u8::try_from(number(value)?).ok()?, body.get_binary("bytes").ok()?.bytes.to_vec()),
    };
    Some(Binary { subtype: BinarySubtype::from(subtype), bytes })
}

/// The value that a document is the wrapper of; else the document.
pub(super) fn of_document(document: RawDocumentBuf) -> RawBson {
    let mut items = document.iter();
    let found = match (items.next(), items.next(), items.next()) {
        (Some(Ok((key, value))), None, None) => unwrapped(key, value),
        (Some(Ok(one)), Some(Ok(two)), None) => match (one, two) {
            (("$code", RawBsonRef::String(code)), ("$scope", RawBsonRef::Document(scope)))
            | (("$scope", RawBsonRef::Document(scope)), ("$code", RawBsonRef::String(code))) => {
                let made = RawJavaScriptCodeWithScope { code: code.to_owned(), scope: scope.to_owned() };
                Some(RawBson::JavaScriptCodeWithScope(made))
            }
            _ => None,
        },
        _ => None,
    };
    found.unwrap_or(RawBson::Document(document))
}
