//! `Serialize` and `Deserialize` of the types of this crate.

use serde::de::{self, Deserialize, Deserializer};
use serde::ser::{Serialize, SerializeMap, SerializeSeq, Serializer};

use super::value::{document_of, Value};
use super::wrapper;
use crate::document::LEVELS;
use crate::oid::ObjectId;
use crate::raw::{RawArray, RawArrayBuf, RawBinaryRef, RawBson, RawBsonRef, RawDbPointerRef, RawDocument};
use crate::raw::{RawDocumentBuf, RawJavaScriptCodeWithScope, RawJavaScriptCodeWithScopeRef, RawRegexRef};
use crate::spec::BinarySubtype;
use crate::{Binary, Bson, DateTime, DbPointer, Decimal128, Document, JavaScriptCodeWithScope, Regex, Timestamp, Uuid};

/// That another value is there than is asked for.
fn unexpected<E: de::Error>(wanted: &str, found: RawBsonRef<'_>) -> E {
    E::custom(format!("expected {wanted}, found a value of type {:?}", found.element_type()))
}

/// Bytes, which serde takes for a list of numbers otherwise.
struct Bytes<'a>(&'a [u8]);

impl Serialize for Bytes<'_> {
    fn serialize<S: Serializer>(&self, serializer: S) -> Result<S::Ok, S::Error> {
        serializer.serialize_bytes(self.0)
    }
}

/// A value of at most `levels` levels, which are counted in formats that people read: others have a document as its bytes.
pub(super) struct Within<'a> {
    pub(super) value: RawBsonRef<'a>,
    pub(super) levels: usize,
}

impl<'a> Within<'a> {
    /// A value inside of one of at most `levels` levels.
    fn inside<S: Serializer>(value: RawBsonRef<'a>, levels: usize) -> Result<Within<'a>, S::Error> {
        match levels.checked_sub(1) {
            Some(levels) => Ok(Within { value, levels }),
            None => Err(serde::ser::Error::custom("more levels than allowed")),
        }
    }
}

impl Serialize for Within<'_> {
    fn serialize<S: Serializer>(&self, serializer: S) -> Result<S::Ok, S::Error> {
        let is_human_readable = serializer.is_human_readable();
        match self.value {
            RawBsonRef::Double(number) => serializer.serialize_f64(number),
            RawBsonRef::String(text) => serializer.serialize_str(text),
            RawBsonRef::Array(array) if is_human_readable => {
                serializer.serialize_newtype_struct(super::RAW_ARRAY, &Values(array, self.levels))
            }
            RawBsonRef::Array(array) => serializer.serialize_newtype_struct(super::RAW_ARRAY, &Bytes(array.as_bytes())),
            RawBsonRef::Document(document) if is_human_readable => {
                serializer.serialize_newtype_struct(super::RAW_DOCUMENT, &Elements(document, self.levels))
            }
            RawBsonRef::Document(document) => {
                serializer.serialize_newtype_struct(super::RAW_DOCUMENT, &Bytes(document.as_bytes()))
            }
            RawBsonRef::Boolean(is_true) => serializer.serialize_bool(is_true),
            RawBsonRef::Null => serializer.serialize_unit(),
            RawBsonRef::Int32(number) => serializer.serialize_i32(number),
            RawBsonRef::Int64(number) => serializer.serialize_i64(number),
            RawBsonRef::Binary(binary) if binary.subtype == BinarySubtype::Generic && !is_human_readable => {
                serializer.serialize_bytes(binary.bytes)
            }
            value => {
                let inside = Within::inside::<S>(value, self.levels)?;
                wrapper::of(value, is_human_readable, inside.levels).serialize(serializer)
            }
        }
    }
}

/// The elements of a document of at most this many levels.
struct Elements<'a>(&'a RawDocument, usize);

impl Serialize for Elements<'_> {
    fn serialize<S: Serializer>(&self, serializer: S) -> Result<S::Ok, S::Error> {
        let mut map = serializer.serialize_map(None)?;
        for item in self.0 {
            let (key, value) = item.map_err(serde::ser::Error::custom)?;
            map.serialize_entry(key, &Within::inside::<S>(value, self.1)?)?;
        }
        map.end()
    }
}

struct Values<'a>(&'a RawArray, usize);

impl Serialize for Values<'_> {
    fn serialize<S: Serializer>(&self, serializer: S) -> Result<S::Ok, S::Error> {
        let mut seq = serializer.serialize_seq(None)?;
        for value in self.0 {
            let value = value.map_err(serde::ser::Error::custom)?;
            seq.serialize_element(&Within::inside::<S>(value, self.1)?)?;
        }
        seq.end()
    }
}

impl Serialize for RawBsonRef<'_> {
    fn serialize<S: Serializer>(&self, serializer: S) -> Result<S::Ok, S::Error> {
        Within { value: *self, levels: LEVELS }.serialize(serializer)
    }
}

impl Serialize for RawDocument {
    fn serialize<S: Serializer>(&self, serializer: S) -> Result<S::Ok, S::Error> {
        RawBsonRef::Document(self).serialize(serializer)
    }
}

impl Serialize for RawArray {
    fn serialize<S: Serializer>(&self, serializer: S) -> Result<S::Ok, S::Error> {
        RawBsonRef::Array(self).serialize(serializer)
    }
}

/// Serializes a type as the borrowed value that it is.
macro_rules! serialize_as {
    ($($of:ty, $value:ident $borrowed:expr;)*) => {
        $(
            impl Serialize for $of {
                fn serialize<S: Serializer>(&self, serializer: S) -> Result<S::Ok, S::Error> {
                    let $value = self;
                    RawBsonRef::from($borrowed).serialize(serializer)
                }
            }
        )*
    };
}

serialize_as! {
    RawDocumentBuf, it it;
    RawArrayBuf, it it;
    RawBson, it it;
    RawBinaryRef<'_>, it *it;
    RawRegexRef<'_>, it *it;
    RawJavaScriptCodeWithScopeRef<'_>, it *it;
    RawDbPointerRef<'_>, it *it;
    RawJavaScriptCodeWithScope, it RawJavaScriptCodeWithScopeRef { code: &it.code, scope: &it.scope };
    ObjectId, it *it;
    DateTime, it *it;
    Decimal128, it *it;
    Timestamp, it *it;
    Binary, it it;
    Regex, it RawRegexRef { pattern: &it.pattern, options: &it.options };
    DbPointer, it RawDbPointerRef { namespace: &it.namespace, id: it.id };
}

/// In BSON a binary value, and where people read its text.
impl Serialize for Uuid {
    fn serialize<S: Serializer>(&self, serializer: S) -> Result<S::Ok, S::Error> {
        if serializer.is_human_readable() {
            serializer.serialize_newtype_struct(super::UUID, &self.to_string())
        } else {
            serializer.serialize_newtype_struct(super::UUID, &Bytes(&self.bytes()))
        }
    }
}

impl Serialize for Document {
    fn serialize<S: Serializer>(&self, serializer: S) -> Result<S::Ok, S::Error> {
        serializer.collect_map(self)
    }
}

impl Serialize for JavaScriptCodeWithScope {
    fn serialize<S: Serializer>(&self, serializer: S) -> Result<S::Ok, S::Error> {
        let scope = RawDocumentBuf::from_document(&self.scope).map_err(serde::ser::Error::custom)?;
        RawJavaScriptCodeWithScopeRef { code: &self.code, scope: &scope }.serialize(serializer)
    }
}

impl Serialize for Bson {
    fn serialize<S: Serializer>(&self, serializer: S) -> Result<S::Ok, S::Error> {
        match self {
            Bson::Array(values) => serializer.collect_seq(values),
            Bson::Document(document) => document.serialize(serializer),
            Bson::JavaScriptCodeWithScope(code) => code.serialize(serializer),
            leaf => crate::raw::with_raw(leaf, |leaf| Ok(leaf.serialize(serializer)))
                .unwrap_or_else(|error| Err(serde::ser::Error::custom(error))),
        }
    }
}

/// Declares how a type is made of the value that is read; the value has to be of a kind.
macro_rules! deserialize_as {
    ($($of:ty, $wanted:literal, $kind:pat => $made:expr;)*) => {
        $(
            impl<'de> Deserialize<'de> for $of {
                fn deserialize<D: Deserializer<'de>>(deserializer: D) -> Result<$of, D::Error> {
                    match Value::deserialize(deserializer)?.into_raw_bson() {
                        $kind => Ok($made),
                        other => Err(unexpected($wanted, other.as_raw_bson_ref())),
                    }
                }
            }
        )*
    };
}

deserialize_as! {
    DateTime, "a time", RawBson::DateTime(time) => time;
    Decimal128, "a Decimal128", RawBson::Decimal128(decimal) => decimal;
    Timestamp, "a timestamp", RawBson::Timestamp(time) => time;
    Binary, "a binary value", RawBson::Binary(binary) => binary;
    Regex, "a regular expression", RawBson::RegularExpression(regex) => regex;
    DbPointer, "a pointer", RawBson::DbPointer(pointer) => pointer;
    RawJavaScriptCodeWithScope, "code with a scope", RawBson::JavaScriptCodeWithScope(code) => code;
    RawArrayBuf, "an array", RawBson::Array(array) => array;
}

impl<'de> Deserialize<'de> for ObjectId {
    fn deserialize<D: Deserializer<'de>>(deserializer: D) -> Result<ObjectId, D::Error> {
        match Value::deserialize(deserializer)?.as_ref() {
            RawBsonRef::ObjectId(id) => Ok(id),
            RawBsonRef::String(hex) => ObjectId::parse_str(hex).map_err(de::Error::custom),
            other => Err(unexpected("an ObjectId", other)),
        }
    }
}

/// Of a binary value of a UUID, or of its text.
impl<'de> Deserialize<'de> for Uuid {
    fn deserialize<D: Deserializer<'de>>(deserializer: D) -> Result<Uuid, D::Error> {
        match Value::deserialize(deserializer)?.as_ref() {
            RawBsonRef::Binary(binary) => binary.to_binary().to_uuid().map_err(de::Error::custom),
            RawBsonRef::String(text) => Uuid::parse_str(text).map_err(de::Error::custom),
            other => Err(unexpected("a UUID", other)),
        }
    }
}

impl<'de> Deserialize<'de> for RawDocumentBuf {
    fn deserialize<D: Deserializer<'de>>(deserializer: D) -> Result<RawDocumentBuf, D::Error> {
        document_of(Value::deserialize(deserializer)?)
    }
}

impl<'de> Deserialize<'de> for RawBson {
    fn deserialize<D: Deserializer<'de>>(deserializer: D) -> Result<RawBson, D::Error> {
        Value::deserialize(deserializer).map(Value::into_raw_bson)
    }
}

impl<'de> Deserialize<'de> for Bson {
    fn deserialize<D: Deserializer<'de>>(deserializer: D) -> Result<Bson, D::Error> {
        Value::deserialize(deserializer)?.as_ref().try_into().map_err(de::Error::custom)
    }
}

impl<'de> Deserialize<'de> for Document {
    fn deserialize<D: Deserializer<'de>>(deserializer: D) -> Result<Document, D::Error> {
        let value = Value::deserialize(deserializer)?;
        match value.as_ref() {
            RawBsonRef::Document(document) => document.to_document().map_err(de::Error::custom),
            other => Err(unexpected("a document", other)),
        }
    }
}

impl<'de> Deserialize<'de> for JavaScriptCodeWithScope {
    fn deserialize<D: Deserializer<'de>>(deserializer: D) -> Result<JavaScriptCodeWithScope, D::Error> {
        let RawJavaScriptCodeWithScope { code, scope } = Deserialize::deserialize(deserializer)?;
        Ok(JavaScriptCodeWithScope { code, scope: scope.to_document().map_err(de::Error::custom)? })
    }
}

/// Declares how a borrowed type is made of the value that is read, which has to lie in the document.
macro_rules! deserialize_borrowed {
    ($($of:ty, $wanted:literal, $kind:pat => $made:expr;)*) => {
        $(
            impl<'de: 'a, 'a> Deserialize<'de> for $of {
                fn deserialize<D: Deserializer<'de>>(deserializer: D) -> Result<$of, D::Error> {
                    match Value::deserialize(deserializer)?.borrowed() {
                        Some($kind) => Ok($made),
                        Some(other) => Err(unexpected($wanted, other)),
                        None => Err(de::Error::custom(concat!("expected ", $wanted, " that lies in the bytes"))),
                    }
                }
            }
        )*
    };
}

deserialize_borrowed! {
    &'a RawDocument, "a document", RawBsonRef::Document(document) => document;
    &'a RawArray, "an array", RawBsonRef::Array(array) => array;
    RawBinaryRef<'a>, "a binary value", RawBsonRef::Binary(binary) => binary;
    RawRegexRef<'a>, "a regular expression", RawBsonRef::RegularExpression(regex) => regex;
    RawJavaScriptCodeWithScopeRef<'a>, "code with a scope", RawBsonRef::JavaScriptCodeWithScope(code) => code;
    RawDbPointerRef<'a>, "a pointer", RawBsonRef::DbPointer(pointer) => pointer;
}

impl<'de: 'a, 'a> Deserialize<'de> for RawBsonRef<'a> {
    fn deserialize<D: Deserializer<'de>>(deserializer: D) -> Result<RawBsonRef<'a>, D::Error> {
        let value = Value::deserialize(deserializer)?.borrowed();
        value.ok_or_else(|| de::Error::custom("expected a value that lies in the bytes"))
    }
}
