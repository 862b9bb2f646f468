//! Values of BSON from any source of serde's.

use std::borrow::Cow;
use std::fmt;

use serde::de::{self, Deserialize, Deserializer, MapAccess, SeqAccess, Visitor};

use super::{lane, wrapper};
use crate::raw::{RawArrayBuf, RawBinaryRef, RawBson, RawBsonRef, RawDocumentBuf};
use crate::spec::BinarySubtype;
use crate::Binary;

/// A value that is read: as it lies in the document, or made of what another format has.
pub(super) enum Value<'de> {
    Borrowed(RawBsonRef<'de>),
    Made(RawBson),
}

impl<'de> Value<'de> {
    pub(super) fn as_ref(&self) -> RawBsonRef<'_> {
        match self {
            Value::Borrowed(value) => *value,
            Value::Made(value) => value.as_raw_bson_ref(),
        }
    }

    pub(super) fn into_raw_bson(self) -> RawBson {
        match self {
            Value::Borrowed(value) => value.to_raw_bson(),
            Value::Made(value) => value,
        }
    }

    /// The value, if it is one that borrows from what is read, or borrows nothing.
    pub(super) fn borrowed(self) -> Option<RawBsonRef<'de>> {
        match self {
            Value::Borrowed(value) => Some(value),
            Value::Made(value) => Some(match value {
                RawBson::Double(number) => RawBsonRef::Double(number),
                RawBson::Boolean(is_true) => RawBsonRef::Boolean(is_true),
                RawBson::Null => RawBsonRef::Null,
                RawBson::Int32(number) => RawBsonRef::Int32(number),
                RawBson::Int64(number) => RawBsonRef::Int64(number),
                RawBson::Timestamp(time) => RawBsonRef::Timestamp(time),
                RawBson::ObjectId(id) => RawBsonRef::ObjectId(id),
                RawBson::DateTime(time) => RawBsonRef::DateTime(time),
                RawBson::Decimal128(decimal) => RawBsonRef::Decimal128(decimal),
                RawBson::Undefined => RawBsonRef::Undefined,
                RawBson::MaxKey => RawBsonRef::MaxKey,
                RawBson::MinKey => RawBsonRef::MinKey,
                _ => return None,
            }),
        }
    }
}

impl<'de> Deserialize<'de> for Value<'de> {
    fn deserialize<D: Deserializer<'de>>(deserializer: D) -> Result<Value<'de>, D::Error> {
        deserializer.deserialize_newtype_struct(super::RAW_BSON, OfValue)
    }
}

/// A key, which is borrowed if it can be.
struct Key<'de>(Cow<'de, str>);

impl<'de> Deserialize<'de> for Key<'de> {
    fn deserialize<D: Deserializer<'de>>(deserializer: D) -> Result<Key<'de>, D::Error> {
        struct OfKey;

        impl<'de> Visitor<'de> for OfKey {
            type Value = Key<'de>;

            fn expecting(&self, f: &mut fmt::Formatter<'_>) -> fmt::Result {
                f.write_str("a key")
            }

            fn visit_borrowed_str<E>(self, key: &'de str) -> Result<Key<'de>, E> {
                Ok(Key(Cow::Borrowed(key)))
            }

            fn visit_str<E>(self, key: &str) -> Result<Key<'de>, E> {
                Ok(Key(Cow::Owned(key.to_owned())))
            }

            fn visit_string<E>(self, key: String) -> Result<Key<'de>, E> {
                Ok(Key(Cow::Owned(key)))
            }
        }

        deserializer.deserialize_str(OfKey)
    }
}

fn number<'de, E: de::Error>(number: i64) -> Result<Value<'de>, E> {
    Ok(Value::Made(i32::try_from(number).map_or(RawBson::Int64(number), RawBson::Int32)))
}

struct OfValue;

impl<'de> Visitor<'de> for OfValue {
    type Value = Value<'de>;

    fn expecting(&self, f: &mut fmt::Formatter<'_>) -> fmt::Result {
        f.write_str("a value of BSON")
    }

    fn visit_bool<E>(self, is_true: bool) -> Result<Value<'de>, E> {
        Ok(Value::Made(RawBson::Boolean(is_true)))
    }

    fn visit_i8<E: de::Error>(self, it: i8) -> Result<Value<'de>, E> {
        number(it.into())
    }

    fn visit_i16<E: de::Error>(self, it: i16) -> Result<Value<'de>, E> {
        number(it.into())
    }

    fn visit_i32<E: de::Error>(self, it: i32) -> Result<Value<'de>, E> {
        number(it.into())
    }

    fn visit_i64<E>(self, it: i64) -> Result<Value<'de>, E> {
        Ok(Value::Made(RawBson::Int64(it)))
    }

    fn visit_u64<E: de::Error>(self, it: u64) -> Result<Value<'de>, E> {
        number(i64::try_from(it).map_err(|_| E::custom(format!("{it} is no number of 64 bits with a sign")))?)
    }

    fn visit_f64<E>(self, it: f64) -> Result<Value<'de>, E> {
        Ok(Value::Made(RawBson::Double(it)))
    }

    fn visit_borrowed_str<E>(self, text: &'de str) -> Result<Value<'de>, E> {
        Ok(Value::Borrowed(RawBsonRef::String(text)))
    }

    fn visit_str<E>(self, text: &str) -> Result<Value<'de>, E> {
        Ok(Value::Made(RawBson::String(text.to_owned())))
    }

    fn visit_string<E>(self, text: String) -> Result<Value<'de>, E> {
        Ok(Value::Made(RawBson::String(text)))
    }

    fn visit_borrowed_bytes<E>(self, bytes: &'de [u8]) -> Result<Value<'de>, E> {
        Ok(Value::Borrowed(RawBsonRef::Binary(RawBinaryRef { subtype: BinarySubtype::Generic, bytes })))
    }

    fn visit_bytes<E: de::Error>(self, bytes: &[u8]) -> Result<Value<'de>, E> {
        self.visit_byte_buf(bytes.to_vec())
    }

    fn visit_byte_buf<E>(self, bytes: Vec<u8>) -> Result<Value<'de>, E> {
        Ok(Value::Made(RawBson::Binary(Binary { subtype: BinarySubtype::Generic, bytes })))
    }

    fn visit_unit<E>(self) -> Result<Value<'de>, E> {
        Ok(Value::Made(RawBson::Null))
    }

    fn visit_none<E: de::Error>(self) -> Result<Value<'de>, E> {
        self.visit_unit()
    }

    fn visit_some<D: Deserializer<'de>>(self, deserializer: D) -> Result<Value<'de>, D::Error> {
        Value::deserialize(deserializer)
    }

    fn visit_newtype_struct<D: Deserializer<'de>>(self, deserializer: D) -> Result<Value<'de>, D::Error> {
        deserializer.deserialize_any(OfValue)
    }

    fn visit_seq<A: SeqAccess<'de>>(self, mut seq: A) -> Result<Value<'de>, A::Error> {
        let mut array = RawArrayBuf::new();
        while let Some(value) = seq.next_element::<Value<'de>>()? {
            array.try_push_ref(value.as_ref()).map_err(de::Error::custom)?;
        }
        Ok(Value::Made(RawBson::Array(array)))
    }

    fn visit_map<A: MapAccess<'de>>(self, mut map: A) -> Result<Value<'de>, A::Error> {
        let Some(Key(first)) = map.next_key()? else {
            return Ok(Value::Made(RawBson::Document(RawDocumentBuf::new())));
        };
        match &*first {
            super::LANE => return Ok(Value::Borrowed(map.next_value::<lane::Taken<'de>>()?.0)),
            super::RAW_DOCUMENT | super::RAW_ARRAY => {
                let document = document_of(map.next_value()?)?;
                let is_array = first == super::RAW_ARRAY;
                return Ok(Value::Made(if is_array {
                    RawBson::Array(RawArrayBuf::of_document(document))
                } else {
                    RawBson::Document(document)
                }));
            }
            _ => {}
        }
        let value: Value<'de> = map.next_value()?;
        let mut next = map.next_key::<Key<'de>>()?;
        if next.is_none() {
            if let Some(value) = wrapper::unwrapped(&first, value.as_ref()) {
                return Ok(Value::Made(value));
            }
        }
        let mut document = RawDocumentBuf::new();
        document.try_append_ref(first, value.as_ref()).map_err(de::Error::custom)?;
        while let Some(Key(key)) = next {
            let value: Value<'de> = map.next_value()?;
            document.try_append_ref(key, value.as_ref()).map_err(de::Error::custom)?;
            next = map.next_key()?;
        }
        Ok(Value::Made(wrapper::of_document(document)))
    }
}

/// The document that a value is, or that its bytes are.
pub(super) fn document_of<E: de::Error>(value: Value<'_>) -> Result<RawDocumentBuf, E> {
    match value.into_raw_bson() {
        RawBson::Document(document) => Ok(document),
        RawBson::Binary(binary) => RawDocumentBuf::from_bytes(binary.bytes).map_err(E::custom),
        other => Err(E::custom(format!("expected a document, found a value of type {:?}", other.element_type()))),
    }
}
