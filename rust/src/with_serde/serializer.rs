//! Values of serde's as values of BSON.

use serde::ser::{self, Serialize};

use super::wrapper;
use crate::document::LEVELS;
use crate::raw::{RawArrayBuf, RawBson, RawDocumentBuf};
use crate::ser::{Error, Result};
use crate::spec::BinarySubtype;
use crate::{Binary, Uuid};

/// Makes a value of at most `levels` levels.
#[derive(Clone, Copy)]
pub(crate) struct Serializer {
    levels: usize,
    is_human_readable: bool,
}

impl Serializer {
    pub(crate) fn new(is_human_readable: bool) -> Serializer {
        Serializer { levels: LEVELS, is_human_readable }
    }

    /// What makes the values inside, which are a level deeper.
    fn deeper(self) -> Result<Serializer> {
        match self.levels.checked_sub(1) {
            Some(levels) => Ok(Serializer { levels, ..self }),
            None => Err(Error::custom("more levels than allowed")),
        }
    }

    fn array(self, variant: Option<&'static str>) -> Result<Array> {
        Ok(Array { made: RawArrayBuf::new(), count: 0, variant, inside: self.deeper()? })
    }

    fn document(self, variant: Option<&'static str>) -> Result<Document> {
        let made = RawDocumentBuf::new();
        Ok(Document { made, key: None, variant, is_wrapper: false, inside: self.deeper()? })
    }
}

/// A value, as that of a variant of an enum, if it is that.
fn in_variant(made: RawBson, variant: Option<&'static str>) -> Result<RawBson> {
    let Some(name) = variant else { return Ok(made) };
    let mut outer = RawDocumentBuf::new();
    outer.try_append(name, made)?;
    Ok(outer.into())
}

/// Declares what makes a value of one kind.
macro_rules! leaves {
    ($($name:ident $of:ty = $kind:ident,)*) => {
        $(
            fn $name(self, value: $of) -> Result<RawBson> {
                Ok(RawBson::$kind(value.into()))
            }
        )*
    };
}

impl ser::Serializer for Serializer {
    type Error = Error;
    type Ok = RawBson;
    type SerializeMap = Document;
    type SerializeSeq = Array;
    type SerializeStruct = Document;
    type SerializeStructVariant = Document;
    type SerializeTuple = Array;
    type SerializeTupleStruct = Array;
    type SerializeTupleVariant = Array;

    leaves! {
        serialize_bool bool = Boolean,
        serialize_i8 i8 = Int32,
        serialize_i16 i16 = Int32,
        serialize_i32 i32 = Int32,
        serialize_i64 i64 = Int64,
        serialize_u8 u8 = Int32,
        serialize_u16 u16 = Int32,
        serialize_u32 u32 = Int64,
        serialize_f32 f32 = Double,
        serialize_f64 f64 = Double,
        serialize_char char = String,
        serialize_str &str = String,
    }

    fn is_human_readable(&self) -> bool {
        self.is_human_readable
    }

    fn serialize_u64(self, number: u64) -> Result<RawBson> {
        let signed = i64::try_from(number);
        signed.map(RawBson::Int64).map_err(|_| Error::custom(format!("{number} is no number of 64 bits with a sign")))
    }

    fn serialize_bytes(self, bytes: &[u8]) -> Result<RawBson> {
        Ok(RawBson::Binary(Binary { subtype: BinarySubtype::Generic, bytes: bytes.to_vec() }))
    }

    fn serialize_none(self) -> Result<RawBson> {
        Ok(RawBson::Null)
    }

    fn serialize_some<T: Serialize + ?Sized>(self, value: &T) -> Result<RawBson> {
        value.serialize(self)
    }

    fn serialize_unit(self) -> Result<RawBson> {
        Ok(RawBson::Null)
    }

    fn serialize_unit_struct(self, _: &'static str) -> Result<RawBson> {
        Ok(RawBson::Null)
    }

    fn serialize_unit_variant(self, _: &'static str, _: u32, variant: &'static str) -> Result<RawBson> {
        Ok(RawBson::String(variant.into()))
    }

    /// The bytes of a document, an array or a UUID are that, and so is the text of a UUID.
    fn serialize_newtype_struct<T: Serialize + ?Sized>(self, name: &'static str, value: &T) -> Result<RawBson> {
        match (name, value.serialize(self)?) {
            (super::RAW_DOCUMENT, RawBson::Binary(binary)) => Ok(RawDocumentBuf::from_bytes(binary.bytes)?.into()),
            (super::RAW_ARRAY, RawBson::Binary(binary)) => {
                Ok(RawArrayBuf::of_document(RawDocumentBuf::from_bytes(binary.bytes)?).into())
            }
            (super::UUID, RawBson::Binary(Binary { bytes, .. })) => {
                Ok(Binary { subtype: BinarySubtype::Uuid, bytes }.into())
            }
            (super::UUID, RawBson::String(text)) => {
                Ok(Uuid::parse_str(text).map_err(|error| Error::custom(error.to_string()))?.into())
            }
            (_, made) => Ok(made),
        }
    }

    fn serialize_newtype_variant<T: Serialize + ?Sized>(
        self,
        _: &'static str,
        _: u32,
        variant: &'static str,
        value: &T,
    ) -> Result<RawBson> {
        in_variant(value.serialize(self.deeper()?).map_err(|error| error.under(variant))?, Some(variant))
    }

    fn serialize_seq(self, _: Option<usize>) -> Result<Array> {
        self.array(None)
    }

    fn serialize_tuple(self, _: usize) -> Result<Array> {
        self.array(None)
    }

    fn serialize_tuple_struct(self, _: &'static str, _: usize) -> Result<Array> {
        self.array(None)
    }

    fn serialize_tuple_variant(self, _: &'static str, _: u32, variant: &'static str, _: usize) -> Result<Array> {
        self.array(Some(variant))
    }

    fn serialize_map(self, _: Option<usize>) -> Result<Document> {
        self.document(None)
    }

    fn serialize_struct(self, name: &'static str, _: usize) -> Result<Document> {
        Ok(Document { is_wrapper: name.starts_with('$'), ..self.document(None)? })
    }

    fn serialize_struct_variant(self, _: &'static str, _: u32, variant: &'static str, _: usize) -> Result<Document> {
        self.document(Some(variant))
    }
}

/// An array that is made.
pub(crate) struct Array {
    made: RawArrayBuf,
    count: usize,
    variant: Option<&'static str>,
    inside: Serializer,
}

impl Array {
    fn push<T: Serialize + ?Sized>(&mut self, value: &T) -> Result<()> {
        let number = self.count;
        let made = value.serialize(self.inside).and_then(|made| Ok(self.made.try_push_ref(&made)?));
        self.count += 1;
        made.map_err(|error| error.under(number.to_string())).map_err(|error| self.placed(error))
    }

    /// An error inside, with the name of the variant.
    fn placed(&self, error: Error) -> Error {
        match self.variant {
            Some(variant) => error.under(variant),
            None => error,
        }
    }
}

macro_rules! arrays {
    ($($of:ident $name:ident,)*) => {
        $(
            impl ser::$of for Array {
                type Error = Error;
                type Ok = RawBson;

                fn $name<T: Serialize + ?Sized>(&mut self, value: &T) -> Result<()> {
                    self.push(value)
                }

                fn end(self) -> Result<RawBson> {
                    in_variant(self.made.into(), self.variant)
                }
            }
        )*
    };
}

arrays! {
    SerializeSeq serialize_element,
    SerializeTuple serialize_element,
    SerializeTupleStruct serialize_field,
    SerializeTupleVariant serialize_field,
}

/// A document that is made.
pub(crate) struct Document {
    made: RawDocumentBuf,
    key: Option<String>,
    variant: Option<&'static str>,
    is_wrapper: bool,
    inside: Serializer,
}

impl Document {
    fn put<T: Serialize + ?Sized>(&mut self, key: &str, value: &T) -> Result<()> {
        let made = value.serialize(self.inside).and_then(|made| Ok(self.made.try_append_ref(key, &made)?));
        made.map_err(|error| error.under(key)).map_err(|error| match self.variant {
            Some(variant) => error.under(variant),
            None => error,
        })
    }

    fn finish(self) -> Result<RawBson> {
        if self.is_wrapper {
            Ok(wrapper::of_document(self.made))
        } else {
            in_variant(self.made.into(), self.variant)
        }
    }
}

macro_rules! documents {
    ($($of:ident)*) => {
        $(
            impl ser::$of for Document {
                type Error = Error;
                type Ok = RawBson;

                fn serialize_field<T: Serialize + ?Sized>(&mut self, key: &'static str, value: &T) -> Result<()> {
                    self.put(key, value)
                }

                fn end(self) -> Result<RawBson> {
                    self.finish()
                }
            }
        )*
    };
}

documents! { SerializeStruct SerializeStructVariant }

impl ser::SerializeMap for Document {
    type Error = Error;
    type Ok = RawBson;

    fn serialize_key<T: Serialize + ?Sized>(&mut self, key: &T) -> Result<()> {
        self.key = Some(match key.serialize(self.inside)? {
            RawBson::String(key) => key,
            RawBson::Boolean(key) => key.to_string(),
            RawBson::Int32(key) => key.to_string(),
            RawBson::Int64(key) => key.to_string(),
            RawBson::Double(key) => key.to_string(),
            RawBson::ObjectId(key) => key.to_hex(),
            other => return Err(Error::custom(format!("a value of type {:?} is no key", other.element_type()))),
        });
        Ok(())
    }

    fn serialize_value<T: Serialize + ?Sized>(&mut self, value: &T) -> Result<()> {
        let key = self.key.take().ok_or_else(|| Error::custom("a value comes after its key"))?;
        self.put(&key, value)
    }

    fn end(self) -> Result<RawBson> {
        self.finish()
    }
}
