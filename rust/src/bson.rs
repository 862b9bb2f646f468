//! Values in memory.

use std::fmt;

use crate::oid::ObjectId;
use crate::spec::ElementType;
use crate::{Binary, DateTime, DbPointer, Decimal128, Document, JavaScriptCodeWithScope, Regex, Timestamp};

/// The values of an array.
pub type Array = Vec<Bson>;

/// A value of any kind.
#[derive(Clone, Default, PartialEq)]
pub enum Bson {
    /// A number of 64 bits in floating point.
    Double(f64),
    /// A text.
    String(String),
    /// An array.
    Array(Array),
    /// A document.
    Document(Document),
    /// True or false.
    Boolean(bool),
    /// Nothing.
    #[default]
    Null,
    /// A regular expression.
    RegularExpression(Regex),
    /// Code.
    JavaScriptCode(String),
    /// Code with a document of its variables (deprecated).
    JavaScriptCodeWithScope(JavaScriptCodeWithScope),
    /// A whole number of 32 bits.
    Int32(i32),
    /// A whole number of 64 bits.
    Int64(i64),
    /// A time in seconds, with a number.
    Timestamp(Timestamp),
    /// Bytes with a subtype.
    Binary(Binary),
    /// An id of twelve bytes.
    ObjectId(ObjectId),
    /// A time in milliseconds.
    DateTime(DateTime),
    /// A text (deprecated).
    Symbol(String),
    /// A decimal number of 128 bits.
    Decimal128(Decimal128),
    /// Nothing (deprecated).
    Undefined,
    /// What is greater than any value.
    MaxKey,
    /// What is less than any value.
    MinKey,
    /// A namespace with an id (deprecated).
    DbPointer(DbPointer),
}

/// Declares the `as_..` of a value, each with what it returns of the kind.
macro_rules! accessors {
    ($($what:literal $name:ident -> $of:ty = $kind:ident $value:ident $given:expr;)*) => {
        $(
            #[doc = $what]
            pub fn $name(&self) -> Option<$of> {
                match self {
                    Bson::$kind($value) => Some($given),
                    _ => None,
                }
            }
        )*
    };
    (mut $($what:literal $name:ident -> $of:ty = $kind:ident;)*) => {
        $(
            #[doc = $what]
            pub fn $name(&mut self) -> Option<&mut $of> {
                match self {
                    Bson::$kind(value) => Some(value),
                    _ => None,
                }
            }
        )*
    };
}

impl Bson {
    /// The type of the value.
    pub fn element_type(&self) -> ElementType {
        match self {
            Bson::Double(_) => ElementType::Double,
            Bson::String(_) => ElementType::String,
            Bson::Array(_) => ElementType::Array,
            Bson::Document(_) => ElementType::EmbeddedDocument,
            Bson::Boolean(_) => ElementType::Boolean,
            Bson::Null => ElementType::Null,
            Bson::RegularExpression(_) => ElementType::RegularExpression,
            Bson::JavaScriptCode(_) => ElementType::JavaScriptCode,
            Bson::JavaScriptCodeWithScope(_) => ElementType::JavaScriptCodeWithScope,
            Bson::Int32(_) => ElementType::Int32,
            Bson::Int64(_) => ElementType::Int64,
            Bson::Timestamp(_) => ElementType::Timestamp,
            Bson::Binary(_) => ElementType::Binary,
            Bson::ObjectId(_) => ElementType::ObjectId,
            Bson::DateTime(_) => ElementType::DateTime,
            Bson::Symbol(_) => ElementType::Symbol,
            Bson::Decimal128(_) => ElementType::Decimal128,
            Bson::Undefined => ElementType::Undefined,
            Bson::MaxKey => ElementType::MaxKey,
            Bson::MinKey => ElementType::MinKey,
            Bson::DbPointer(_) => ElementType::DbPointer,
        }
    }

    accessors! {
        "The number, if it is a double." as_f64 -> f64 = Double it *it;
        "The text, if it is a string." as_str -> &str = String it it;
        "The array, if it is one." as_array -> &Array = Array it it;
        "The document, if it is one." as_document -> &Document = Document it it;
        "The boolean, if it is one." as_bool -> bool = Boolean it *it;
        "The number, if it is one of 32 bits." as_i32 -> i32 = Int32 it *it;
        "The number, if it is one of 64 bits." as_i64 -> i64 = Int64 it *it;
        "The id, if it is one." as_object_id -> ObjectId = ObjectId it *it;
        "The time, if it is one in milliseconds." as_datetime -> &DateTime = DateTime it it;
        "The text, if it is a symbol." as_symbol -> &str = Symbol it it;
        "The timestamp, if it is one." as_timestamp -> Timestamp = Timestamp it *it;
        "The bytes and their subtype, if it is a binary value." as_binary -> &Binary = Binary it it;
        "The regular expression, if it is one." as_regex -> &Regex = RegularExpression it it;
        "The namespace and its id, if it is a pointer." as_db_pointer -> &DbPointer = DbPointer it it;
        "The code, if it is code without a scope." as_javascript -> &str = JavaScriptCode it it;
        "The code and its scope, if it is code with one." as_javascript_with_scope -> &JavaScriptCodeWithScope = JavaScriptCodeWithScope it it;
    }

    accessors! {
        mut
        "The number, to be changed, if it is a double." as_f64_mut -> f64 = Double;
        "The text, to be changed, if it is a string." as_str_mut -> String = String;
        "The array, to be changed, if it is one." as_array_mut -> Array = Array;
        "The document, to be changed, if it is one." as_document_mut -> Document = Document;
        "The boolean, to be changed, if it is one." as_bool_mut -> bool = Boolean;
        "The number, to be changed, if it is one of 32 bits." as_i32_mut -> i32 = Int32;
        "The number, to be changed, if it is one of 64 bits." as_i64_mut -> i64 = Int64;
        "The id, to be changed, if it is one." as_object_id_mut -> ObjectId = ObjectId;
        "The time, to be changed, if it is one in milliseconds." as_datetime_mut -> DateTime = DateTime;
        "The text, to be changed, if it is a symbol." as_symbol_mut -> String = Symbol;
        "The timestamp, to be changed, if it is one." as_timestamp_mut -> Timestamp = Timestamp;
    }

    /// Whether it is null.
    pub fn as_null(&self) -> Option<()> {
        matches!(self, Bson::Null).then_some(())
    }
}

/// Makes a value of what has one kind alone.
macro_rules! from {
    ($($of:ty = $kind:ident;)*) => {
        $(
            impl From<$of> for Bson {
                fn from(value: $of) -> Bson {
                    Bson::$kind(value.into())
                }
            }
        )*
    };
}

from! {
    f32 = Double;
    f64 = Double;
    &str = String;
    String = String;
    Document = Document;
    bool = Boolean;
    i8 = Int32;
    i16 = Int32;
    u8 = Int32;
    u16 = Int32;
    i32 = Int32;
    i64 = Int64;
    Regex = RegularExpression;
    JavaScriptCodeWithScope = JavaScriptCodeWithScope;
    Timestamp = Timestamp;
    Binary = Binary;
    ObjectId = ObjectId;
    [u8; 12] = ObjectId;
    DateTime = DateTime;
    Decimal128 = Decimal128;
    DbPointer = DbPointer;
}

/// A number of 32 bits, if it fits into one, and else one of 64.
impl From<u32> for Bson {
    fn from(number: u32) -> Bson {
        i32::try_from(number).map_or_else(|_| Bson::Int64(number.into()), Bson::Int32)
    }
}

impl<T: Clone + Into<Bson>> From<&T> for Bson {
    fn from(value: &T) -> Bson {
        value.clone().into()
    }
}

impl<T: Clone + Into<Bson>> From<&mut T> for Bson {
    fn from(value: &mut T) -> Bson {
        value.clone().into()
    }
}

/// The value, or null.
impl<T: Into<Bson>> From<Option<T>> for Bson {
    fn from(value: Option<T>) -> Bson {
        value.map_or(Bson::Null, Into::into)
    }
}

impl<T: Into<Bson>> From<Vec<T>> for Bson {
    fn from(values: Vec<T>) -> Bson {
        values.into_iter().collect()
    }
}

impl<T: Clone + Into<Bson>> From<&[T]> for Bson {
    fn from(values: &[T]) -> Bson {
        values.iter().cloned().collect()
    }
}

/// An array.
impl<T: Into<Bson>> FromIterator<T> for Bson {
    fn from_iter<I: IntoIterator<Item = T>>(values: I) -> Bson {
        Bson::Array(values.into_iter().map(Into::into).collect())
    }
}

/// As the crate `bson` prints it: `Int32(1)`.
impl fmt::Debug for Bson {
    fn fmt(&self, f: &mut fmt::Formatter<'_>) -> fmt::Result {
        match self {
            Bson::Double(number) => f.debug_tuple("Double").field(number).finish(),
            Bson::String(text) => f.debug_tuple("String").field(text).finish(),
            Bson::Array(values) => {
                f.write_str("Array(")?;
                values.fmt(f)?;
                f.write_str(")")
            }
            Bson::Document(document) => document.fmt(f),
            Bson::Boolean(is_true) => f.debug_tuple("Boolean").field(is_true).finish(),
            Bson::Null => f.write_str("Null"),
            Bson::RegularExpression(regex) => regex.fmt(f),
            Bson::JavaScriptCode(code) => f.debug_tuple("JavaScriptCode").field(code).finish(),
            Bson::JavaScriptCodeWithScope(code) => code.fmt(f),
            Bson::Int32(number) => f.debug_tuple("Int32").field(number).finish(),
            Bson::Int64(number) => f.debug_tuple("Int64").field(number).finish(),
            Bson::Timestamp(time) => time.fmt(f),
            Bson::Binary(binary) => binary.fmt(f),
            Bson::ObjectId(id) => id.fmt(f),
            Bson::DateTime(time) => time.fmt(f),
            Bson::Symbol(text) => f.debug_tuple("Symbol").field(text).finish(),
            Bson::Decimal128(decimal) => decimal.fmt(f),
            Bson::Undefined => f.write_str("Undefined"),
            Bson::MaxKey => f.write_str("MaxKey"),
            Bson::MinKey => f.write_str("MinKey"),
            Bson::DbPointer(pointer) => pointer.fmt(f),
        }
    }
}

/// As the crate `bson` prints it. Use [`to_json`](crate::raw::RawDocument::to_json) for a text that can be read again.
impl fmt::Display for Bson {
    fn fmt(&self, f: &mut fmt::Formatter<'_>) -> fmt::Result {
        match self {
            Bson::Double(number) => number.fmt(f),
            Bson::String(text) => write!(f, "\"{text}\""),
            Bson::Array(values) => {
                f.write_str("[")?;
                for (number, value) in values.iter().enumerate() {
                    write!(f, "{}{value}", if number == 0 { "" } else { ", " })?;
                }
                f.write_str("]")
            }
            Bson::Document(document) => document.fmt(f),
            Bson::Boolean(is_true) => is_true.fmt(f),
            Bson::Null => f.write_str("null"),
            Bson::RegularExpression(regex) => regex.fmt(f),
            Bson::JavaScriptCode(code) => f.write_str(code),
            Bson::JavaScriptCodeWithScope(code) => f.write_str(&code.code),
            Bson::Int32(number) => number.fmt(f),
            Bson::Int64(number) => number.fmt(f),
            Bson::Timestamp(time) => time.fmt(f),
            Bson::Binary(binary) => binary.fmt(f),
            Bson::ObjectId(id) => write!(f, "ObjectId(\"{id}\")"),
            Bson::DateTime(time) => write!(f, "DateTime(\"{time}\")"),
            Bson::Symbol(text) => write!(f, "Symbol(\"{text}\")"),
            Bson::Decimal128(decimal) => decimal.fmt(f),
            Bson::Undefined => f.write_str("undefined"),
            Bson::MaxKey => f.write_str("MaxKey"),
            Bson::MinKey => f.write_str("MinKey"),
            Bson::DbPointer(pointer) => write!(f, "DbPointer({}, {})", pointer.namespace, pointer.id),
        }
    }
}
