//! Borrowed values.

use super::{RawArray, RawArrayBuf, RawBson, RawDocument, RawDocumentBuf, RawJavaScriptCodeWithScope};
use crate::oid::ObjectId;
use crate::spec::{BinarySubtype, ElementType};
use crate::{Binary, DateTime, DbPointer, Decimal128, Regex, Timestamp};

/// A value that borrows from the bytes that it is read from.
#[derive(Clone, Copy, Debug, PartialEq)]
pub enum RawBsonRef<'a> {
    /// A number of 64 bits in floating point.
    Double(f64),
    /// A text.
    String(&'a str),
    /// An array.
    Array(&'a RawArray),
    /// A document.
    Document(&'a RawDocument),
    /// True or false.
    Boolean(bool),
    /// Nothing.
    Null,
    /// A regular expression.
    RegularExpression(RawRegexRef<'a>),
    /// Code.
    JavaScriptCode(&'a str),
    /// Code with a document of its variables (deprecated).
    JavaScriptCodeWithScope(RawJavaScriptCodeWithScopeRef<'a>),
    /// A whole number of 32 bits.
    Int32(i32),
    /// A whole number of 64 bits.
    Int64(i64),
    /// A time in seconds, with a number.
    Timestamp(Timestamp),
    /// Bytes with a subtype.
    Binary(RawBinaryRef<'a>),
    /// An id of twelve bytes.
    ObjectId(ObjectId),
    /// A time in milliseconds.
    DateTime(DateTime),
    /// A text (deprecated).
    Symbol(&'a str),
    /// A decimal number of 128 bits.
    Decimal128(Decimal128),
    /// Nothing (deprecated).
    Undefined,
    /// What is greater than any value.
    MaxKey,
    /// What is less than any value.
    MinKey,
    /// A namespace with an id (deprecated).
    DbPointer(RawDbPointerRef<'a>),
}

/// Declares the `as_..` of a borrowed value.
macro_rules! accessors {
    ($($(#[$what:meta])* $name:ident -> $value:ty = $kind:ident;)*) => {
        $(
            $(#[$what])*
            #[inline]
            pub fn $name(self) -> Option<$value> {
                match self {
                    RawBsonRef::$kind(value) => Some(value),
                    _ => None,
                }
            }
        )*
    };
}

impl<'a> RawBsonRef<'a> {
    /// The type of the value.
    #[inline]
    pub fn element_type(&self) -> ElementType {
        match self {
            RawBsonRef::Double(_) => ElementType::Double,
            RawBsonRef::String(_) => ElementType::String,
            RawBsonRef::Array(_) => ElementType::Array,
            RawBsonRef::Document(_) => ElementType::EmbeddedDocument,
            RawBsonRef::Boolean(_) => ElementType::Boolean,
            RawBsonRef::Null => ElementType::Null,
            RawBsonRef::RegularExpression(_) => ElementType::RegularExpression,
            RawBsonRef::JavaScriptCode(_) => ElementType::JavaScriptCode,
            RawBsonRef::JavaScriptCodeWithScope(_) => ElementType::JavaScriptCodeWithScope,
            RawBsonRef::Int32(_) => ElementType::Int32,
            RawBsonRef::Int64(_) => ElementType::Int64,
            RawBsonRef::Timestamp(_) => ElementType::Timestamp,
            RawBsonRef::Binary(_) => ElementType::Binary,
            RawBsonRef::ObjectId(_) => ElementType::ObjectId,
            RawBsonRef::DateTime(_) => ElementType::DateTime,
            RawBsonRef::Symbol(_) => ElementType::Symbol,
            RawBsonRef::Decimal128(_) => ElementType::Decimal128,
            RawBsonRef::Undefined => ElementType::Undefined,
            RawBsonRef::MaxKey => ElementType::MaxKey,
            RawBsonRef::MinKey => ElementType::MinKey,
            RawBsonRef::DbPointer(_) => ElementType::DbPointer,
        }
    }

    accessors! {
        /// The number, if it is a double.
        as_f64 -> f64 = Double;
        /// The text, if it is a string.
        as_str -> &'a str = String;
        /// The array, if it is one.
        as_array -> &'a RawArray = Array;
        /// The document, if it is one.
        as_document -> &'a RawDocument = Document;
        /// The boolean, if it is one.
        as_bool -> bool = Boolean;
        /// The number, if it is one of 32 bits.
        as_i32 -> i32 = Int32;
        /// The number, if it is one of 64 bits.
        as_i64 -> i64 = Int64;
        /// The id, if it is one.
        as_object_id -> ObjectId = ObjectId;
        /// The bytes and their subtype, if it is a binary value.
        as_binary -> RawBinaryRef<'a> = Binary;
        /// The regular expression, if it is one.
        as_regex -> RawRegexRef<'a> = RegularExpression;
        /// The time, if it is one in milliseconds.
        as_datetime -> DateTime = DateTime;
        /// The text, if it is a symbol.
        as_symbol -> &'a str = Symbol;
        /// The timestamp, if it is one.
        as_timestamp -> Timestamp = Timestamp;
        /// The namespace and its id, if it is a pointer.
        as_db_pointer -> RawDbPointerRef<'a> = DbPointer;
        /// The code, if it is code without a scope.
        as_javascript -> &'a str = JavaScriptCode;
        /// The code and its scope, if it is code with one.
        as_javascript_with_scope -> RawJavaScriptCodeWithScopeRef<'a> = JavaScriptCodeWithScope;
    }

    /// Whether it is null.
    #[inline]
    pub fn as_null(self) -> Option<()> {
        matches!(self, RawBsonRef::Null).then_some(())
    }

    /// Copies the value. The options of a regular expression are put in ascending order.
    pub fn to_raw_bson(self) -> RawBson {
        match self {
            RawBsonRef::Double(number) => RawBson::Double(number),
            RawBsonRef::String(text) => RawBson::String(text.to_owned()),
            RawBsonRef::Array(array) => RawBson::Array(array.to_owned()),
            RawBsonRef::Document(document) => RawBson::Document(document.to_owned()),
            RawBsonRef::Boolean(is_true) => RawBson::Boolean(is_true),
            RawBsonRef::Null => RawBson::Null,
            RawBsonRef::RegularExpression(regex) => RawBson::RegularExpression(Regex::sorted(regex)),
            RawBsonRef::JavaScriptCode(code) => RawBson::JavaScriptCode(code.to_owned()),
            RawBsonRef::JavaScriptCodeWithScope(code) => RawBson::JavaScriptCodeWithScope(RawJavaScriptCodeWithScope {
                code: code.code.to_owned(),
                scope: code.scope.to_owned(),
            }),
            RawBsonRef::Int32(number) => RawBson::Int32(number),
            RawBsonRef::Int64(number) => RawBson::Int64(number),
            RawBsonRef::Timestamp(time) => RawBson::Timestamp(time),
            RawBsonRef::Binary(binary) => RawBson::Binary(binary.to_binary()),
            RawBsonRef::ObjectId(id) => RawBson::ObjectId(id),
            RawBsonRef::DateTime(time) => RawBson::DateTime(time),
            RawBsonRef::Symbol(text) => RawBson::Symbol(text.to_owned()),
            RawBsonRef::Decimal128(decimal) => RawBson::Decimal128(decimal),
            RawBsonRef::Undefined => RawBson::Undefined,
            RawBsonRef::MaxKey => RawBson::MaxKey,
            RawBsonRef::MinKey => RawBson::MinKey,
            RawBsonRef::DbPointer(pointer) => {
                RawBson::DbPointer(DbPointer { namespace: pointer.namespace.to_owned(), id: pointer.id })
            }
        }
    }
}

/// Makes a borrowed value of what has one kind alone.
macro_rules! from {
    ($($of:ty = $kind:ident;)*) => {
        $(
            impl<'a> From<$of> for RawBsonRef<'a> {
                #[inline]
                fn from(value: $of) -> RawBsonRef<'a> {
                    RawBsonRef::$kind(value)
                }
            }
        )*
    };
}

from! {
    i32 = Int32;
    i64 = Int64;
    f64 = Double;
    bool = Boolean;
    &'a str = String;
    &'a RawDocument = Document;
    &'a RawDocumentBuf = Document;
    &'a RawArray = Array;
    &'a RawArrayBuf = Array;
    DateTime = DateTime;
    Timestamp = Timestamp;
    ObjectId = ObjectId;
    Decimal128 = Decimal128;
    RawBinaryRef<'a> = Binary;
    RawRegexRef<'a> = RegularExpression;
    RawJavaScriptCodeWithScopeRef<'a> = JavaScriptCodeWithScope;
    RawDbPointerRef<'a> = DbPointer;
}

impl<'a> From<&'a Binary> for RawBsonRef<'a> {
    fn from(binary: &'a Binary) -> RawBsonRef<'a> {
        RawBsonRef::Binary(binary.as_raw_binary())
    }
}

impl<'a> From<&'a RawBson> for RawBsonRef<'a> {
    #[inline]
    fn from(value: &'a RawBson) -> RawBsonRef<'a> {
        value.as_raw_bson_ref()
    }
}

/// Borrowed bytes with a subtype.
#[derive(Clone, Copy, Debug, Eq, PartialEq)]
pub struct RawBinaryRef<'a> {
    /// What the bytes are.
    pub subtype: BinarySubtype,
    /// The bytes; of the old subtype without their inner length.
    pub bytes: &'a [u8],
}

impl RawBinaryRef<'_> {
    /// Copies the bytes.
    pub fn to_binary(&self) -> Binary {
        Binary { subtype: self.subtype, bytes: self.bytes.to_owned() }
    }
}

/// A borrowed regular expression.
#[derive(Clone, Copy, Debug, Eq, PartialEq)]
pub struct RawRegexRef<'a> {
    /// The pattern.
    pub pattern: &'a str,
    /// The options, a letter each; they have to be in ascending order, which isn't looked at.
    pub options: &'a str,
}

/// Borrowed code with a document of its variables.
#[derive(Clone, Copy, Debug, Eq, PartialEq)]
pub struct RawJavaScriptCodeWithScopeRef<'a> {
    /// The code.
    pub code: &'a str,
    /// The variables.
    pub scope: &'a RawDocument,
}

/// A borrowed namespace with an id.
#[derive(Clone, Copy, Debug, Eq, PartialEq)]
pub struct RawDbPointerRef<'a> {
    pub(crate) namespace: &'a str,
    pub(crate) id: ObjectId,
}

impl<'a> RawDbPointerRef<'a> {
    /// The namespace.
    pub fn namespace(&self) -> &'a str {
        self.namespace
    }

    /// The id.
    pub fn id(&self) -> ObjectId {
        self.id
    }
}
