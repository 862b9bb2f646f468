//! Values that own their parts.

use super::{RawArray, RawArrayBuf, RawBinaryRef, RawBsonRef, RawDbPointerRef, RawDocument, RawDocumentBuf};
use super::{RawJavaScriptCodeWithScopeRef, RawRegexRef};
use crate::oid::ObjectId;
use crate::spec::ElementType;
use crate::{Binary, DateTime, DbPointer, Decimal128, Regex, Timestamp};

/// A value that owns its parts, documents and arrays as bytes.
#[derive(Clone, Debug, PartialEq)]
pub enum RawBson {
    /// A number of 64 bits in floating point.
    Double(f64),
    /// A text.
    String(String),
    /// An array.
    Array(RawArrayBuf),
    /// A document.
    Document(RawDocumentBuf),
    /// True or false.
    Boolean(bool),
    /// Nothing.
    Null,
    /// A regular expression.
    RegularExpression(Regex),
    /// Code.
    JavaScriptCode(String),
    /// Code with a document of its variables (deprecated).
    JavaScriptCodeWithScope(RawJavaScriptCodeWithScope),
    /// A whole number of 32 bits.
    Int32(i32),
    /// A whole number of 64 bits.
    Int64(i64),
    /// A time in seconds, with a number.
    Timestamp(Timestamp),
    /// Bytes with a subtype.
    Binary(Binary),
    /// An id of twelve bytes.
    ObjectId(ObjectId),
    /// A time in milliseconds.
    DateTime(DateTime),
    /// A text (deprecated).
    Symbol(String),
    /// A decimal number of 128 bits.
    Decimal128(Decimal128),
    /// Nothing (deprecated).
    Undefined,
    /// What is greater than any value.
    MaxKey,
    /// What is less than any value.
    MinKey,
    /// A namespace with an id (deprecated).
    DbPointer(DbPointer),
}

/// Declares the `as_..` of an owned value, each by that of the borrowed one.
macro_rules! accessors {
    ($($(#[$what:meta])* $name:ident -> $value:ty;)*) => {
        $(
            $(#[$what])*
            #[inline]
            pub fn $name(&self) -> Option<$value> {
                self.as_raw_bson_ref().$name()
            }
        )*
    };
}

impl RawBson {
    /// The type of the value.
    pub fn element_type(&self) -> ElementType {
        self.as_raw_bson_ref().element_type()
    }

    accessors! {
        /// The number, if it is a double.
        as_f64 -> f64;
        /// The text, if it is a string.
        as_str -> &str;
        /// The array, if it is one.
        as_array -> &RawArray;
        /// The document, if it is one.
        as_document -> &RawDocument;
        /// The boolean, if it is one.
        as_bool -> bool;
        /// The number, if it is one of 32 bits.
        as_i32 -> i32;
        /// The number, if it is one of 64 bits.
        as_i64 -> i64;
        /// The id, if it is one.
        as_object_id -> ObjectId;
        /// The bytes and their subtype, if it is a binary value.
        as_binary -> RawBinaryRef<'_>;
        /// The regular expression, if it is one.
        as_regex -> RawRegexRef<'_>;
        /// The time, if it is one in milliseconds.
        as_datetime -> DateTime;
        /// The text, if it is a symbol.
        as_symbol -> &str;
        /// The timestamp, if it is one.
        as_timestamp -> Timestamp;
        /// Whether it is null.
        as_null -> ();
        /// The namespace and its id, if it is a pointer.
        as_db_pointer -> RawDbPointerRef<'_>;
        /// The code, if it is code without a scope.
        as_javascript -> &str;
        /// The code and its scope, if it is code with one.
        as_javascript_with_scope -> RawJavaScriptCodeWithScopeRef<'_>;
    }

    /// The array, to be changed, if it is one.
    pub fn as_array_mut(&mut self) -> Option<&mut RawArrayBuf> {
        match self {
            RawBson::Array(array) => Some(array),
            _ => None,
        }
    }

    /// The document, to be changed, if it is one.
    pub fn as_document_mut(&mut self) -> Option<&mut RawDocumentBuf> {
        match self {
            RawBson::Document(document) => Some(document),
            _ => None,
        }
    }

    /// The same value, borrowed.
    #[inline(always)]
    pub fn as_raw_bson_ref(&self) -> RawBsonRef<'_> {
        match self {
            RawBson::Double(number) => RawBsonRef::Double(*number),
            RawBson::String(text) => RawBsonRef::String(text),
            RawBson::Array(array) => RawBsonRef::Array(array),
            RawBson::Document(document) => RawBsonRef::Document(document),
            RawBson::Boolean(is_true) => RawBsonRef::Boolean(*is_true),
            RawBson::Null => RawBsonRef::Null,
            RawBson::RegularExpression(regex) => {
                RawBsonRef::RegularExpression(RawRegexRef { pattern: &regex.pattern, options: &regex.options })
            }
            RawBson::JavaScriptCode(code) => RawBsonRef::JavaScriptCode(code),
            RawBson::JavaScriptCodeWithScope(code) => {
                RawBsonRef::JavaScriptCodeWithScope(RawJavaScriptCodeWithScopeRef {
                    code: &code.code,
                    scope: &code.scope,
                })
            }
            RawBson::Int32(number) => RawBsonRef::Int32(*number),
            RawBson::Int64(number) => RawBsonRef::Int64(*number),
            RawBson::Timestamp(time) => RawBsonRef::Timestamp(*time),
            RawBson::Binary(binary) => RawBsonRef::Binary(binary.as_raw_binary()),
            RawBson::ObjectId(id) => RawBsonRef::ObjectId(*id),
            RawBson::DateTime(time) => RawBsonRef::DateTime(*time),
            RawBson::Symbol(text) => RawBsonRef::Symbol(text),
            RawBson::Decimal128(decimal) => RawBsonRef::Decimal128(*decimal),
            RawBson::Undefined => RawBsonRef::Undefined,
            RawBson::MaxKey => RawBsonRef::MaxKey,
            RawBson::MinKey => RawBsonRef::MinKey,
            RawBson::DbPointer(pointer) => {
                RawBsonRef::DbPointer(RawDbPointerRef { namespace: &pointer.namespace, id: pointer.id })
            }
        }
    }
}

/// Makes an owned value of what has one kind alone.
macro_rules! from {
    ($($of:ty = $kind:ident;)*) => {
        $(
            impl From<$of> for RawBson {
                #[inline]
                fn from(value: $of) -> RawBson {
                    RawBson::$kind(value)
                }
            }
        )*
    };
}

from! {
    i32 = Int32;
    i64 = Int64;
    f64 = Double;
    bool = Boolean;
    String = String;
    RawDocumentBuf = Document;
    RawArrayBuf = Array;
    DateTime = DateTime;
    Timestamp = Timestamp;
    ObjectId = ObjectId;
    Decimal128 = Decimal128;
    Binary = Binary;
    Regex = RegularExpression;
    RawJavaScriptCodeWithScope = JavaScriptCodeWithScope;
    DbPointer = DbPointer;
}

impl From<&str> for RawBson {
    #[inline]
    fn from(text: &str) -> RawBson {
        RawBson::String(text.to_owned())
    }
}

impl From<RawBsonRef<'_>> for RawBson {
    fn from(value: RawBsonRef<'_>) -> RawBson {
        value.to_raw_bson()
    }
}

/// Code with a document of its variables, which owns both.
#[derive(Clone, Debug, PartialEq)]
pub struct RawJavaScriptCodeWithScope {
    /// The code.
    pub code: String,
    /// The variables.
    pub scope: RawDocumentBuf,
}
