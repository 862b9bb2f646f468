//! From bytes to values in memory, and back.

use super::{Error, ErrorKind, RawArray, RawArrayBuf, RawBson, RawBsonRef, RawDbPointerRef, RawDocument};
use super::{RawDocumentBuf, RawElement, RawJavaScriptCodeWithScope, RawRegexRef, Result};
use crate::document::LEVELS;
use crate::{Array, Bson, Document, JavaScriptCodeWithScope};

/// How many levels may be inside, where this many are allowed; it fails where none is.
fn inside(levels: usize) -> Result<usize> {
    levels.checked_sub(1).ok_or_else(|| Error::new(ErrorKind::malformed("more levels than allowed")))
}

/// The document of a view of at most `levels` levels. This is a loop, so that a level takes little of the stack.
fn document_of(view: &RawDocument, levels: usize) -> Result<Document> {
    let levels = inside(levels)?;
    let mut made = Document::new();
    for item in view {
        let (key, value) = item?;
        made.insert(key, value_of(value, levels)?);
    }
    Ok(made)
}

fn array_of(view: &RawArray, levels: usize) -> Result<Array> {
    let levels = inside(levels)?;
    let mut made = Array::new();
    for value in view {
        made.push(value_of(value?, levels)?);
    }
    Ok(made)
}

/// The value of a borrowed one, whose documents have at most `levels` levels.
fn value_of(value: RawBsonRef<'_>, levels: usize) -> Result<Bson> {
    Ok(match value {
        RawBsonRef::Document(document) => Bson::Document(document_of(document, levels)?),
        RawBsonRef::Array(array) => Bson::Array(array_of(array, levels)?),
        RawBsonRef::JavaScriptCodeWithScope(code) => Bson::JavaScriptCodeWithScope(JavaScriptCodeWithScope {
            code: code.code.to_owned(),
            scope: document_of(code.scope, levels)?,
        }),
        leaf => leaf_of(leaf.to_raw_bson()),
    })
}

/// The value of one that holds no document.
fn leaf_of(value: RawBson) -> Bson {
    match value {
        RawBson::Double(number) => Bson::Double(number),
        RawBson::String(text) => Bson::String(text),
        RawBson::Boolean(is_true) => Bson::Boolean(is_true),
        RawBson::Null => Bson::Null,
        RawBson::RegularExpression(regex) => Bson::RegularExpression(regex),
        RawBson::JavaScriptCode(code) => Bson::JavaScriptCode(code),
        RawBson::Int32(number) => Bson::Int32(number),
        RawBson::Int64(number) => Bson::Int64(number),
        RawBson::Timestamp(time) => Bson::Timestamp(time),
        RawBson::Binary(binary) => Bson::Binary(binary),
        RawBson::ObjectId(id) => Bson::ObjectId(id),
        RawBson::DateTime(time) => Bson::DateTime(time),
        RawBson::Symbol(text) => Bson::Symbol(text),
        RawBson::Decimal128(decimal) => Bson::Decimal128(decimal),
        RawBson::Undefined => Bson::Undefined,
        RawBson::MaxKey => Bson::MaxKey,
        RawBson::MinKey => Bson::MinKey,
        RawBson::DbPointer(pointer) => Bson::DbPointer(pointer),
        RawBson::Document(_) | RawBson::Array(_) | RawBson::JavaScriptCodeWithScope(_) => {
            unreachable!("a value that holds a document is no leaf")
        }
    }
}

/// Appends a value of a document, or says why it can't be.
fn append_to(made: &mut RawDocumentBuf, key: &str, value: &Bson) -> Result<()> {
    with_raw(value, |value| made.try_append_ref(key, value))
}

fn array_buf_of(values: &[Bson]) -> Result<RawArrayBuf> {
    let mut made = RawArrayBuf::new();
    for value in values {
        with_raw(value, |value| made.try_push_ref(value))?;
    }
    Ok(made)
}

/// Hands a value over, borrowed.
pub(crate) fn with_raw<T>(value: &Bson, take: impl FnOnce(RawBsonRef<'_>) -> Result<T>) -> Result<T> {
    let borrowed = match value {
        Bson::Document(document) => return take((&RawDocumentBuf::from_document(document)?).into()),
        Bson::Array(values) => return take((&array_buf_of(values)?).into()),
        Bson::JavaScriptCodeWithScope(code) => {
            let scope = RawDocumentBuf::from_document(&code.scope)?;
            let code = super::RawJavaScriptCodeWithScopeRef { code: &code.code, scope: &scope };
            return take(RawBsonRef::JavaScriptCodeWithScope(code));
        }
        Bson::Double(number) => RawBsonRef::Double(*number),
        Bson::String(text) => RawBsonRef::String(text),
        Bson::Boolean(is_true) => RawBsonRef::Boolean(*is_true),
        Bson::Null => RawBsonRef::Null,
        Bson::RegularExpression(regex) => {
            RawBsonRef::RegularExpression(RawRegexRef { pattern: &regex.pattern, options: &regex.options })
        }
        Bson::JavaScriptCode(code) => RawBsonRef::JavaScriptCode(code),
        Bson::Int32(number) => RawBsonRef::Int32(*number),
        Bson::Int64(number) => RawBsonRef::Int64(*number),
        Bson::Timestamp(time) => RawBsonRef::Timestamp(*time),
        Bson::Binary(binary) => RawBsonRef::Binary(binary.as_raw_binary()),
        Bson::ObjectId(id) => RawBsonRef::ObjectId(*id),
        Bson::DateTime(time) => RawBsonRef::DateTime(*time),
        Bson::Symbol(text) => RawBsonRef::Symbol(text),
        Bson::Decimal128(decimal) => RawBsonRef::Decimal128(*decimal),
        Bson::Undefined => RawBsonRef::Undefined,
        Bson::MaxKey => RawBsonRef::MaxKey,
        Bson::MinKey => RawBsonRef::MinKey,
        Bson::DbPointer(pointer) => {
            RawBsonRef::DbPointer(RawDbPointerRef { namespace: &pointer.namespace, id: pointer.id })
        }
    };
    take(borrowed)
}

impl RawDocument {
    /// The document in memory, each key once with its last value. The error is that of the first element without a value, depth first in
    /// the order of the bytes, or that there are more than 200 levels.
    pub fn to_document(&self) -> Result<Document> {
        document_of(self, LEVELS)
    }
}

impl RawDocumentBuf {
    /// The bytes of a document in memory. It fails where a 0 is in a key or in a regular expression, and where there would be more than
    /// 2147483647 bytes.
    ///
    /// ```
    /// use bsonraw::{doc, raw::RawDocumentBuf};
    ///
    /// let document = RawDocumentBuf::from_document(&doc! { "a": [true] })?;
    /// assert_eq!(document.get_array("a").unwrap().get_bool(0), Ok(true));
    /// assert!(RawDocumentBuf::from_document(&doc! { "a\0": 1 }).is_err());
    /// # Ok::<(), bsonraw::raw::Error>(())
    /// ```
    pub fn from_document(document: &Document) -> Result<RawDocumentBuf> {
        let mut made = RawDocumentBuf::new();
        for (key, value) in document {
            append_to(&mut made, key, value)?;
        }
        Ok(made)
    }

    /// The document in memory, as [`RawDocument::to_document`] says.
    ///
    /// ```
    /// use bsonraw::{doc, rawdoc};
    ///
    /// let document = rawdoc! { "a": { "b": 1 } };
    /// assert_eq!(document.to_document()?, doc! { "a": { "b": 1 } });
    /// # Ok::<(), bsonraw::raw::Error>(())
    /// ```
    pub fn to_document(&self) -> Result<Document> {
        (**self).to_document()
    }
}

/// Declares conversions that may fail.
macro_rules! try_from {
    ($($from:ty => $to:ty, $value:ident $given:expr;)*) => {
        $(
            impl TryFrom<$from> for $to {
                type Error = Error;

                fn try_from($value: $from) -> Result<$to> {
                    $given
                }
            }
        )*
    };
}

try_from! {
    &RawDocument => Document, view view.to_document();
    RawDocumentBuf => Document, document document.to_document();
    &Document => RawDocumentBuf, document RawDocumentBuf::from_document(document);
    &RawArray => Array, view array_of(view, LEVELS);
    RawBsonRef<'_> => Bson, value value_of(value, LEVELS);
    RawElement<'_> => Bson, element element.value()?.try_into();
    RawBson => Bson, value match value {
        RawBson::Document(document) => Ok(Bson::Document(document.to_document()?)),
        RawBson::Array(array) => Ok(Bson::Array(array.as_ref().try_into()?)),
        RawBson::JavaScriptCodeWithScope(code) => Ok(Bson::JavaScriptCodeWithScope(JavaScriptCodeWithScope {
            code: code.code,
            scope: code.scope.to_document()?,
        })),
        leaf => Ok(leaf_of(leaf)),
    };
    Bson => RawBson, value match value {
        Bson::Document(document) => Ok(RawBson::Document(RawDocumentBuf::from_document(&document)?)),
        Bson::Array(values) => Ok(RawBson::Array(array_buf_of(&values)?)),
        Bson::JavaScriptCodeWithScope(code) => Ok(RawBson::JavaScriptCodeWithScope(RawJavaScriptCodeWithScope {
            scope: RawDocumentBuf::from_document(&code.scope)?,
            code: code.code,
        })),
        Bson::String(text) => Ok(RawBson::String(text)),
        Bson::RegularExpression(regex) => Ok(RawBson::RegularExpression(regex)),
        Bson::Binary(binary) => Ok(RawBson::Binary(binary)),
        leaf => with_raw(&leaf, |leaf| Ok(leaf.to_raw_bson())),
    };
}
