//! Errors: that bytes are no value or no document, and that a look-up doesn't find what is asked for.

use std::fmt;
use std::str::Utf8Error;

use crate::ffi::{Frame, Stop};
use crate::spec::ElementType;
use crate::sys::*;

/// What is wrong with bytes that are read, or with what is to be appended.
#[derive(Clone, Debug, PartialEq)]
#[non_exhaustive]
pub struct Error {
    /// What kind of error it is.
    pub kind: ErrorKind,

    pub(crate) key: Option<String>,
}

/// The result of reading, or of an append.
pub type Result<T> = std::result::Result<T, Error>;

/// The kinds of errors.
#[derive(Clone, Debug, PartialEq)]
#[non_exhaustive]
pub enum ErrorKind {
    /// Bytes, or what is to be appended, aren't as the format asks.
    #[non_exhaustive]
    MalformedValue {
        /// Why.
        message: String,
    },

    /// Bytes that have to be UTF-8 aren't.
    Utf8EncodingError(Utf8Error),
}

impl ErrorKind {
    /// That something is malformed for this reason.
    pub(crate) fn malformed(message: &str) -> ErrorKind {
        ErrorKind::MalformedValue { message: message.to_owned() }
    }

    /// What the library said of these bytes.
    pub(crate) fn of(bytes: &[u8], error: &bsonraw_error) -> ErrorKind {
        if error.kind == BSONRAW_NOT_UTF8 {
            not_utf8(bytes, error.offset as usize)
        } else {
            ErrorKind::MalformedValue { message: message(error) }
        }
    }
}

impl Error {
    pub(crate) fn new(kind: ErrorKind) -> Error {
        Error { kind, key: None }
    }

    /// That bytes are no document.
    #[cold]
    pub(crate) fn of_envelope(error: &bsonraw_error) -> Error {
        Error::new(ErrorKind::MalformedValue { message: message(error) })
    }

    /// That a document's elements stop.
    #[cold]
    pub(crate) fn of_stop(document: &[u8], stop: &Stop<'_>) -> Error {
        Error {
            kind: ErrorKind::of(document, &stop.error),
            key: stop.key.map(|key| String::from_utf8_lossy(key).into_owned()),
        }
    }

    /// That an element has no value. What is wrong inside a code with scope comes without the element's key, and so do texts
    /// that aren't UTF-8.
    #[cold]
    pub(crate) fn of_value(frame: &Frame<'_>, error: &bsonraw_error) -> Error {
        let has_key = matches!(
            error.reason,
            BSONRAW_BAD_BOOLEAN | BSONRAW_OLD_NO_INNER | BSONRAW_OLD_WRONG_INNER | BSONRAW_CODE_TOO_SMALL
        );
        Error { kind: ErrorKind::of(frame.document(), error), key: has_key.then(|| frame.key().to_owned()) }
    }

    /// The key at which the error is, if it has one.
    pub fn key(&self) -> Option<&str> {
        self.key.as_deref()
    }
}

/// Why something is malformed, in words.
fn message(error: &bsonraw_error) -> String {
    let (number, left) = (error.number, error.left);
    let text = match error.reason {
        BSONRAW_TOO_SHORT => "document too short",
        BSONRAW_LENGTH_INCORRECT => "document length incorrect",
        BSONRAW_NOT_TERMINATED => "document not null-terminated",
        BSONRAW_OVERFLOWED => "iteration overflowed document",
        BSONRAW_INVALID_TAG => return format!("invalid tag: {number}"),
        BSONRAW_STRING_HEAD_SHORT => {
            return format!("expected buffer with string to contain at least 4 bytes, but it only has {left}")
        }
        BSONRAW_NEGATIVE_LENGTH => "lengths can't be negative",
        BSONRAW_STRING_TOO_SMALL => "BSON length encoded string needs to be at least 5 bytes, instead got 4",
        BSONRAW_STRING_PAST_END => {
            return format!("expected buffer to contain at least {number} bytes, but it only has {left}")
        }
        BSONRAW_STRING_NOT_TERMINATED => "expected string to be null-terminated",
        BSONRAW_PAST_END => return format!("length exceeds remaining length of buffer: {number} vs {left}"),
        BSONRAW_DOCUMENT_TOO_SMALL => return format!("document too small: {number} bytes"),
        BSONRAW_NESTED_NOT_TERMINATED => "not null terminated",
        BSONRAW_LENGTH_HEAD_SHORT => return format!("expected 4 bytes to read i32, instead got {left}"),
        BSONRAW_NO_TERMINATOR => "expected null terminator",
        BSONRAW_BAD_BOOLEAN => return format!("boolean must be stored as 0 or 1, got {number}"),
        BSONRAW_OLD_NO_INNER => "old binary subtype has no inner declared length",
        BSONRAW_ADD_OVERFLOW => "attempted to add with overflow",
        BSONRAW_OLD_WRONG_INNER => "old binary subtype has wrong inner declared length",
        BSONRAW_CODE_TOO_SMALL => "code with scope length too small",
        other => return format!("reason {other}"),
    };
    text.to_string()
}

/// The bytes up to the first 0.
fn up_to_0(bytes: &[u8]) -> &[u8] {
    bytes.split(|byte| *byte == 0).next().unwrap_or_default()
}

/// The text of a string at the front of these bytes.
fn string_text(bytes: &[u8]) -> &[u8] {
    let len = bytes.first_chunk().map_or(0, |len| u32::from_le_bytes(*len) as usize);
    bytes.get(4..(4 + len).saturating_sub(1)).unwrap_or_default()
}

/// Where a text of the element at this offset stops being UTF-8: its key, or the first text of its payload that isn't UTF-8.
fn not_utf8(bytes: &[u8], offset: usize) -> ErrorKind {
    let element = bytes.get(offset..).unwrap_or_default();
    let key = up_to_0(element.get(1..).unwrap_or_default());
    let payload = element.get(key.len() + 2..).unwrap_or_default();
    let (one, two) = match element.first().copied().and_then(ElementType::from) {
        Some(ElementType::RegularExpression) => {
            let pattern = up_to_0(payload);
            (pattern, up_to_0(payload.get(pattern.len() + 1..).unwrap_or_default()))
        }
        Some(ElementType::JavaScriptCodeWithScope) => (string_text(payload.get(4..).unwrap_or_default()), &[][..]),
        _ => (string_text(payload), &[][..]),
    };
    [key, one, two]
        .into_iter()
        .find_map(|text| std::str::from_utf8(text).err())
        .map_or_else(|| ErrorKind::malformed("a text isn't UTF-8"), ErrorKind::Utf8EncodingError)
}

impl fmt::Display for ErrorKind {
    fn fmt(&self, f: &mut fmt::Formatter<'_>) -> fmt::Result {
        match self {
            ErrorKind::MalformedValue { message } => write!(f, "malformed value: {message:?}"),
            ErrorKind::Utf8EncodingError(error) => write!(f, "utf-8 encoding error: {error}"),
        }
    }
}

impl fmt::Display for Error {
    fn fmt(&self, f: &mut fmt::Formatter<'_>) -> fmt::Result {
        if let Some(key) = &self.key {
            write!(f, "error at key \"{key}\": ")?;
        }
        self.kind.fmt(f)
    }
}

impl std::error::Error for Error {}

/// Why a getter, such as [`get_i32`](crate::raw::RawDocument::get_i32), doesn't find what is asked for.
#[derive(Clone, Debug, PartialEq)]
#[non_exhaustive]
pub struct ValueAccessError {
    /// What kind of error it is.
    pub kind: ValueAccessErrorKind,

    pub(crate) key: String,
}

/// The result of a getter.
pub type ValueAccessResult<T> = std::result::Result<T, ValueAccessError>;

/// The kinds of errors of a getter.
#[derive(Clone, Debug, PartialEq)]
#[non_exhaustive]
pub enum ValueAccessErrorKind {
    /// No element has the key.
    NotPresent,

    /// The element has a value of another type.
    #[non_exhaustive]
    UnexpectedType {
        /// The type that is asked for.
        expected: ElementType,

        /// The type of the value.
        actual: ElementType,
    },

    /// The element has no value, or none has the key up to a fault.
    InvalidBson(Error),
}

impl ValueAccessError {
    /// The key that was asked for; in an array the number.
    pub fn key(&self) -> &str {
        &self.key
    }
}

impl fmt::Display for ValueAccessError {
    fn fmt(&self, f: &mut fmt::Formatter<'_>) -> fmt::Result {
        write!(f, "error at key: \"{}\": ", self.key)?;
        match &self.kind {
            ValueAccessErrorKind::NotPresent => f.write_str("value not present"),
            ValueAccessErrorKind::UnexpectedType { expected, actual } => {
                write!(f, " unexpected element type: {actual:?}, expected: {expected:?}")
            }
            ValueAccessErrorKind::InvalidBson(error) => write!(f, ": {error}"),
        }
    }
}

impl std::error::Error for ValueAccessError {}
