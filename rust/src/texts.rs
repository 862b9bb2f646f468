//! Documents from Extended JSON.

use std::fmt;

use crate::ffi;
use crate::raw::RawDocumentBuf;
use crate::sys::*;
use crate::whole::Limits;

/// Why a text isn't read as a document, and where.
#[derive(Clone, Copy, Debug, Eq, PartialEq)]
#[non_exhaustive]
pub struct JsonError {
    /// Why.
    pub reason: JsonReason,
    /// How many bytes of the text are before the place.
    pub offset: usize,
    /// The number of its line, from 1 on.
    pub line: usize,
    /// The number of its character in the line, from 1 on.
    pub column: usize,
}

/// Why a text isn't read.
#[derive(Clone, Copy, Debug, Eq, PartialEq)]
#[non_exhaustive]
pub enum JsonReason {
    /// The library was refused memory.
    OutOfMemory,
    /// The document would have more bytes than allowed.
    TooManyBytes,
    /// There would be more levels than allowed.
    TooDeep,
    /// An object has the key of this wrapper, and isn't one.
    Malformed(&'static str),
    /// The text ends inside the document.
    EndOfText,
    /// A byte order mark is at the front.
    ByteOrderMark,
    /// Another value than a document.
    ExpectedDocument,
    /// No key in quotes is where one has to be.
    ExpectedKey,
    /// No colon is where one has to be.
    ExpectedColon,
    /// No comma, nor the end of the object or array.
    ExpectedComma,
    /// No value is where one has to be.
    ExpectedValue,
    /// The text goes on after the document.
    TextBehind,
    /// No number as JSON writes them.
    BadNumber,
    /// An integer of more than 64 bits.
    IntegerTooLarge,
    /// A number beyond the greatest double.
    NumberTooLarge,
    /// A control character in a string, which has to be escaped.
    ControlCharacter,
    /// No escape of JSON.
    BadEscape,
    /// Half a surrogate pair.
    LoneSurrogate,
    /// U+0000 in a key, a pattern or options.
    InteriorNul,
    /// No Decimal128 is exactly this decimal.
    InexactDecimal,
}

/// The keys of wrappers, by their numbers.
const WRAPPERS: [&str; 17] = [
    "$oid",
    "$numberInt",
    "$numberLong",
    "$numberDouble",
    "$numberDecimal",
    "$binary",
    "$uuid",
    "$date",
    "$regularExpression",
    "$timestamp",
    "$code",
    "$scope",
    "$dbPointer",
    "$symbol",
    "$undefined",
    "$minKey",
    "$maxKey",
];

impl JsonReason {
    fn of(status: i32, said: &bsonraw_json_report) -> JsonReason {
        match status {
            BSONRAW_NO_MEMORY => return JsonReason::OutOfMemory,
            BSONRAW_TOO_MANY_BYTES => return JsonReason::TooManyBytes,
            BSONRAW_TOO_DEEP => return JsonReason::TooDeep,
            _ => {}
        }
        match said.json_reason {
            BSONRAW_JSON_END_OF_TEXT => JsonReason::EndOfText,
            BSONRAW_JSON_BYTE_ORDER_MARK => JsonReason::ByteOrderMark,
            BSONRAW_JSON_EXPECTED_DOCUMENT => JsonReason::ExpectedDocument,
            BSONRAW_JSON_EXPECTED_KEY => JsonReason::ExpectedKey,
            BSONRAW_JSON_EXPECTED_COLON => JsonReason::ExpectedColon,
            BSONRAW_JSON_EXPECTED_COMMA => JsonReason::ExpectedComma,
            BSONRAW_JSON_EXPECTED_VALUE => JsonReason::ExpectedValue,
            BSONRAW_JSON_TEXT_BEHIND => JsonReason::TextBehind,
            BSONRAW_JSON_BAD_NUMBER => JsonReason::BadNumber,
            BSONRAW_JSON_INTEGER_TOO_LARGE => JsonReason::IntegerTooLarge,
            BSONRAW_JSON_NUMBER_TOO_LARGE => JsonReason::NumberTooLarge,
            BSONRAW_JSON_CONTROL_CHARACTER => JsonReason::ControlCharacter,
            BSONRAW_JSON_BAD_ESCAPE => JsonReason::BadEscape,
            BSONRAW_JSON_LONE_SURROGATE => JsonReason::LoneSurrogate,
            BSONRAW_JSON_INTERIOR_NUL => JsonReason::InteriorNul,
            BSONRAW_JSON_INEXACT_DECIMAL => JsonReason::InexactDecimal,
            BSONRAW_JSON_MALFORMED => {
                let number = said.wrapper.saturating_sub(1) as usize;
                JsonReason::Malformed(WRAPPERS.get(number).copied().unwrap_or_default())
            }
            // the reasons are those of bsonraw.h, and a &str is UTF-8
            other => unreachable!("reason {other}"),
        }
    }
}

impl fmt::Display for JsonReason {
    fn fmt(&self, f: &mut fmt::Formatter<'_>) -> fmt::Result {
        f.write_str(match self {
            JsonReason::Malformed(key) => return write!(f, "a malformed {key}"),
            JsonReason::OutOfMemory => "out of memory",
            JsonReason::TooManyBytes => "more bytes than allowed",
            JsonReason::TooDeep => "deeper than allowed",
            JsonReason::EndOfText => "the text ends too early",
            JsonReason::ByteOrderMark => "a byte order mark in front of the text",
            JsonReason::ExpectedDocument => "expected a document",
            JsonReason::ExpectedKey => "expected a key in quotes",
            JsonReason::ExpectedColon => "expected a colon",
            JsonReason::ExpectedComma => "expected a comma or the end of the object or array",
            JsonReason::ExpectedValue => "expected a value",
            JsonReason::TextBehind => "text after the document",
            JsonReason::BadNumber => "not a number of JSON",
            JsonReason::IntegerTooLarge => "an integer of more than 64 bits",
            JsonReason::NumberTooLarge => "a number beyond the greatest double",
            JsonReason::ControlCharacter => "a control character that is not escaped",
            JsonReason::BadEscape => "not an escape of JSON",
            JsonReason::LoneSurrogate => "half a surrogate pair",
            JsonReason::InteriorNul => "U+0000 in a key, a pattern or options",
            JsonReason::InexactDecimal => "a decimal that no Decimal128 is exactly",
        })
    }
}

impl fmt::Display for JsonError {
    fn fmt(&self, f: &mut fmt::Formatter<'_>) -> fmt::Result {
        write!(f, "line {}, column {}: {}", self.line, self.column, self.reason)
    }
}

impl std::error::Error for JsonError {}

impl RawDocumentBuf {
    /// The document that a text of MongoDB Extended JSON v2 writes, canonical or relaxed.
    ///
    /// ```
    /// use bsonraw::raw::RawDocumentBuf;
    /// use bsonraw::whole::JsonReason;
    ///
    /// let document = RawDocumentBuf::from_json(r#"{"a": 1}"#)?;
    /// assert_eq!(document.get_i32("a")?, 1);
    /// let error = RawDocumentBuf::from_json("{\n \"a\": tru}").unwrap_err();
    /// assert_eq!((error.reason, error.line, error.column), (JsonReason::ExpectedValue, 2, 7));
    /// # Ok::<(), Box<dyn std::error::Error>>(())
    /// ```
    pub fn from_json(text: &str) -> Result<RawDocumentBuf, JsonError> {
        RawDocumentBuf::from_json_with(text, Limits::default())
    }

    /// [`from_json`](RawDocumentBuf::from_json) within these limits.
    pub fn from_json_with(text: &str, limits: Limits) -> Result<RawDocumentBuf, JsonError> {
        let (status, said, made) = ffi::from_json(text.as_bytes(), limits.max_bytes, limits.max_depth);
        if status == BSONRAW_OK {
            return Ok(RawDocumentBuf::of_made(made));
        }
        Err(JsonError {
            reason: JsonReason::of(status, &said),
            offset: said.offset as usize,
            line: said.line as usize,
            column: said.column as usize,
        })
    }
}
