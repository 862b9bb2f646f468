//! Values that own their parts.

use std::fmt;

use crate::oid::ObjectId;
use crate::raw::{RawBinaryRef, RawRegexRef};
use crate::spec::BinarySubtype;
use crate::Document;

/// A time in seconds, and a number among those of that time.
#[derive(Clone, Copy, Debug, Eq, Hash, Ord, PartialEq, PartialOrd)]
pub struct Timestamp {
    /// Seconds from the beginning of 1970 on.
    pub time: u32,
    /// The number among those of this time.
    pub increment: u32,
}

impl fmt::Display for Timestamp {
    fn fmt(&self, f: &mut fmt::Formatter<'_>) -> fmt::Result {
        write!(f, "Timestamp({}, {})", self.time, self.increment)
    }
}

/// Bytes with a subtype.
#[derive(Clone, Debug, Eq, Hash, PartialEq)]
pub struct Binary {
    /// What the bytes are.
    pub subtype: BinarySubtype,
    /// The bytes.
    pub bytes: Vec<u8>,
}

impl Binary {
    /// The same value, borrowed.
    pub fn as_raw_binary(&self) -> RawBinaryRef<'_> {
        RawBinaryRef { subtype: self.subtype, bytes: &self.bytes }
    }
}

/// As the crate `bson` prints it: the subtype in hex and the bytes in Base64, `Binary(0x0, AQI=)`.
impl fmt::Display for Binary {
    fn fmt(&self, f: &mut fmt::Formatter<'_>) -> fmt::Result {
        write!(f, "Binary({:#x}, {})", u8::from(self.subtype), Base64(&self.bytes))
    }
}

/// The digits of Base64.
const DIGITS: &[u8; 64] = b"ABCDEFGHIJKLMNOPQRSTUVWXYZabcdefghijklmnopqrstuvwxyz0123456789+/";

/// The bytes that a text of Base64 writes.
pub(crate) fn from_base64(text: &str) -> Option<Vec<u8>> {
    let digits = text.trim_end_matches('=');
    if text.len() % 4 != 0 || text.len() - digits.len() > 2 {
        return None;
    }
    let mut bytes = Vec::new();
    let (mut number, mut bits) = (0_u32, 0);
    for digit in digits.bytes() {
        let value = DIGITS.iter().position(|it| *it == digit)?;
        number = (number << 6 | value as u32) & 0xFFFF;
        bits += 6;
        if bits >= 8 {
            bits -= 8;
            bytes.push((number >> bits) as u8);
        }
    }
    Some(bytes)
}

/// Bytes that are printed in Base64.
pub(crate) struct Base64<'a>(pub(crate) &'a [u8]);

impl fmt::Display for Base64<'_> {
    fn fmt(&self, f: &mut fmt::Formatter<'_>) -> fmt::Result {
        for three in self.0.chunks(3) {
            let number = (0..3).fold(0, |number, at| number << 8 | three.get(at).map_or(0, |byte| u32::from(*byte)));
            for digit in 0..4 {
                let value = number >> (18 - 6 * digit) & 63;
                write!(f, "{}", if digit > three.len() { '=' } else { char::from(DIGITS[value as usize]) })?;
            }
        }
        Ok(())
    }
}

/// A regular expression.
#[derive(Clone, Debug, Eq, Hash, PartialEq)]
pub struct Regex {
    /// The pattern.
    pub pattern: String,
    /// The options, a letter each.
    pub options: String,
}

impl Regex {
    /// The regular expression of this pattern and these options, which are put in ascending order.
    ///
    /// ```
    /// assert_eq!(bsonraw::Regex::new("^a", "xi").options, "ix");
    /// ```
    pub fn new(pattern: impl AsRef<str>, options: impl AsRef<str>) -> Regex {
        Regex::sorted(RawRegexRef { pattern: pattern.as_ref(), options: options.as_ref() })
    }

    /// A copy of a borrowed regular expression, with its options in ascending order.
    pub(crate) fn sorted(regex: RawRegexRef<'_>) -> Regex {
        let mut options: Vec<char> = regex.options.chars().collect();
        options.sort_unstable();
        Regex { pattern: regex.pattern.into(), options: options.into_iter().collect() }
    }
}

/// As the crate `bson` prints it: `/^a/ix`.
impl fmt::Display for Regex {
    fn fmt(&self, f: &mut fmt::Formatter<'_>) -> fmt::Result {
        write!(f, "/{}/{}", self.pattern, self.options)
    }
}

/// Code with a document of its variables, in memory.
#[derive(Clone, Debug, PartialEq)]
pub struct JavaScriptCodeWithScope {
    /// The code.
    pub code: String,
    /// The variables.
    pub scope: Document,
}

/// The code alone.
impl fmt::Display for JavaScriptCodeWithScope {
    fn fmt(&self, f: &mut fmt::Formatter<'_>) -> fmt::Result {
        f.write_str(&self.code)
    }
}

/// A namespace with an id.
#[derive(Clone, Debug, Eq, Hash, PartialEq)]
pub struct DbPointer {
    pub(crate) namespace: String,
    pub(crate) id: ObjectId,
}
