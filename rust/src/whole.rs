//! Calls over all levels of a document, within limits; and documents one after the other.
//!
//! ```
//! use bsonraw::whole::{Cause, ProblemKind};
//! use bsonraw::{raw::RawDocument, rawdoc};
//!
//! let document = rawdoc! { "a": { "b": [1, 2] } };
//! assert_eq!(document.validate(), Ok(()));
//! assert_eq!(document.canonical()?, document);
//!
//! let repeated = RawDocument::from_bytes(b"\x13\0\0\0\x10a\0\x01\0\0\0\x10a\0\x02\0\0\0\0")?;
//! let problem = repeated.validate().unwrap_err();
//! assert_eq!(problem.kind, ProblemKind::NotCanonical(Cause::RepeatedKey));
//! assert_eq!(problem.place.unwrap().path, [1]);
//!
//! let damaged = RawDocument::from_bytes(b"\x09\0\0\0\x08a\0\x02\0")?;
//! let problem = damaged.first_fault().unwrap();
//! assert_eq!(problem.to_string(), "at /0:\"a\", byte 4: malformed value: \"boolean must be stored as 0 or 1, got 2\"");
//! # Ok::<(), Box<dyn std::error::Error>>(())
//! ```

use std::fmt;

use crate::ffi::{self, Flat, Report};
use crate::raw::{Error, ErrorKind, RawDocument, RawDocumentBuf, RawElement};
use crate::sys::*;

pub use crate::read::{DocumentReader, ReadError};
pub use crate::texts::{JsonError, JsonReason};

/// How large a document may be: a call over all levels refuses a larger one.
#[derive(Clone, Copy, Debug, Eq, PartialEq)]
pub struct Limits {
    /// How many bytes it may have.
    pub max_bytes: usize,
    /// How many levels it may have, of which it is one itself.
    pub max_depth: usize,
}

impl Default for Limits {
    /// 16 MiB and 500 levels.
    fn default() -> Limits {
        Limits { max_bytes: 16 << 20, max_depth: 500 }
    }
}

/// What is in the way of a call over all levels, and where: the first that is met, depth first in the order of the bytes.
#[derive(Clone, Debug, PartialEq)]
#[non_exhaustive]
pub struct Problem {
    /// What it is.
    pub kind: ProblemKind,
    /// The element that has it, or where one should begin. What concerns the whole document has no place.
    pub place: Option<Place>,
}

/// What is in the way.
#[derive(Clone, Debug, PartialEq)]
#[non_exhaustive]
pub enum ProblemKind {
    /// A fault.
    Fault(ErrorKind),
    /// The document isn't canonical.
    NotCanonical(Cause),
    /// There are more levels than allowed: the element at the place holds one too many.
    TooDeep,
    /// There are more bytes than allowed.
    TooManyBytes,
    /// The canonical form would have more than 2147483647 bytes.
    TooLong,
    /// The library was refused memory.
    OutOfMemory,
}

/// Why a document isn't canonical.
#[derive(Clone, Copy, Debug, Eq, Hash, PartialEq)]
#[non_exhaustive]
pub enum Cause {
    /// No element is there, and not the end either.
    Stop,
    /// The payload is no value of its kind.
    Value,
    /// An earlier element of the same document has this key.
    RepeatedKey,
    /// The key isn't the decimal of the element's number in its array.
    ArrayKey,
    /// The options of a regular expression aren't in ascending order.
    Options,
}

impl Cause {
    fn of(number: u32) -> Cause {
        match number {
            BSONRAW_REPEATED_KEY => Cause::RepeatedKey,
            BSONRAW_ARRAY_KEY => Cause::ArrayKey,
            BSONRAW_OPTIONS => Cause::Options,
            BSONRAW_VALUE => Cause::Value,
            _ => Cause::Stop,
        }
    }
}

impl fmt::Display for Cause {
    fn fmt(&self, f: &mut fmt::Formatter<'_>) -> fmt::Result {
        f.write_str(match self {
            Cause::Stop => "no element is there, and not the end either",
            Cause::Value => "the payload is no value of its kind",
            Cause::RepeatedKey => "an earlier element has this key",
            Cause::ArrayKey => "the key isn't the element's number in its array",
            Cause::Options => "the options aren't in ascending order",
        })
    }
}

/// The place of an element, or where one should begin.
#[derive(Clone, Debug, Eq, Hash, PartialEq)]
pub struct Place {
    /// The number of the element in each level, from the outermost on and from 0 on.
    pub path: Vec<usize>,
    /// How many bytes are before it.
    pub offset: usize,
    /// Its key, if it has one.
    pub key: Option<String>,
}

impl fmt::Display for Place {
    fn fmt(&self, f: &mut fmt::Formatter<'_>) -> fmt::Result {
        self.path.iter().try_for_each(|number| write!(f, "/{number}"))?;
        if let Some(key) = &self.key {
            write!(f, ":{key:?}")?;
        }
        write!(f, ", byte {}", self.offset)
    }
}

impl fmt::Display for ProblemKind {
    fn fmt(&self, f: &mut fmt::Formatter<'_>) -> fmt::Result {
        match self {
            ProblemKind::Fault(kind) => kind.fmt(f),
            ProblemKind::NotCanonical(cause) => write!(f, "not canonical: {cause}"),
            ProblemKind::TooDeep => f.write_str("more levels than allowed"),
            ProblemKind::TooManyBytes => f.write_str("more bytes than allowed"),
            ProblemKind::TooLong => f.write_str("the form would be too long"),
            ProblemKind::OutOfMemory => f.write_str("out of memory"),
        }
    }
}

impl fmt::Display for Problem {
    fn fmt(&self, f: &mut fmt::Formatter<'_>) -> fmt::Result {
        if let Some(place) = &self.place {
            write!(f, "at {place}: ")?;
        }
        self.kind.fmt(f)
    }
}

impl std::error::Error for Problem {}

/// What the library reported of a document, which has an envelope: nothing, or a problem.
fn outcome(bytes: &[u8], report: &Report) -> Result<(), Problem> {
    let said = &report.said;
    let (kind, has_place) = match report.status {
        BSONRAW_OK => return Ok(()),
        BSONRAW_BREACH => (ProblemKind::NotCanonical(Cause::of(said.cause)), true),
        BSONRAW_TOO_DEEP => (ProblemKind::TooDeep, true),
        BSONRAW_TOO_MANY_BYTES => (ProblemKind::TooManyBytes, false),
        BSONRAW_TOO_LONG => (ProblemKind::TooLong, false),
        BSONRAW_NO_MEMORY => (ProblemKind::OutOfMemory, false),
        _ => (ProblemKind::Fault(ErrorKind::of(bytes, &said.error)), true),
    };
    let place = has_place.then(|| Place {
        path: report.path.iter().map(|number| *number as usize).collect(),
        offset: said.error.offset as usize,
        key: (said.has_key != 0).then(|| {
            let key = &bytes[said.key_at as usize..][..said.key_len as usize];
            String::from_utf8_lossy(key).into_owned()
        }),
    });
    Err(Problem { kind, place })
}

/// How a document is written as Extended JSON; by default relaxed, on one line.
#[derive(Clone, Copy, Debug, Default, Eq, PartialEq)]
pub struct JsonStyle {
    /// With the kind of each value, so that nothing is lost.
    pub canonical: bool,
    /// With a line for each member.
    pub indented: bool,
}

/// An element of any level. That it has a value, and each in it, is checked already.
#[derive(Clone, Copy, Debug)]
pub struct Token<'a> {
    /// The element.
    pub element: RawElement<'a>,
    /// How deep it is: 0 in the document itself.
    pub depth: usize,
    /// How many tokens are inside: the next element of its level is `1 + inside` tokens further on.
    pub inside: usize,
}

impl<'a> Token<'a> {
    fn of(flat: Flat<'a>) -> Token<'a> {
        Token { element: RawElement::new(flat.frame), depth: flat.depth, inside: flat.inside }
    }
}

/// Each call has limits, those of [`Limits::default`] where none are given.
impl RawDocument {
    /// The first fault at any level, or what is in the way of looking for it.
    pub fn first_fault(&self) -> Option<Problem> {
        self.first_fault_with(Limits::default())
    }

    /// [`first_fault`](RawDocument::first_fault) within these limits.
    pub fn first_fault_with(&self, limits: Limits) -> Option<Problem> {
        let report = ffi::first_fault(self.as_bytes(), limits.max_bytes, limits.max_depth);
        outcome(self.as_bytes(), &report).err()
    }

    /// Whether the document is canonical: has no fault at any level, no key twice, the numbers of elements as keys in arrays, and options
    /// of regular expressions in ascending order.
    pub fn validate(&self) -> Result<(), Problem> {
        self.validate_with(Limits::default())
    }

    /// [`validate`](RawDocument::validate) within these limits.
    pub fn validate_with(&self, limits: Limits) -> Result<(), Problem> {
        let report = ffi::check(self.as_bytes(), limits.max_bytes, limits.max_depth);
        outcome(self.as_bytes(), &report)
    }

    /// The canonical form: two documents have the same exactly where they are read as the same ordered tree. A repeated key has its
    /// last value in its first place.
    pub fn canonical(&self) -> Result<RawDocumentBuf, Problem> {
        self.canonical_with(Limits::default())
    }

    /// [`canonical`](RawDocument::canonical) within these limits.
    pub fn canonical_with(&self, limits: Limits) -> Result<RawDocumentBuf, Problem> {
        let (report, form) = ffi::canonical(self.as_bytes(), limits.max_bytes, limits.max_depth);
        outcome(self.as_bytes(), &report)?;
        Ok(RawDocumentBuf::of_made(form))
    }

    /// The elements of all levels, depth first in the order of the bytes.
    ///
    /// ```
    /// let document = bsonraw::rawdoc! { "a": { "b": 1 }, "c": 2 };
    /// let tokens = document.flatten()?;
    /// let keys: Vec<_> = tokens.iter().map(|token| (token.depth, token.element.key())).collect();
    /// assert_eq!(keys, [(0, "a"), (1, "b"), (0, "c")]);
    /// # Ok::<(), bsonraw::whole::Problem>(())
    /// ```
    pub fn flatten(&self) -> Result<Vec<Token<'_>>, Problem> {
        self.flatten_with(Limits::default())
    }

    /// [`flatten`](RawDocument::flatten) within these limits.
    pub fn flatten_with(&self, limits: Limits) -> Result<Vec<Token<'_>>, Problem> {
        let (report, tokens) = ffi::flatten(self.as_bytes(), limits.max_bytes, limits.max_depth);
        outcome(self.as_bytes(), &report)?;
        Ok(tokens.into_iter().map(Token::of).collect())
    }

    /// The document as MongoDB Extended JSON v2, relaxed and on one line. Each element is written as it is, repeated keys too.
    ///
    /// ```
    /// use bsonraw::whole::{JsonStyle, Limits};
    ///
    /// let document = bsonraw::rawdoc! { "a": [1, null] };
    /// assert_eq!(document.to_json()?, r#"{"a":[1,null]}"#);
    /// let style = JsonStyle { canonical: true, ..JsonStyle::default() };
    /// let text = document.to_json_with(Limits::default(), style)?;
    /// assert_eq!(text, r#"{"a":[{"$numberInt":"1"},null]}"#);
    /// # Ok::<(), bsonraw::whole::Problem>(())
    /// ```
    pub fn to_json(&self) -> Result<String, Problem> {
        self.to_json_with(Limits::default(), JsonStyle::default())
    }

    /// [`to_json`](RawDocument::to_json) within these limits, in this style.
    pub fn to_json_with(&self, limits: Limits, style: JsonStyle) -> Result<String, Problem> {
        let (report, text) =
            ffi::json(self.as_bytes(), limits.max_bytes, limits.max_depth, style.canonical, style.indented);
        outcome(self.as_bytes(), &report)?;
        Ok(String::from_utf8(text).unwrap_or_else(|text| String::from_utf8_lossy(text.as_bytes()).into_owned()))
    }
}

/// What a search after damage found.
#[derive(Clone, Copy, Debug, Eq, PartialEq)]
#[non_exhaustive]
pub struct Resync {
    /// The length of the damaged document is believed, and what is after it is next.
    pub is_believed: bool,
    /// A place wasn't looked at, since that could have cost too much.
    pub left_out: bool,
}

/// Documents one after the other, as in a dump, each with the offset where it begins. Damage inside of one isn't looked at. After one
/// whose length is sound and whose last byte isn't 0 it goes on; where a length isn't sound, nothing says where the next begins.
///
/// ```
/// use bsonraw::{rawdoc, whole::Documents};
///
/// let dump = [rawdoc! { "a": 1 }.into_bytes(), rawdoc! {}.into_bytes()].concat();
/// let offsets: Vec<_> = Documents::new(&dump).map(|(offset, document)| (offset, document.is_ok())).collect();
/// assert_eq!(offsets, [(0, true), (12, true)]);
/// ```
#[derive(Clone)]
pub struct Documents<'a> {
    bytes: &'a [u8],
    reader: bsonraw_reader,
    work: bsonraw_resync,
    is_behind: bool,
}

impl<'a> Documents<'a> {
    /// The documents of these bytes.
    pub fn new(bytes: &'a [u8]) -> Documents<'a> {
        Documents { bytes, reader: bsonraw_reader::default(), work: bsonraw_resync::default(), is_behind: false }
    }

    /// Goes on after damage, which is the document that came last, or is where none was: at the end of that document if
    /// its length is believed, otherwise at the next place where documents go on. They go on at the end, and where one
    /// without damage of over 8 bytes begins, within the limits, unless the tag and the key of a document, an array or an
    /// int32 are right before it. The length of a damaged document is believed if its elements follow one another up to
    /// its end, or if documents go on at no place inside, and right after it. Where no document came yet, or all did,
    /// nothing is changed.
    ///
    /// ```
    /// use bsonraw::{rawdoc, whole::Documents};
    ///
    /// let mut dump = [rawdoc! { "a": 1 }.into_bytes(), rawdoc! { "b": 2 }.into_bytes()].concat();
    /// dump[0] = 0;
    /// let mut documents = Documents::new(&dump);
    /// let (_, damaged) = documents.next().unwrap();
    /// assert!(damaged.is_err());
    /// documents.resync()?;
    /// assert_eq!(documents.next().unwrap().0, 12);
    /// # Ok::<(), bsonraw::whole::ProblemKind>(())
    /// ```
    pub fn resync(&mut self) -> Result<Resync, ProblemKind> {
        self.resync_with(Limits::default())
    }

    /// [`resync`](Documents::resync) within these limits.
    pub fn resync_with(&mut self, limits: Limits) -> Result<Resync, ProblemKind> {
        if !self.is_behind {
            return Ok(Resync { is_believed: false, left_out: false });
        }
        match ffi::resync(&mut self.reader, self.bytes, limits.max_bytes, limits.max_depth, &mut self.work) {
            BSONRAW_OK => Ok(Resync { is_believed: self.work.believed != 0, left_out: self.work.left_out != 0 }),
            BSONRAW_NO_MEMORY => Err(ProblemKind::OutOfMemory),
            _ => Err(ProblemKind::TooManyBytes),
        }
    }
}

impl fmt::Debug for Documents<'_> {
    fn fmt(&self, f: &mut fmt::Formatter<'_>) -> fmt::Result {
        f.debug_struct("Documents").field("next", &self.reader.next).field("len", &self.bytes.len()).finish()
    }
}

impl<'a> Iterator for Documents<'a> {
    type Item = (usize, Result<&'a RawDocument, Error>);

    fn next(&mut self) -> Option<Self::Item> {
        let offset = self.reader.next as usize;
        let status = ffi::read(&mut self.reader, self.bytes);
        self.is_behind = matches!(status, BSONRAW_OK | BSONRAW_NO_DOCUMENT);
        match status {
            BSONRAW_OK => {
                let document = &self.bytes[self.reader.document_at as usize..][..self.reader.document_len as usize];
                Some((offset, Ok(ffi::document(document))))
            }
            BSONRAW_NO_DOCUMENT => Some((offset, Err(Error::of_envelope(&self.reader.error)))),
            _ => None,
        }
    }
}
