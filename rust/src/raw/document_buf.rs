//! Documents that own their bytes.

use std::borrow::Borrow;
use std::borrow::Cow;
use std::fmt;
use std::ops::Deref;

use super::{Error, ErrorKind, Hex, Iter, RawBson, RawBsonRef, RawDocument, RawIter, Result};
use crate::ffi;
use crate::spec::ElementType;
use crate::sys::*;

/// A document that owns its bytes. What a [`RawDocument`] can do it can do, too.
///
/// ```
/// use bsonraw::raw::RawDocumentBuf;
///
/// let mut inner = RawDocumentBuf::new();
/// inner.append("city", "Zürich");
/// let mut document = RawDocumentBuf::new();
/// document.append("name", "Emmy");
/// document.append("home", inner);
/// assert_eq!(document.get_document("home")?.get_str("city")?, "Zürich");
/// # Ok::<(), bsonraw::raw::ValueAccessError>(())
/// ```
#[derive(Clone, Eq, Hash, PartialEq)]
pub struct RawDocumentBuf {
    data: Vec<u8>,
}

/// Bytes for what the library puts around a key and the parts of a value: a tag, two 0s, up to nine of lengths, and in an array up
/// to ten digits.
const AROUND: usize = 24;

/// A value as the library takes it: two parts.
struct Parts<'a> {
    tag: u32,
    one: &'a [u8],
    two: &'a [u8],
}

impl RawDocumentBuf {
    /// An empty document.
    pub fn new() -> RawDocumentBuf {
        RawDocumentBuf { data: [5, 0, 0, 0, 0].to_vec() }
    }

    /// Takes bytes as a document, as [`RawDocument::from_bytes`] shows them as one.
    pub fn from_bytes(data: Vec<u8>) -> Result<RawDocumentBuf> {
        RawDocument::from_bytes(&data)?;
        Ok(RawDocumentBuf { data })
    }

    /// A copy of a document.
    pub(crate) fn of_document(document: &RawDocument) -> RawDocumentBuf {
        RawDocumentBuf { data: document.as_bytes().to_vec() }
    }

    /// Bytes that the library made, which are a document.
    pub(crate) fn of_made(data: Vec<u8>) -> RawDocumentBuf {
        RawDocumentBuf { data }
    }

    /// The document of these elements; the error is that of the first that can't be appended.
    ///
    /// ```
    /// use bsonraw::{raw::RawDocumentBuf, rawdoc};
    ///
    /// let document = RawDocumentBuf::try_from_iter([("a", 1), ("b", 2)])?;
    /// assert_eq!(document, rawdoc! { "a": 1, "b": 2 });
    /// assert!(RawDocumentBuf::try_from_iter([("a\0", 1)]).is_err());
    /// # Ok::<(), bsonraw::raw::Error>(())
    /// ```
    pub fn try_from_iter<S: AsRef<str>, T: Into<RawBson>>(
        elements: impl IntoIterator<Item = (S, T)>,
    ) -> Result<RawDocumentBuf> {
        let mut document = RawDocumentBuf::new();
        for (key, value) in elements {
            document.try_append(key, value)?;
        }
        Ok(document)
    }

    /// The keys and values in order.
    #[inline]
    pub fn iter(&self) -> Iter<'_> {
        Iter::new(self)
    }

    /// The elements in order; their values aren't read.
    #[inline]
    pub fn iter_elements(&self) -> RawIter<'_> {
        RawIter::new(self)
    }

    /// The bytes.
    #[inline]
    pub fn into_bytes(self) -> Vec<u8> {
        self.data
    }

    /// Appends an element. Whether its key is there already isn't looked at.
    ///
    /// ```
    /// use bsonraw::raw::RawDocumentBuf;
    ///
    /// let mut document = RawDocumentBuf::new();
    /// document.append("a string", "some string");
    /// document.append("a number", 12_i32);
    /// assert_eq!(document.iter().count(), 2);
    /// ```
    ///
    /// # Panics
    ///
    /// Where [`try_append`](RawDocumentBuf::try_append) returns an error: where a 0 is in the key or in a regular expression, and where
    /// the document would have more than 2147483647 bytes.
    #[inline(always)]
    #[track_caller]
    pub fn append(&mut self, key: impl AsRef<str>, value: impl Into<RawBson>) {
        self.append_ref(key, value.into().as_raw_bson_ref());
    }

    /// Appends an element with a borrowed value.
    ///
    /// # Panics
    ///
    /// As [`append`](RawDocumentBuf::append) does.
    #[inline(always)]
    #[track_caller]
    pub fn append_ref<'a>(&mut self, key: impl AsRef<str>, value: impl Into<RawBsonRef<'a>>) {
        if let Err(error) = self.try_append_ref(key, value) {
            not_appended(&error);
        }
    }

    /// Appends an element, as [`append`](RawDocumentBuf::append) does. It fails, and changes nothing, where a 0 is in the key or in a
    /// regular expression, and where the document would have more than 2147483647 bytes.
    ///
    /// ```
    /// use bsonraw::raw::RawDocumentBuf;
    ///
    /// let mut document = RawDocumentBuf::new();
    /// document.try_append("a", 1)?;
    /// let error = document.try_append("a\0", 1).unwrap_err();
    /// assert_eq!(error.to_string(), "malformed value: \"interior NUL\"");
    /// assert_eq!(document.iter().count(), 1);
    /// # Ok::<(), bsonraw::raw::Error>(())
    /// ```
    #[inline(always)]
    pub fn try_append(&mut self, key: impl AsRef<str>, value: impl Into<RawBson>) -> Result<()> {
        self.try_append_ref(key, value.into().as_raw_bson_ref())
    }

    /// Appends an element with a borrowed value, or fails as [`try_append`](RawDocumentBuf::try_append) does.
    #[inline(always)]
    pub fn try_append_ref<'a>(&mut self, key: impl AsRef<str>, value: impl Into<RawBsonRef<'a>>) -> Result<()> {
        self.put(BSONRAW_TAG_DOCUMENT, 0, key.as_ref(), value.into())
    }

    /// Appends an element of a document or, under the number `count`, of an array.
    #[inline(always)]
    pub(crate) fn put(&mut self, of: u32, count: u32, key: &str, value: RawBsonRef<'_>) -> Result<()> {
        let mut fixed = [0; 16];
        self.put_parts(of, count, key, Parts::of(value, &mut fixed))
    }

    fn put_parts(&mut self, of: u32, count: u32, key: &str, parts: Parts<'_>) -> Result<()> {
        let len = (self.data.len() - 1) as u32;
        let builder = bsonraw_builder { len, begins: 0, count, tag: of, status: BSONRAW_OK };
        let least = key.len().saturating_add(parts.one.len()).saturating_add(parts.two.len());
        // The library refuses more bytes than a document may have, whatever the room is.
        let is_too_long = self.data.len().saturating_add(least) > ffi::MOST;
        let more = if is_too_long { 0 } else { least + AROUND };
        match ffi::append(&mut self.data, more, builder, parts.tag, key.as_bytes(), parts.one, parts.two) {
            BSONRAW_OK => Ok(()),
            status => Err(refusal(status)),
        }
    }
}

/// Ends an append that has no way to return its error.
#[cold]
#[track_caller]
pub(super) fn not_appended(error: &Error) -> ! {
    panic!("the element can't be appended: {error}")
}

/// Why an element isn't appended. The parts are those of a value, so that nothing else is wrong.
#[cold]
fn refusal(status: i32) -> Error {
    Error::new(ErrorKind::malformed(match status {
        BSONRAW_FAULT => "interior NUL",
        _ => "document too long",
    }))
}

impl<'a> Parts<'a> {
    /// The parts of a value. Those of a number are put into the bytes that are handed over.
    #[inline(always)]
    fn of(value: RawBsonRef<'a>, fixed: &'a mut [u8; 16]) -> Parts<'a> {
        let tag = value.element_type() as u32;
        let (one, two): (&[u8], &[u8]) = match value {
            RawBsonRef::Double(number) => (put(fixed, number.to_le_bytes()), &[]),
            RawBsonRef::Int32(number) => (put(fixed, number.to_le_bytes()), &[]),
            RawBsonRef::Int64(number) => (put(fixed, number.to_le_bytes()), &[]),
            RawBsonRef::DateTime(time) => (put(fixed, time.timestamp_millis().to_le_bytes()), &[]),
            RawBsonRef::Timestamp(time) => {
                let both = u64::from(time.time) << 32 | u64::from(time.increment);
                (put(fixed, both.to_le_bytes()), &[])
            }
            RawBsonRef::Boolean(is_true) => (put(fixed, [u8::from(is_true)]), &[]),
            RawBsonRef::ObjectId(id) => (put(fixed, id.bytes()), &[]),
            RawBsonRef::Decimal128(decimal) => (put(fixed, decimal.bytes()), &[]),
            RawBsonRef::String(text) | RawBsonRef::JavaScriptCode(text) | RawBsonRef::Symbol(text) => {
                (text.as_bytes(), &[])
            }
            RawBsonRef::Document(document) => (document.as_bytes(), &[]),
            RawBsonRef::Array(array) => (array.as_bytes(), &[]),
            RawBsonRef::Binary(binary) => (binary.bytes, put(fixed, [binary.subtype.into()])),
            RawBsonRef::RegularExpression(regex) => (regex.pattern.as_bytes(), regex.options.as_bytes()),
            RawBsonRef::DbPointer(pointer) => (pointer.namespace.as_bytes(), put(fixed, pointer.id.bytes())),
            RawBsonRef::JavaScriptCodeWithScope(code) => (code.code.as_bytes(), code.scope.as_bytes()),
            RawBsonRef::Null | RawBsonRef::Undefined | RawBsonRef::MaxKey | RawBsonRef::MinKey => (&[], &[]),
        };
        debug_assert_eq!(ElementType::from(tag as u8), Some(value.element_type()));
        Parts { tag, one, two }
    }
}

/// Puts bytes at the front of others, and gives them back as they are there.
#[inline]
fn put<const N: usize>(fixed: &mut [u8; 16], bytes: [u8; N]) -> &[u8] {
    fixed[..N].copy_from_slice(&bytes);
    &fixed[..N]
}

impl Default for RawDocumentBuf {
    fn default() -> RawDocumentBuf {
        RawDocumentBuf::new()
    }
}

impl fmt::Debug for RawDocumentBuf {
    fn fmt(&self, f: &mut fmt::Formatter<'_>) -> fmt::Result {
        f.debug_struct("RawDocumentBuf").field("data", &Hex(&self.data)).finish()
    }
}

impl From<RawDocumentBuf> for Cow<'_, RawDocument> {
    fn from(document: RawDocumentBuf) -> Self {
        Cow::Owned(document)
    }
}

impl<'a> From<&'a RawDocumentBuf> for Cow<'a, RawDocument> {
    fn from(document: &'a RawDocumentBuf) -> Self {
        Cow::Borrowed(document)
    }
}

impl From<&RawDocument> for RawDocumentBuf {
    fn from(document: &RawDocument) -> RawDocumentBuf {
        document.to_owned()
    }
}

impl TryFrom<Vec<u8>> for RawDocumentBuf {
    type Error = Error;

    fn try_from(bytes: Vec<u8>) -> Result<RawDocumentBuf> {
        RawDocumentBuf::from_bytes(bytes)
    }
}

impl<'a> IntoIterator for &'a RawDocumentBuf {
    type IntoIter = Iter<'a>;
    type Item = Result<(&'a str, RawBsonRef<'a>)>;

    #[inline]
    fn into_iter(self) -> Iter<'a> {
        self.iter()
    }
}

impl AsRef<RawDocument> for RawDocumentBuf {
    #[inline]
    fn as_ref(&self) -> &RawDocument {
        ffi::document(&self.data)
    }
}

impl Deref for RawDocumentBuf {
    type Target = RawDocument;

    #[inline]
    fn deref(&self) -> &RawDocument {
        ffi::document(&self.data)
    }
}

impl Borrow<RawDocument> for RawDocumentBuf {
    fn borrow(&self) -> &RawDocument {
        self
    }
}

/// # Panics
///
/// Where an element can't be appended, as its key has a 0; [`try_from_iter`](RawDocumentBuf::try_from_iter) returns the error.
impl<S: AsRef<str>, T: Into<RawBson>> FromIterator<(S, T)> for RawDocumentBuf {
    fn from_iter<I: IntoIterator<Item = (S, T)>>(elements: I) -> RawDocumentBuf {
        RawDocumentBuf::try_from_iter(elements).unwrap_or_else(|error| not_appended(&error))
    }
}
