//! Borrowed documents.

use std::borrow::Cow;
use std::fmt;

use super::{Error, Hex, Iter, RawArray, RawBinaryRef, RawBsonRef, RawDocumentBuf, RawElement, RawIter, RawRegexRef};
use super::{Result, ValueAccessError, ValueAccessErrorKind, ValueAccessResult};
use crate::ffi;
use crate::oid::ObjectId;
use crate::spec::ElementType;
use crate::{DateTime, Timestamp};

/// A document, as the bytes that it is. It is always behind a pointer, such as `&`; [`RawDocumentBuf`] owns one.
///
/// ```
/// use bsonraw::raw::RawDocument;
///
/// let document = RawDocument::from_bytes(b"\x13\0\0\0\x02hi\0\x06\0\0\0y'all\0\0")?;
/// assert_eq!(document.get_str("hi")?, "y'all");
/// assert!(document.get("ho")?.is_none());
/// # Ok::<(), Box<dyn std::error::Error>>(())
/// ```
///
/// Damage is an error of the call that meets it, and not before:
///
/// ```
/// use bsonraw::raw::RawDocument;
///
/// let document = RawDocument::from_bytes(b"\x0d\0\0\0\x08a\0\x02\x08b\0\x01\0")?;
/// assert!(document.get_bool("b")?);
/// let error = document.get("a").unwrap_err();
/// assert_eq!(error.key(), Some("a"));
/// assert_eq!(error.to_string(), "error at key \"a\": malformed value: \"boolean must be stored as 0 or 1, got 2\"");
/// # Ok::<(), Box<dyn std::error::Error>>(())
/// ```
#[derive(Eq, Hash, PartialEq)]
#[repr(transparent)]
pub struct RawDocument {
    data: [u8],
}

impl RawDocument {
    /// Shows bytes as a document. They have to be five at least, begin with their length, and end with a 0; what is between isn't
    /// looked at.
    ///
    /// ```
    /// use bsonraw::raw::RawDocument;
    ///
    /// assert!(RawDocument::from_bytes(b"\x05\0\0\0\0")?.is_empty());
    /// let error = RawDocument::from_bytes(b"\x06\0\0\0\0").unwrap_err();
    /// assert_eq!(error.to_string(), "malformed value: \"document length incorrect\"");
    /// # Ok::<(), bsonraw::raw::Error>(())
    /// ```
    #[inline]
    pub fn from_bytes<D: AsRef<[u8]> + ?Sized>(data: &D) -> Result<&RawDocument> {
        let data = data.as_ref();
        match ffi::envelope(data) {
            Ok(()) => Ok(ffi::document(data)),
            Err(error) => Err(Error::of_envelope(&error)),
        }
    }

    /// Copies the document.
    pub fn to_raw_document_buf(&self) -> RawDocumentBuf {
        RawDocumentBuf::of_document(self)
    }

    /// The value of the first element with this key. The error is that it has none, or that no element has the key up to a fault.
    #[inline]
    pub fn get(&self, key: impl AsRef<str>) -> Result<Option<RawBsonRef<'_>>> {
        match ffi::find(&self.data, key.as_ref()) {
            Some(Ok(frame)) => RawElement::new(frame).value().map(Some),
            Some(Err(stop)) => Err(Error::of_stop(&self.data, &stop)),
            None => Ok(None),
        }
    }

    /// The value at a path of keys with dots between them; in an array a step is a number, from 0 on. Of a repeated key the first is
    /// taken. There is none, too, where a step goes into what is neither a document nor an array.
    ///
    /// ```
    /// use bsonraw::{rawdoc, RawBsonRef};
    ///
    /// let document = rawdoc! { "authors": [{ "name": "Ada" }, { "name": "Emmy" }] };
    /// assert_eq!(document.get_path("authors.1.name")?, Some(RawBsonRef::String("Emmy")));
    /// assert_eq!(document.get_path("authors.2.name")?, None);
    /// # Ok::<(), bsonraw::raw::Error>(())
    /// ```
    pub fn get_path(&self, path: impl AsRef<str>) -> Result<Option<RawBsonRef<'_>>> {
        self.descendant(path.as_ref(), b'.')
    }

    /// The same by the steps of a path, of which each may have a dot. No steps lead to the document itself.
    ///
    /// ```
    /// use bsonraw::{rawdoc, RawBsonRef};
    ///
    /// let document = rawdoc! { "sums": { "a.b": 7 } };
    /// assert_eq!(document.get_steps(["sums", "a.b"])?, Some(RawBsonRef::Int32(7)));
    /// # Ok::<(), bsonraw::raw::Error>(())
    /// ```
    pub fn get_steps<S: AsRef<str>>(&self, steps: impl IntoIterator<Item = S>) -> Result<Option<RawBsonRef<'_>>> {
        let mut path: Option<String> = None;
        for step in steps {
            let step = step.as_ref();
            // No key has a 0, so a step with one finds nothing, and a 0 may be between the others.
            if step.contains('\0') {
                return Ok(None);
            }
            path = Some(path.map_or_else(|| step.to_owned(), |path| path + "\0" + step));
        }
        match path {
            Some(path) => self.descendant(&path, 0),
            None => Ok(Some(RawBsonRef::Document(self))),
        }
    }

    fn descendant(&self, path: &str, separator: u8) -> Result<Option<RawBsonRef<'_>>> {
        match ffi::find_descendant(&self.data, path.as_bytes(), separator) {
            Some(Ok(frame)) => RawElement::new(frame).value().map(Some),
            Some(Err(stop)) => Err(Error::of_stop(&self.data, &stop)),
            None => Ok(None),
        }
    }

    /// The keys and values in order.
    #[inline]
    pub fn iter(&self) -> Iter<'_> {
        Iter::new(self)
    }

    /// The elements in order; their values aren't read.
    #[inline]
    pub fn iter_elements(&self) -> RawIter<'_> {
        RawIter::new(self)
    }

    #[inline]
    fn get_with<'a, T>(
        &'a self,
        key: impl AsRef<str>,
        expected: ElementType,
        read: impl FnOnce(RawBsonRef<'a>) -> Option<T>,
    ) -> ValueAccessResult<T> {
        let key = key.as_ref();
        match self.get(key) {
            Ok(Some(value)) => {
                let actual = value.element_type();
                read(value).ok_or_else(|| refused(key, ValueAccessErrorKind::UnexpectedType { expected, actual }))
            }
            Ok(None) => Err(refused(key, ValueAccessErrorKind::NotPresent)),
            Err(error) => Err(refused(key, ValueAccessErrorKind::InvalidBson(error))),
        }
    }

    getters!(key: impl AsRef<str>);

    /// The bytes.
    #[inline]
    pub fn as_bytes(&self) -> &[u8] {
        &self.data
    }

    /// Whether there is no element.
    #[inline]
    pub fn is_empty(&self) -> bool {
        self.data.len() == 5
    }
}

#[cold]
fn refused(key: &str, kind: ValueAccessErrorKind) -> ValueAccessError {
    ValueAccessError { kind, key: key.to_owned() }
}

impl fmt::Debug for RawDocument {
    fn fmt(&self, f: &mut fmt::Formatter<'_>) -> fmt::Result {
        f.debug_struct("RawDocument").field("data", &Hex(&self.data)).finish()
    }
}

impl AsRef<RawDocument> for RawDocument {
    fn as_ref(&self) -> &RawDocument {
        self
    }
}

impl ToOwned for RawDocument {
    type Owned = RawDocumentBuf;

    fn to_owned(&self) -> RawDocumentBuf {
        self.to_raw_document_buf()
    }
}

impl<'a> From<&'a RawDocument> for Cow<'a, RawDocument> {
    fn from(document: &'a RawDocument) -> Cow<'a, RawDocument> {
        Cow::Borrowed(document)
    }
}

impl<'a> TryFrom<&'a [u8]> for &'a RawDocument {
    type Error = Error;

    fn try_from(bytes: &'a [u8]) -> Result<&'a RawDocument> {
        RawDocument::from_bytes(bytes)
    }
}

impl<'a> IntoIterator for &'a RawDocument {
    type IntoIter = Iter<'a>;
    type Item = Result<(&'a str, RawBsonRef<'a>)>;

    #[inline]
    fn into_iter(self) -> Iter<'a> {
        self.iter()
    }
}
