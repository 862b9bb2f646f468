//! Arrays that own their bytes.

use std::borrow::Borrow;
use std::borrow::Cow;
use std::fmt;
use std::hash::{Hash, Hasher};
use std::ops::Deref;

use super::document_buf::not_appended;
use super::{Error, ErrorKind, Hex, RawArray, RawArrayIter, RawBson, RawBsonRef, RawDocumentBuf, Result};
use crate::ffi;
use crate::sys::BSONRAW_TAG_ARRAY;

/// An array that owns its bytes. What a [`RawArray`] can do it can do, too.
///
/// ```
/// use bsonraw::raw::RawArrayBuf;
///
/// let mut array = RawArrayBuf::new();
/// array.push("a string");
/// array.push(12_i32);
/// assert_eq!(array.get_str(0)?, "a string");
/// assert_eq!(array.get_i32(1)?, 12);
/// # Ok::<(), bsonraw::raw::ValueAccessError>(())
/// ```
#[derive(Clone)]
pub struct RawArrayBuf {
    inner: RawDocumentBuf,
    len: usize,
}

impl RawArrayBuf {
    /// An empty array.
    pub fn new() -> RawArrayBuf {
        RawArrayBuf { inner: RawDocumentBuf::new(), len: 0 }
    }

    /// Takes a document as an array, and counts its values; a fault is counted, too.
    pub(crate) fn of_document(document: RawDocumentBuf) -> RawArrayBuf {
        let len = document.iter_elements().count();
        RawArrayBuf { inner: document, len }
    }

    /// The array of these values; the error is that of the first that can't be pushed.
    pub fn try_from_iter<T: Into<RawBson>>(values: impl IntoIterator<Item = T>) -> Result<RawArrayBuf> {
        let mut array = RawArrayBuf::new();
        for value in values {
            array.try_push(value)?;
        }
        Ok(array)
    }

    /// Appends a value.
    ///
    /// # Panics
    ///
    /// Where [`try_push`](RawArrayBuf::try_push) returns an error: where a 0 is in a regular expression, and where the array would have
    /// more than 2147483647 bytes.
    #[inline]
    #[track_caller]
    pub fn push(&mut self, value: impl Into<RawBson>) {
        self.push_ref(value.into().as_raw_bson_ref());
    }

    /// Appends a borrowed value.
    ///
    /// # Panics
    ///
    /// As [`push`](RawArrayBuf::push) does.
    #[inline]
    #[track_caller]
    pub fn push_ref<'a>(&mut self, value: impl Into<RawBsonRef<'a>>) {
        if let Err(error) = self.try_push_ref(value) {
            not_appended(&error);
        }
    }

    /// Appends a value, as [`push`](RawArrayBuf::push) does. It fails, and changes nothing, where a 0 is in a regular expression, and
    /// where the array would have more than 2147483647 bytes.
    pub fn try_push(&mut self, value: impl Into<RawBson>) -> Result<()> {
        self.try_push_ref(value.into().as_raw_bson_ref())
    }

    /// Appends a borrowed value, or fails as [`try_push`](RawArrayBuf::try_push) does.
    pub fn try_push_ref<'a>(&mut self, value: impl Into<RawBsonRef<'a>>) -> Result<()> {
        let count = u32::try_from(self.len).map_err(|_| Error::new(ErrorKind::malformed("document too long")))?;
        self.inner.put(BSONRAW_TAG_ARRAY, count, "", value.into())?;
        self.len += 1;
        Ok(())
    }
}

impl Default for RawArrayBuf {
    fn default() -> RawArrayBuf {
        RawArrayBuf::new()
    }
}

/// As those of the views, since a view is what it borrows as.
impl PartialEq for RawArrayBuf {
    fn eq(&self, other: &RawArrayBuf) -> bool {
        **self == **other
    }
}

impl Eq for RawArrayBuf {}

impl Hash for RawArrayBuf {
    fn hash<H: Hasher>(&self, state: &mut H) {
        (**self).hash(state);
    }
}

impl fmt::Debug for RawArrayBuf {
    fn fmt(&self, f: &mut fmt::Formatter<'_>) -> fmt::Result {
        f.debug_struct("RawArrayBuf").field("data", &Hex(self.as_bytes())).field("len", &self.len).finish()
    }
}

impl Deref for RawArrayBuf {
    type Target = RawArray;

    #[inline]
    fn deref(&self) -> &RawArray {
        ffi::array(&self.inner)
    }
}

impl AsRef<RawArray> for RawArrayBuf {
    fn as_ref(&self) -> &RawArray {
        self
    }
}

impl Borrow<RawArray> for RawArrayBuf {
    fn borrow(&self) -> &RawArray {
        self
    }
}

impl<'a> IntoIterator for &'a RawArrayBuf {
    type IntoIter = RawArrayIter<'a>;
    type Item = Result<RawBsonRef<'a>>;

    fn into_iter(self) -> RawArrayIter<'a> {
        RawArrayIter::new(self)
    }
}

impl From<RawArrayBuf> for Cow<'_, RawArray> {
    fn from(array: RawArrayBuf) -> Self {
        Cow::Owned(array)
    }
}

impl<'a> From<&'a RawArrayBuf> for Cow<'a, RawArray> {
    fn from(array: &'a RawArrayBuf) -> Self {
        Cow::Borrowed(array)
    }
}

/// # Panics
///
/// Where a value can't be pushed, as a regular expression has a 0; [`try_from_iter`](RawArrayBuf::try_from_iter) returns the error.
impl<T: Into<RawBson>> FromIterator<T> for RawArrayBuf {
    fn from_iter<I: IntoIterator<Item = T>>(values: I) -> RawArrayBuf {
        RawArrayBuf::try_from_iter(values).unwrap_or_else(|error| not_appended(&error))
    }
}
