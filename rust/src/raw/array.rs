//! Borrowed arrays.

use std::borrow::Cow;
use std::fmt;

use super::{Hex, RawArrayBuf, RawArrayIter, RawBinaryRef, RawBsonRef, RawDocument, RawRegexRef, Result};
use super::{ValueAccessError, ValueAccessErrorKind, ValueAccessResult};
use crate::oid::ObjectId;
use crate::spec::ElementType;
use crate::{DateTime, Timestamp};

/// An array, as the bytes that it is. It is always behind a pointer, such as `&`; [`RawArrayBuf`] owns one.
///
/// ```
/// use bsonraw::{raw::RawBsonRef, rawdoc};
///
/// let document = rawdoc! { "list": [1, true, "two"] };
/// let list = document.get_array("list")?;
/// assert_eq!(list.get(0)?, Some(RawBsonRef::Int32(1)));
/// assert!(list.get_bool(1)?);
/// let values: Vec<RawBsonRef> = list.into_iter().collect::<Result<_, _>>()?;
/// assert_eq!(values[2].as_str(), Some("two"));
/// # Ok::<(), Box<dyn std::error::Error>>(())
/// ```
#[derive(Eq, Hash, PartialEq)]
#[repr(transparent)]
pub struct RawArray {
    document: RawDocument,
}

impl RawArray {
    #[inline]
    pub(crate) fn as_doc(&self) -> &RawDocument {
        &self.document
    }

    /// Copies the array, and counts its values.
    pub fn to_raw_array_buf(&self) -> RawArrayBuf {
        RawArrayBuf::of_document(self.document.to_raw_document_buf())
    }

    /// The value of the element with this number, from 0 on; its key isn't looked at. The error is that it has none, or that a fault
    /// is in its place. Past a fault there is nothing.
    #[inline]
    pub fn get(&self, index: usize) -> Result<Option<RawBsonRef<'_>>> {
        self.into_iter().nth(index).transpose()
    }

    #[inline]
    fn get_with<'a, T>(
        &'a self,
        index: usize,
        expected: ElementType,
        read: impl FnOnce(RawBsonRef<'a>) -> Option<T>,
    ) -> ValueAccessResult<T> {
        match self.get(index) {
            Ok(Some(value)) => {
                let actual = value.element_type();
                read(value).ok_or_else(|| refused(index, ValueAccessErrorKind::UnexpectedType { expected, actual }))
            }
            Ok(None) => Err(refused(index, ValueAccessErrorKind::NotPresent)),
            Err(error) => Err(refused(index, ValueAccessErrorKind::InvalidBson(error))),
        }
    }

    /// The values in order.
    #[inline]
    pub fn iter(&self) -> RawArrayIter<'_> {
        RawArrayIter::new(self)
    }

    getters!(index: usize);

    /// The bytes.
    #[inline]
    pub fn as_bytes(&self) -> &[u8] {
        self.document.as_bytes()
    }

    /// Whether there is no element.
    #[inline]
    pub fn is_empty(&self) -> bool {
        self.document.is_empty()
    }
}

#[cold]
fn refused(index: usize, kind: ValueAccessErrorKind) -> ValueAccessError {
    ValueAccessError { kind, key: index.to_string() }
}

impl fmt::Debug for RawArray {
    fn fmt(&self, f: &mut fmt::Formatter<'_>) -> fmt::Result {
        f.debug_struct("RawArray").field("data", &Hex(self.as_bytes())).finish()
    }
}

impl AsRef<RawArray> for RawArray {
    fn as_ref(&self) -> &RawArray {
        self
    }
}

impl ToOwned for RawArray {
    type Owned = RawArrayBuf;

    fn to_owned(&self) -> RawArrayBuf {
        self.to_raw_array_buf()
    }
}

impl<'a> From<&'a RawArray> for Cow<'a, RawArray> {
    fn from(array: &'a RawArray) -> Cow<'a, RawArray> {
        Cow::Borrowed(array)
    }
}

impl<'a> IntoIterator for &'a RawArray {
    type IntoIter = RawArrayIter<'a>;
    type Item = Result<RawBsonRef<'a>>;

    #[inline]
    fn into_iter(self) -> RawArrayIter<'a> {
        self.iter()
    }
}
