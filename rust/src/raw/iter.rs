//! Iterators, and the elements that they give.

use std::fmt;

use super::{Error, RawArray, RawBinaryRef, RawBson, RawBsonRef, RawDbPointerRef, RawDocument};
use super::{RawJavaScriptCodeWithScopeRef, RawRegexRef, Result};
use crate::ffi::{self, Frame, Steps};
use crate::oid::ObjectId;
use crate::spec::{BinarySubtype, ElementType};
use crate::{DateTime, Decimal128, Timestamp};

/// The elements of a document, whose values are read only where they are asked for. After an error there are no more.
#[derive(Clone)]
pub struct RawIter<'a> {
    steps: Steps<'a>,
}

impl<'a> RawIter<'a> {
    #[inline]
    pub(crate) fn new(document: &'a RawDocument) -> RawIter<'a> {
        RawIter { steps: Steps::new(document.as_bytes()) }
    }
}

impl<'a> Iterator for RawIter<'a> {
    type Item = Result<RawElement<'a>>;

    #[inline]
    fn next(&mut self) -> Option<Result<RawElement<'a>>> {
        match self.steps.next() {
            Some(frame) => Some(Ok(RawElement::new(frame))),
            None => self.end().map(Err),
        }
    }
}

impl RawIter<'_> {
    /// After the last element: the error, if there is one.
    #[inline]
    fn end(&mut self) -> Option<Error> {
        let stop = self.steps.stop()?;
        Some(Error::of_stop(self.steps.document(), &stop))
    }
}

impl std::iter::FusedIterator for RawIter<'_> {}

/// The keys and values of a document. After an element without a value it goes on; after any other error there are no more.
#[derive(Clone)]
pub struct Iter<'a> {
    inner: RawIter<'a>,
}

impl<'a> Iter<'a> {
    #[inline]
    pub(crate) fn new(document: &'a RawDocument) -> Iter<'a> {
        Iter { inner: RawIter::new(document) }
    }
}

impl<'a> Iterator for Iter<'a> {
    type Item = Result<(&'a str, RawBsonRef<'a>)>;

    #[inline]
    fn next(&mut self) -> Option<Self::Item> {
        let Some(frame) = self.inner.steps.next() else {
            return self.inner.end().map(Err);
        };
        let element = RawElement::new(frame);
        match element.plain() {
            Some(value) => Some(Ok((element.key(), value))),
            None => Some(element.judged().map(|value| (element.key(), value))),
        }
    }
}

impl std::iter::FusedIterator for Iter<'_> {}

/// The values of an array. After an element without a value it goes on; after any other error there are no more.
#[derive(Clone)]
pub struct RawArrayIter<'a> {
    inner: RawIter<'a>,
}

impl<'a> RawArrayIter<'a> {
    #[inline]
    pub(crate) fn new(array: &'a RawArray) -> RawArrayIter<'a> {
        RawArrayIter { inner: RawIter::new(array.as_doc()) }
    }
}

impl<'a> Iterator for RawArrayIter<'a> {
    type Item = Result<RawBsonRef<'a>>;

    #[inline]
    fn next(&mut self) -> Option<Self::Item> {
        let Some(frame) = self.inner.steps.next() else {
            return self.inner.end().map(Err);
        };
        Some(RawElement::new(frame).value())
    }

    /// No value of an element that is passed is read.
    #[inline]
    fn nth(&mut self, number: usize) -> Option<Self::Item> {
        let item = self.inner.nth(number)?;
        Some(item.and_then(|element| element.value()))
    }
}

impl std::iter::FusedIterator for RawArrayIter<'_> {}

/// Prints an iterator as the items that are left.
macro_rules! debug {
    ($($iter:ident)*) => {
        $(
            impl fmt::Debug for $iter<'_> {
                fn fmt(&self, f: &mut fmt::Formatter<'_>) -> fmt::Result {
                    f.write_str(concat!(stringify!($iter), " "))?;
                    f.debug_list().entries(self.clone()).finish()
                }
            }
        )*
    };
}

debug! { RawIter Iter RawArrayIter }

/// An element of a document: its key, its type, and its value once that is asked for.
#[derive(Clone, Copy)]
pub struct RawElement<'a> {
    frame: Frame<'a>,
}

/// A payload of fixed size. The library gives no element whose payload has another size.
#[inline]
fn fixed<const N: usize>(payload: &[u8]) -> [u8; N] {
    payload.try_into().expect("a payload has the size of its kind")
}

/// The text of a string, if it is UTF-8 and std says so as quickly as the library: where it is short, or begins in ASCII. The library
/// is quicker with any other.
#[inline]
fn plain_text(payload: &[u8]) -> Option<&str> {
    let text = payload.get(4..payload.len() - 1)?;
    match text.first_chunk::<32>() {
        Some(head) if !head.is_ascii() => None,
        _ => std::str::from_utf8(text).ok(),
    }
}

/// The bytes of a binary value, but of the old subtype, which has a length inside.
#[inline]
fn plain_binary(payload: &[u8]) -> Option<RawBinaryRef<'_>> {
    let (subtype, bytes) = payload.get(4..)?.split_first()?;
    let subtype = BinarySubtype::from(*subtype);
    (subtype != BinarySubtype::BinaryOld).then_some(RawBinaryRef { subtype, bytes })
}

#[allow(clippy::len_without_is_empty)]
impl<'a> RawElement<'a> {
    #[inline]
    pub(crate) fn new(frame: Frame<'a>) -> RawElement<'a> {
        RawElement { frame }
    }

    /// How many bytes the payload has.
    #[inline]
    pub fn len(&self) -> usize {
        self.frame.payload_len()
    }

    /// The key.
    #[inline]
    pub fn key(&self) -> &'a str {
        self.frame.key()
    }

    /// The type of the value. The library gives no element of another one.
    #[inline]
    pub fn element_type(&self) -> ElementType {
        ElementType::from(self.frame.tag()).expect("an element has a type")
    }

    /// The payload, as BSON stores it.
    #[inline]
    pub fn payload(&self) -> &'a [u8] {
        self.frame.payload()
    }

    /// The value; or the error that it has none, as with a text that isn't UTF-8. A document or an array is a value, whatever is
    /// inside.
    #[inline]
    pub fn value(&self) -> Result<RawBsonRef<'a>> {
        match self.plain() {
            Some(value) => Ok(value),
            None => self.judged(),
        }
    }

    /// The value of a payload that is one whatever its bytes are, or that is seen to be one at once.
    #[inline(always)]
    fn plain(&self) -> Option<RawBsonRef<'a>> {
        let payload = self.payload();
        Some(match self.element_type() {
            ElementType::Double => RawBsonRef::Double(f64::from_le_bytes(fixed(payload))),
            ElementType::Int32 => RawBsonRef::Int32(i32::from_le_bytes(fixed(payload))),
            ElementType::Int64 => RawBsonRef::Int64(i64::from_le_bytes(fixed(payload))),
            ElementType::DateTime => RawBsonRef::DateTime(DateTime::from_millis(i64::from_le_bytes(fixed(payload)))),
            ElementType::Timestamp => {
                let both = u64::from_le_bytes(fixed(payload));
                RawBsonRef::Timestamp(Timestamp { time: (both >> 32) as u32, increment: both as u32 })
            }
            ElementType::ObjectId => RawBsonRef::ObjectId(ObjectId::from_bytes(fixed(payload))),
            ElementType::Decimal128 => RawBsonRef::Decimal128(Decimal128::from_bytes(fixed(payload))),
            ElementType::EmbeddedDocument => RawBsonRef::Document(ffi::document(payload)),
            ElementType::Array => RawBsonRef::Array(ffi::array(ffi::document(payload))),
            ElementType::Null => RawBsonRef::Null,
            ElementType::Undefined => RawBsonRef::Undefined,
            ElementType::MaxKey => RawBsonRef::MaxKey,
            ElementType::MinKey => RawBsonRef::MinKey,
            ElementType::Boolean if payload == [0] => RawBsonRef::Boolean(false),
            ElementType::Boolean if payload == [1] => RawBsonRef::Boolean(true),
            ElementType::String => RawBsonRef::String(plain_text(payload)?),
            ElementType::JavaScriptCode => RawBsonRef::JavaScriptCode(plain_text(payload)?),
            ElementType::Symbol => RawBsonRef::Symbol(plain_text(payload)?),
            ElementType::Binary => RawBsonRef::Binary(plain_binary(payload)?),
            _ => return None,
        })
    }

    /// The value of a payload that isn't always one, as the library checks it.
    #[inline(never)]
    fn judged(&self) -> Result<RawBsonRef<'a>> {
        let value = self.frame.value().map_err(|error| Error::of_value(&self.frame, &error))?;
        Ok(match self.element_type() {
            ElementType::String => RawBsonRef::String(value.text()),
            ElementType::JavaScriptCode => RawBsonRef::JavaScriptCode(value.text()),
            ElementType::Symbol => RawBsonRef::Symbol(value.text()),
            ElementType::Binary => {
                RawBsonRef::Binary(RawBinaryRef { subtype: BinarySubtype::from(value.subtype()), bytes: value.data() })
            }
            ElementType::RegularExpression => {
                RawBsonRef::RegularExpression(RawRegexRef { pattern: value.text(), options: value.options() })
            }
            ElementType::DbPointer => RawBsonRef::DbPointer(RawDbPointerRef {
                namespace: value.text(),
                id: ObjectId::from_bytes(fixed(value.more())),
            }),
            ElementType::JavaScriptCodeWithScope => {
                RawBsonRef::JavaScriptCodeWithScope(RawJavaScriptCodeWithScopeRef {
                    code: value.text(),
                    scope: ffi::document(value.more()),
                })
            }
            kind => unreachable!("a value of {kind:?} is read where it lies"),
        })
    }
}

impl fmt::Debug for RawElement<'_> {
    fn fmt(&self, f: &mut fmt::Formatter<'_>) -> fmt::Result {
        let mut parts = f.debug_struct("RawElement");
        parts.field("key", &self.key()).field("kind", &self.element_type()).field("len", &self.len()).finish()
    }
}

impl<'a> TryFrom<RawElement<'a>> for RawBsonRef<'a> {
    type Error = Error;

    #[inline]
    fn try_from(element: RawElement<'a>) -> Result<RawBsonRef<'a>> {
        element.value()
    }
}

impl TryFrom<RawElement<'_>> for RawBson {
    type Error = Error;

    fn try_from(element: RawElement<'_>) -> Result<RawBson> {
        Ok(element.value()?.to_raw_bson())
    }
}
