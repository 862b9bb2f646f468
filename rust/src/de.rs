//! Documents that are read. With the feature `serde`, values of any type that has `Deserialize`, of 200 levels at most.

use std::io::{self, Read};

#[cfg(feature = "serde")]
use serde::de::{Deserialize, DeserializeOwned};

use crate::path_error::path_error;
use crate::read::{self, Next};
#[cfg(feature = "serde")]
use crate::{
    raw::{RawBson, RawBsonRef, RawDocument, RawDocumentBuf},
    with_serde::Deserializer,
    Bson, Document,
};

path_error! { "Why a document isn't read.", serde::de::Error }

/// How many bytes a document has at most that is read from a reader.
const MOST: usize = 16 << 20;

/// The bytes of the document that a reader is at, up to its end. They aren't looked at.
pub(crate) fn document_bytes(mut reader: impl Read) -> Result<Vec<u8>> {
    match read::next(&mut reader, MOST)? {
        Next::End => Err(io::Error::from(io::ErrorKind::UnexpectedEof).into()),
        Next::TooMany(len) => Err(Error::custom(format!("a document of {len} bytes has more than {MOST}"))),
        Next::Bytes(bytes) => Ok(bytes),
    }
}

/// Reads a value of a document. It may borrow strings, bytes and documents from the bytes.
///
/// ```
/// use bsonraw::{from_slice, rawdoc, RawDocument};
/// use serde::Deserialize;
///
/// #[derive(Deserialize)]
/// struct Person<'a> {
///     name: &'a str,
///     #[serde(borrow)]
///     home: &'a RawDocument,
/// }
///
/// let bytes = rawdoc! { "name": "Ada", "home": { "city": "London" } }.into_bytes();
/// let person: Person = from_slice(&bytes)?;
/// assert_eq!(person.name, "Ada");
/// assert_eq!(person.home.get_str("city")?, "London");
///
/// let bytes = rawdoc! { "name": 7 }.into_bytes();
/// let error = from_slice::<Person>(&bytes).err().unwrap();
/// assert_eq!(error.path(), ["name"]);
/// # Ok::<(), Box<dyn std::error::Error>>(())
/// ```
#[cfg(feature = "serde")]
pub fn from_slice<'de, T: Deserialize<'de>>(bytes: &'de [u8]) -> Result<T> {
    T::deserialize(Deserializer::new(RawBsonRef::Document(RawDocument::from_bytes(bytes)?), false))
}

/// Reads a value of the document that a reader is at, of 16 MiB at most.
#[cfg(feature = "serde")]
pub fn from_reader<T: DeserializeOwned>(reader: impl Read) -> Result<T> {
    from_slice(&document_bytes(reader)?)
}

/// Reads a value of a document in memory.
#[cfg(feature = "serde")]
pub fn from_document<T: DeserializeOwned>(document: Document) -> Result<T> {
    let raw = RawDocumentBuf::from_document(&document)?;
    T::deserialize(Deserializer::new(RawBsonRef::Document(&raw), true))
}

/// Reads a value of one in memory.
#[cfg(feature = "serde")]
pub fn from_bson<T: DeserializeOwned>(value: Bson) -> Result<T> {
    let raw = RawBson::try_from(value)?;
    T::deserialize(Deserializer::new(raw.as_raw_bson_ref(), true))
}
