//! Documents that are written. With the feature `serde`, values of any type that has `Serialize`, of 200 levels at most.

use crate::path_error::path_error;
#[cfg(feature = "serde")]
use crate::{
    raw::{RawBson, RawDocumentBuf},
    with_serde::Serializer,
    Bson, Document,
};
#[cfg(feature = "serde")]
use serde::ser::Serialize;

path_error! { "Why a document isn't written.", serde::ser::Error }

/// The bytes of a document.
///
/// ```
/// let bytes = bsonraw::to_vec(&bsonraw::doc! { "a": 1 })?;
/// assert_eq!(bytes, b"\x0c\0\0\0\x10a\0\x01\0\0\0\0");
/// # Ok::<(), bsonraw::ser::Error>(())
/// ```
#[cfg(not(feature = "serde"))]
pub fn to_vec(document: &crate::Document) -> Result<Vec<u8>> {
    Ok(crate::RawDocumentBuf::from_document(document)?.into_bytes())
}

/// The document of a value, which has to be a struct or a map, as bytes.
///
/// ```
/// use bsonraw::{rawdoc, to_raw_document_buf};
/// use serde::Serialize;
///
/// #[derive(Serialize)]
/// struct Person<'a> {
///     name: &'a str,
///     tags: Vec<&'a str>,
/// }
///
/// let person = Person { name: "Ada", tags: vec!["maths"] };
/// assert_eq!(to_raw_document_buf(&person)?, rawdoc! { "name": "Ada", "tags": ["maths"] });
/// # Ok::<(), bsonraw::ser::Error>(())
/// ```
#[cfg(feature = "serde")]
pub fn to_raw_document_buf<T: Serialize + ?Sized>(value: &T) -> Result<RawDocumentBuf> {
    document_of(value.serialize(Serializer::new(false))?)
}

/// The bytes of the document of a value, which has to be a struct or a map.
#[cfg(feature = "serde")]
pub fn to_vec<T: Serialize + ?Sized>(value: &T) -> Result<Vec<u8>> {
    to_raw_document_buf(value).map(RawDocumentBuf::into_bytes)
}

/// The document of a value, which has to be a struct or a map, in memory.
#[cfg(feature = "serde")]
pub fn to_document<T: Serialize + ?Sized>(value: &T) -> Result<Document> {
    Ok(document_of(value.serialize(Serializer::new(true))?)?.to_document()?)
}

/// A value in memory.
#[cfg(feature = "serde")]
pub fn to_bson<T: Serialize + ?Sized>(value: &T) -> Result<Bson> {
    Ok(value.serialize(Serializer::new(true))?.try_into()?)
}

#[cfg(feature = "serde")]
fn document_of(made: RawBson) -> Result<RawDocumentBuf> {
    match made {
        RawBson::Document(document) => Ok(document),
        other => Err(Error::custom(format!(
            "a document is a struct or a map, not a value of type {:?}",
            other.element_type()
        ))),
    }
}
