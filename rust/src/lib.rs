//! Raw BSON documents, read as they lie in memory, over a library whose calls are proved to return what a short definition of the
//! format says, on any bytes.
//!
//! [`raw`] has the names of the module `raw` of the crate `bson`, and does what they do there; so have [`Document`], [`Bson`] and [`doc!`],
//! for documents in memory. [`whole`] has calls over all levels of a document: the first fault, whether it is canonical, its canonical
//! form, and its text as Extended JSON; and the documents of a dump. With the feature `serde`, which the manifest in `with-serde` has,
//! [`de`] and [`ser`] read and write values of any type.
//!
//! ```
//! use bsonraw::raw::RawDocument;
//!
//! let document = RawDocument::from_bytes(b"\x13\0\0\0\x10a\0\x01\0\0\0\x10a\0\x02\0\0\0\0")?;
//! assert_eq!(document.get_i32("a")?, 1);
//! let form = document.canonical()?;
//! assert_eq!(form.get_i32("a")?, 2);
//! assert_eq!(form.to_json()?, r#"{"a":2}"#);
//! # Ok::<(), Box<dyn std::error::Error>>(())
//! ```
//!
//! The library is linked in; `build.rs` of `bsonraw-sys` says where it is looked for. All calls into it, and all that is `unsafe`, is in
//! one file.

#![deny(unsafe_code)]
#![warn(missing_debug_implementations, missing_docs)]

pub mod binary;
mod bson;
pub mod datetime;
pub mod de;
pub mod decimal128;
pub mod document;
mod entries;
mod ffi;
mod macros;
pub mod oid;
mod path_error;
pub mod raw;
mod read;
pub mod ser;
#[cfg(feature = "serde")]
pub mod serde_helpers;
pub mod spec;
mod texts;
pub mod uuid;
mod values;
pub mod whole;
#[cfg(feature = "serde")]
mod with_serde;

pub use bson::{Array, Bson};
pub use bsonraw_sys as sys;
pub use datetime::DateTime;
#[cfg(feature = "serde")]
pub use de::{from_bson, from_document, from_reader, from_slice};
pub use decimal128::Decimal128;
pub use document::Document;
pub use raw::{
    RawArray, RawArrayBuf, RawBinaryRef, RawBson, RawBsonRef, RawDbPointerRef, RawDocument, RawDocumentBuf,
    RawJavaScriptCodeWithScope, RawJavaScriptCodeWithScopeRef, RawRegexRef,
};
pub use ser::to_vec;
#[cfg(feature = "serde")]
pub use ser::{to_bson, to_document, to_raw_document_buf};
pub use uuid::{Uuid, UuidRepresentation};
pub use values::{Binary, DbPointer, JavaScriptCodeWithScope, Regex, Timestamp};

/// The version of the library that is linked in: 20000 for 2.0.0.
pub fn version() -> u32 {
    ffi::version()
}
