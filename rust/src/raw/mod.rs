//! Documents as the bytes that they are: nothing is read before it is asked for, and a value that is read borrows from the bytes.
//!
//! [`RawDocument`] is to [`RawDocumentBuf`] as `str` is to `String`; so are [`RawArray`] and [`RawArrayBuf`], [`RawBsonRef`] and
//! [`RawBson`]. The names are those of the module `raw` of the crate `bson`, and so is what the calls do.
//!
//! ```
//! use bsonraw::raw::{RawBsonRef, RawDocument, RawDocumentBuf, ValueAccessErrorKind};
//!
//! let mut document = RawDocumentBuf::new();
//! document.append("name", "Ada");
//! document.append("born", 1815);
//!
//! let document = RawDocument::from_bytes(document.as_bytes())?;
//! for element in document {
//!     let (key, value) = element?;
//!     println!("{key}: {value:?}");
//! }
//! assert_eq!(document.get("name")?, Some(RawBsonRef::String("Ada")));
//! assert_eq!(document.get_i32("born")?, 1815);
//! assert_eq!(document.get_i32("died").unwrap_err().kind, ValueAccessErrorKind::NotPresent);
//! # Ok::<(), Box<dyn std::error::Error>>(())
//! ```
//!
//! What is read lives as long as the bytes, and no longer. It outlives the iterator and the element:
//!
//! ```
//! use bsonraw::raw::RawDocument;
//!
//! let bytes = b"\x13\0\0\0\x02hi\0\x06\0\0\0y'all\0\0".to_vec();
//! let document = RawDocument::from_bytes(&bytes)?;
//! let text = {
//!     let element = document.iter_elements().next().unwrap()?;
//!     element.value()?.as_str()
//! };
//! assert_eq!(text, Some("y'all"));
//! # Ok::<(), bsonraw::raw::Error>(())
//! ```
//!
//! A text can't be used after its bytes are gone,
//!
//! ```compile_fail,E0505
//! use bsonraw::raw::RawDocument;
//!
//! let bytes = b"\x13\0\0\0\x02hi\0\x06\0\0\0y'all\0\0".to_vec();
//! let text = RawDocument::from_bytes(&bytes).unwrap().get_str("hi").unwrap();
//! drop(bytes);
//! println!("{text}");
//! ```
//!
//! an element can't leave what holds its bytes,
//!
//! ```compile_fail,E0515
//! use bsonraw::raw::{RawDocumentBuf, RawElement};
//!
//! fn first() -> Option<RawElement<'static>> {
//!     let document = RawDocumentBuf::new();
//!     document.iter_elements().next()?.ok()
//! }
//! ```
//!
//! and no buffer is appended to while a view of it is in use:
//!
//! ```compile_fail,E0502
//! use bsonraw::raw::RawDocumentBuf;
//!
//! let mut document = RawDocumentBuf::new();
//! document.append("a", 1);
//! let mut elements = document.iter();
//! document.append("b", 2);
//! elements.next();
//! ```

use std::fmt;

/// The twelve getters of a view, each over its `get_with`.
macro_rules! getters {
    ($at:ident: $of:ty) => {
        getters! {
            $at: $of,
            /// The double there.
            get_f64 -> f64 = Double as_f64;
            /// The string there.
            get_str -> &str = String as_str;
            /// The document there.
            get_document -> &RawDocument = EmbeddedDocument as_document;
            /// The array there.
            get_array -> &RawArray = Array as_array;
            /// The binary value there.
            get_binary -> RawBinaryRef<'_> = Binary as_binary;
            /// The id there.
            get_object_id -> ObjectId = ObjectId as_object_id;
            /// The boolean there.
            get_bool -> bool = Boolean as_bool;
            /// The time there.
            get_datetime -> DateTime = DateTime as_datetime;
            /// The regular expression there.
            get_regex -> RawRegexRef<'_> = RegularExpression as_regex;
            /// The timestamp there.
            get_timestamp -> Timestamp = Timestamp as_timestamp;
            /// The number of 32 bits there.
            get_i32 -> i32 = Int32 as_i32;
            /// The number of 64 bits there.
            get_i64 -> i64 = Int64 as_i64;
        }
    };
    ($at:ident: $of:ty, $($(#[$what:meta])* $name:ident -> $value:ty = $kind:ident $as:ident;)*) => {
        $(
            $(#[$what])*
            ///
            /// It fails where nothing is there, where the value is of another type, and where a fault is in the way.
            #[inline]
            pub fn $name(&self, $at: $of) -> ValueAccessResult<$value> {
                self.get_with($at, ElementType::$kind, RawBsonRef::$as)
            }
        )*
    };
}

mod array;
mod array_buf;
mod bson;
mod bson_ref;
mod convert;
mod document;
mod document_buf;
mod error;
mod iter;

pub use self::array::RawArray;
pub use self::array_buf::RawArrayBuf;
pub use self::bson::{RawBson, RawJavaScriptCodeWithScope};
pub use self::bson_ref::{RawBinaryRef, RawBsonRef, RawDbPointerRef, RawJavaScriptCodeWithScopeRef, RawRegexRef};
#[cfg(feature = "serde")]
pub(crate) use self::convert::with_raw;
pub use self::document::RawDocument;
pub use self::document_buf::RawDocumentBuf;
pub use self::error::{Error, ErrorKind, Result, ValueAccessError, ValueAccessErrorKind, ValueAccessResult};
pub use self::iter::{Iter, RawArrayIter, RawElement, RawIter};

/// Bytes that are printed in hex, and with `{:?}` in quotes.
pub(crate) struct Hex<'a>(pub(crate) &'a [u8]);

impl fmt::Display for Hex<'_> {
    fn fmt(&self, f: &mut fmt::Formatter<'_>) -> fmt::Result {
        self.0.iter().try_for_each(|byte| write!(f, "{byte:02x}"))
    }
}

impl fmt::Debug for Hex<'_> {
    fn fmt(&self, f: &mut fmt::Formatter<'_>) -> fmt::Result {
        write!(f, "\"{self}\"")
    }
}
