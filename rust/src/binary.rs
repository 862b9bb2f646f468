//! Binary values of texts.

use std::fmt;

pub use crate::values::Binary;

use crate::spec::BinarySubtype;
use crate::values;

/// Why a text is no binary value.
#[derive(Clone, Debug, Eq, PartialEq)]
#[non_exhaustive]
pub enum Error {
    /// The text isn't Base64.
    DecodingError {
        /// Why, in words.
        message: String,
    },
}

impl fmt::Display for Error {
    fn fmt(&self, f: &mut fmt::Formatter<'_>) -> fmt::Result {
        let Error::DecodingError { message } = self;
        f.write_str(message)
    }
}

impl std::error::Error for Error {}

/// What reading a text returns.
pub type Result<T> = std::result::Result<T, Error>;

impl Binary {
    /// The binary value of the bytes that a text of Base64 writes, of the generic subtype if none is given.
    ///
    /// ```
    /// use bsonraw::{binary::Binary, spec::BinarySubtype};
    ///
    /// let binary = Binary::from_base64("aGVsbG8=", None)?;
    /// assert_eq!(binary, Binary { subtype: BinarySubtype::Generic, bytes: b"hello".to_vec() });
    /// assert_eq!(Binary::from_base64("", BinarySubtype::Md5)?.subtype, BinarySubtype::Md5);
    /// assert!(Binary::from_base64("aGVsbG8", None).is_err());
    /// # Ok::<(), bsonraw::binary::Error>(())
    /// ```
    pub fn from_base64(input: impl AsRef<str>, subtype: impl Into<Option<BinarySubtype>>) -> Result<Binary> {
        let text = input.as_ref();
        let bytes = values::from_base64(text)
            .ok_or_else(|| Error::DecodingError { message: format!("not a text of Base64: {text:?}") })?;
        Ok(Binary { subtype: subtype.into().unwrap_or(BinarySubtype::Generic), bytes })
    }
}
