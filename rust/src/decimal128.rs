//! Decimal numbers of 128 bits.

use std::fmt;
use std::str::FromStr;

use crate::ffi;

/// A decimal number of 128 bits, as its bytes.
///
/// ```
/// use bsonraw::Decimal128;
///
/// let price: Decimal128 = "1.50".parse()?;
/// assert_eq!(price.to_string(), "1.50");
/// assert_eq!("1.05E+3".parse::<Decimal128>()?.to_string(), "1.05E+3");
/// assert!("1.5.0".parse::<Decimal128>().is_err());
/// # Ok::<(), bsonraw::decimal128::ParseError>(())
/// ```
#[derive(Clone, Copy, Eq, Hash, PartialEq)]
pub struct Decimal128 {
    bytes: [u8; 16],
}

impl Decimal128 {
    /// The number of these bytes.
    #[inline]
    pub const fn from_bytes(bytes: [u8; 16]) -> Decimal128 {
        Decimal128 { bytes }
    }

    /// The bytes of the number.
    #[inline]
    pub const fn bytes(&self) -> [u8; 16] {
        self.bytes
    }
}

/// That a text writes no decimal number, or one that no Decimal128 is exactly.
#[derive(Clone, Debug, Eq, PartialEq)]
#[non_exhaustive]
pub struct ParseError;

impl fmt::Display for ParseError {
    fn fmt(&self, f: &mut fmt::Formatter<'_>) -> fmt::Result {
        f.write_str("not the text of a Decimal128")
    }
}

impl std::error::Error for ParseError {}

impl FromStr for Decimal128 {
    type Err = ParseError;

    fn from_str(text: &str) -> Result<Decimal128, ParseError> {
        ffi::decimal128_from_text(text.as_bytes()).map(Decimal128::from_bytes).ok_or(ParseError)
    }
}

/// The text that Extended JSON has: `1.50`, `1.5E+20`, `NaN`, `-Infinity`.
impl fmt::Display for Decimal128 {
    fn fmt(&self, f: &mut fmt::Formatter<'_>) -> fmt::Result {
        f.pad(&ffi::decimal128_to_text(&self.bytes).ok_or(fmt::Error)?)
    }
}

/// `Decimal128(1.50)`.
impl fmt::Debug for Decimal128 {
    fn fmt(&self, f: &mut fmt::Formatter<'_>) -> fmt::Result {
        f.debug_tuple("Decimal128").field(&format_args!("{self}")).finish()
    }
}
