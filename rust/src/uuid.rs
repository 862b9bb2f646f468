//! UUIDs, which are binary values of 16 bytes.

use std::collections::hash_map::RandomState;
use std::fmt;
use std::hash::BuildHasher;
use std::str::FromStr;
use std::sync::atomic::{AtomicU64, Ordering};
use std::sync::OnceLock;

use crate::raw::{Hex, RawBson};
use crate::spec::BinarySubtype;
use crate::{Binary, Bson};

/// Why a text or a binary value is no UUID.
#[derive(Clone, Debug, Eq, PartialEq)]
#[non_exhaustive]
pub enum Error {
    /// The text isn't one of a UUID.
    #[non_exhaustive]
    InvalidUuidString {
        /// Why, in words.
        message: String,
    },
    /// The binary value has another subtype than the representation.
    #[non_exhaustive]
    RepresentationMismatch {
        /// That of the representation.
        expected_binary_subtype: BinarySubtype,
        /// That of the value.
        actual_binary_subtype: BinarySubtype,
        /// The representation.
        requested_representation: UuidRepresentation,
    },
    /// The binary value hasn't 16 bytes.
    #[non_exhaustive]
    InvalidLength {
        /// How many it has.
        length: usize,
    },
}

impl fmt::Display for Error {
    fn fmt(&self, f: &mut fmt::Formatter<'_>) -> fmt::Result {
        match self {
            Error::InvalidUuidString { message } => f.write_str(message),
            Error::RepresentationMismatch { actual_binary_subtype, requested_representation, .. } => {
                write!(f, "a UUID of {requested_representation:?} hasn't the subtype {actual_binary_subtype:?}")
            }
            Error::InvalidLength { length } => write!(f, "a UUID has 16 bytes, not {length}"),
        }
    }
}

impl std::error::Error for Error {}

/// What reading a UUID returns.
pub type Result<T> = std::result::Result<T, Error>;

/// How the bytes of a UUID lie in a binary value.
#[derive(Clone, Copy, Debug, Default, Eq, PartialEq)]
#[non_exhaustive]
pub enum UuidRepresentation {
    /// In their order, of the subtype `Uuid`.
    #[default]
    Standard,
    /// As programs in C# wrote them: the first three groups in reverse order each, of the subtype `UuidOld`.
    CSharpLegacy,
    /// As programs in Java wrote them: each half in reverse order, of the subtype `UuidOld`.
    JavaLegacy,
    /// As programs in Python wrote them: in their order, of the subtype `UuidOld`.
    PythonLegacy,
}

impl UuidRepresentation {
    fn subtype(self) -> BinarySubtype {
        match self {
            UuidRepresentation::Standard => BinarySubtype::Uuid,
            _ => BinarySubtype::UuidOld,
        }
    }

    /// Puts bytes of a UUID into the order of the representation, or back.
    fn turn(self, bytes: &mut [u8; 16]) {
        match self {
            UuidRepresentation::CSharpLegacy => {
                bytes[..4].reverse();
                bytes[4..6].reverse();
                bytes[6..8].reverse();
            }
            UuidRepresentation::JavaLegacy => {
                bytes[..8].reverse();
                bytes[8..].reverse();
            }
            UuidRepresentation::Standard | UuidRepresentation::PythonLegacy => {}
        }
    }
}

/// A UUID.
///
/// ```
/// use bsonraw::{rawdoc, Binary, Uuid};
///
/// let id = Uuid::parse_str("00112233-4455-6677-8899-aabbccddeeff")?;
/// let document = rawdoc! { "id": id };
/// assert_eq!(document.get_binary("id")?.to_binary(), Binary::from(id));
/// assert_eq!(document.get_binary("id")?.to_binary().to_uuid()?, id);
/// assert_eq!(id.to_string(), "00112233-4455-6677-8899-aabbccddeeff");
/// # Ok::<(), Box<dyn std::error::Error>>(())
/// ```
#[derive(Clone, Copy, Eq, Hash, Ord, PartialEq, PartialOrd)]
pub struct Uuid {
    bytes: [u8; 16],
}

impl Uuid {
    /// A new UUID of version 4: all but six of its bits are random.
    pub fn new() -> Uuid {
        static HASHES: OnceLock<RandomState> = OnceLock::new();
        static COUNT: AtomicU64 = AtomicU64::new(0);
        let hashes = HASHES.get_or_init(RandomState::new);
        let number = COUNT.fetch_add(1, Ordering::Relaxed);
        // A child of this process has another number, so its UUIDs are others.
        let half = |half: u64| hashes.hash_one((std::process::id(), number, half)).to_le_bytes();
        let mut bytes = [0; 16];
        bytes[..8].copy_from_slice(&half(0));
        bytes[8..].copy_from_slice(&half(1));
        bytes[6] = bytes[6] & 0x0F | 0x40;
        bytes[8] = bytes[8] & 0x3F | 0x80;
        Uuid { bytes }
    }

    /// The UUID of these bytes.
    pub const fn from_bytes(bytes: [u8; 16]) -> Uuid {
        Uuid { bytes }
    }

    /// The bytes of the UUID.
    pub const fn bytes(self) -> [u8; 16] {
        self.bytes
    }

    /// The UUID that a text writes: 32 digits of hex, in capitals or not, in five groups with hyphens between them, also in braces or after
    /// `urn:uuid:`; or without hyphens.
    pub fn parse_str(input: impl AsRef<str>) -> Result<Uuid> {
        let text = input.as_ref();
        let refused = || Error::InvalidUuidString { message: format!("not a UUID: {text:?}") };
        let digits = digits_of(text).ok_or_else(refused)?;
        let mut bytes = [0; 16];
        for (byte, pair) in bytes.iter_mut().zip(digits.as_bytes().chunks(2)) {
            let digit = |of: u8| char::from(of).to_digit(16).ok_or_else(refused);
            *byte = (digit(pair[0])? << 4 | digit(pair[1])?) as u8;
        }
        Ok(Uuid { bytes })
    }
}

/// The 32 characters in which a text of a UUID has its digits.
fn digits_of(text: &str) -> Option<String> {
    let in_braces = text.strip_prefix('{').and_then(|rest| rest.strip_suffix('}'));
    let inner = in_braces.or_else(|| text.strip_prefix("urn:uuid:"));
    let groups: Vec<&str> = inner.unwrap_or(text).split('-').collect();
    let lens: Vec<usize> = groups.iter().map(|group| group.len()).collect();
    (lens == [8, 4, 4, 4, 12] || lens == [32] && inner.is_none()).then(|| groups.concat())
}

/// A new one.
impl Default for Uuid {
    fn default() -> Uuid {
        Uuid::new()
    }
}

impl FromStr for Uuid {
    type Err = Error;

    fn from_str(text: &str) -> Result<Uuid> {
        Uuid::parse_str(text)
    }
}

impl fmt::Display for Uuid {
    fn fmt(&self, f: &mut fmt::Formatter<'_>) -> fmt::Result {
        let part = |from: usize, to: usize| Hex(&self.bytes[from..to]);
        write!(f, "{}-{}-{}-{}-{}", part(0, 4), part(4, 6), part(6, 8), part(8, 10), part(10, 16))
    }
}

impl fmt::Debug for Uuid {
    fn fmt(&self, f: &mut fmt::Formatter<'_>) -> fmt::Result {
        write!(f, "{self}")
    }
}

impl Binary {
    /// The binary value of a UUID.
    pub fn from_uuid(uuid: Uuid) -> Binary {
        Binary::from_uuid_with_representation(uuid, UuidRepresentation::Standard)
    }

    /// The binary value of a UUID, as a representation has it.
    ///
    /// ```
    /// use bsonraw::{spec::BinarySubtype, Binary, Uuid, UuidRepresentation};
    ///
    /// let id = Uuid::parse_str("00112233-4455-6677-8899-aabbccddeeff")?;
    /// let binary = Binary::from_uuid_with_representation(id, UuidRepresentation::CSharpLegacy);
    /// assert_eq!((binary.subtype, &binary.bytes[..8]), (BinarySubtype::UuidOld, &b"\x33\x22\x11\0\x55\x44\x77\x66"[..]));
    /// assert_eq!(binary.to_uuid_with_representation(UuidRepresentation::CSharpLegacy)?, id);
    /// # Ok::<(), bsonraw::uuid::Error>(())
    /// ```
    pub fn from_uuid_with_representation(uuid: Uuid, rep: UuidRepresentation) -> Binary {
        let mut bytes = uuid.bytes;
        rep.turn(&mut bytes);
        Binary { subtype: rep.subtype(), bytes: bytes.to_vec() }
    }

    /// The UUID that it is. It fails if the subtype isn't `Uuid`, and if there aren't 16 bytes.
    pub fn to_uuid(&self) -> Result<Uuid> {
        self.to_uuid_with_representation(UuidRepresentation::Standard)
    }

    /// The UUID that it is, as a representation has it. It fails if the subtype is another one, and if there aren't 16 bytes.
    pub fn to_uuid_with_representation(&self, rep: UuidRepresentation) -> Result<Uuid> {
        if self.subtype != rep.subtype() {
            return Err(Error::RepresentationMismatch {
                expected_binary_subtype: rep.subtype(),
                actual_binary_subtype: self.subtype,
                requested_representation: rep,
            });
        }
        let wrong = Error::InvalidLength { length: self.bytes.len() };
        let mut bytes = <[u8; 16]>::try_from(&self.bytes[..]).map_err(|_| wrong)?;
        rep.turn(&mut bytes);
        Ok(Uuid { bytes })
    }
}

impl From<Uuid> for Binary {
    fn from(uuid: Uuid) -> Binary {
        Binary::from_uuid(uuid)
    }
}

impl From<Uuid> for Bson {
    fn from(uuid: Uuid) -> Bson {
        Bson::Binary(uuid.into())
    }
}

impl From<Uuid> for RawBson {
    fn from(uuid: Uuid) -> RawBson {
        RawBson::Binary(uuid.into())
    }
}
