//! Ids of twelve bytes.

use std::collections::hash_map::RandomState;
use std::hash::BuildHasher;
use std::sync::atomic::{AtomicU32, Ordering};
use std::sync::OnceLock;
use std::{fmt, str};

use crate::raw::Hex;
use crate::{ffi, DateTime};

/// Why a text is no id.
#[derive(Clone, Debug, Eq, PartialEq)]
#[non_exhaustive]
pub enum Error {
    /// A character isn't a digit of hex.
    InvalidHexStringCharacter {
        /// The character.
        c: char,
        /// How many bytes are before it.
        index: usize,
        /// The text.
        hex: String,
    },
    /// There aren't 24 digits.
    InvalidHexStringLength {
        /// How many bytes the text has.
        length: usize,
        /// The text.
        hex: String,
    },
}

impl fmt::Display for Error {
    fn fmt(&self, f: &mut fmt::Formatter<'_>) -> fmt::Result {
        match self {
            Error::InvalidHexStringCharacter { c, index, hex } => {
                write!(f, "not a digit of hex: {c:?} after {index} bytes of {hex:?}")
            }
            Error::InvalidHexStringLength { length, hex } => write!(f, "an id has 24 digits, not {length}: {hex:?}"),
        }
    }
}

impl std::error::Error for Error {}

/// What reading an id returns.
pub type Result<T> = std::result::Result<T, Error>;

/// An id of twelve bytes.
#[derive(Clone, Copy, Eq, Hash, Ord, PartialEq, PartialOrd)]
pub struct ObjectId {
    id: [u8; 12],
}

/// What the ids of this process have in common, and how many there were.
struct Source {
    hashes: RandomState,
    count: AtomicU32,
}

/// The source of this process, which begins at random.
fn source() -> &'static Source {
    static SOURCE: OnceLock<Source> = OnceLock::new();
    SOURCE.get_or_init(|| {
        let hashes = RandomState::new();
        let count = AtomicU32::new(hashes.hash_one("count") as u32);
        Source { hashes, count }
    })
}

impl ObjectId {
    /// A new id: the seconds from 1970 on in four bytes, five bytes that are random and another process has others, and a number in three
    /// bytes that is the next each time.
    ///
    /// ```
    /// use bsonraw::oid::ObjectId;
    ///
    /// let (first, second) = (ObjectId::new(), ObjectId::new());
    /// assert_ne!(first, second);
    /// assert!(second.timestamp() >= first.timestamp());
    /// ```
    pub fn new() -> ObjectId {
        let seconds = (DateTime::now().timestamp_millis() / 1000) as u32;
        let source = source();
        // A child of this process has another number, so its ids are others.
        let [a, b, c, d, e, ..] = source.hashes.hash_one(std::process::id()).to_le_bytes();
        let [_, counter @ ..] = source.count.fetch_add(1, Ordering::Relaxed).to_be_bytes();
        ObjectId::from_parts(seconds, [a, b, c, d, e], counter)
    }

    /// The id of these bytes.
    #[inline]
    pub const fn from_bytes(bytes: [u8; 12]) -> ObjectId {
        ObjectId { id: bytes }
    }

    /// The id of these seconds from 1970 on, this process and this number, in this order.
    ///
    /// ```
    /// use bsonraw::oid::ObjectId;
    ///
    /// let id = ObjectId::from_parts(0x507f_1f77, [0xbc, 0xf8, 0x6c, 0xd7, 0x99], [0x43, 0x90, 0x11]);
    /// assert_eq!(id.to_hex(), "507f1f77bcf86cd799439011");
    /// ```
    pub fn from_parts(seconds_since_epoch: u32, process_id: [u8; 5], counter: [u8; 3]) -> ObjectId {
        let mut id = [0; 12];
        id[..4].copy_from_slice(&seconds_since_epoch.to_be_bytes());
        id[4..9].copy_from_slice(&process_id);
        id[9..].copy_from_slice(&counter);
        ObjectId { id }
    }

    /// The bytes of the id.
    #[inline]
    pub const fn bytes(&self) -> [u8; 12] {
        self.id
    }

    /// The id that 24 digits of hex write, in capitals or not.
    ///
    /// ```
    /// use bsonraw::oid::ObjectId;
    ///
    /// let id = ObjectId::parse_str("507f1f77bcf86cd799439011")?;
    /// assert_eq!(id.timestamp().timestamp_millis(), 1_350_508_407_000);
    /// # Ok::<(), bsonraw::oid::Error>(())
    /// ```
    pub fn parse_str(hex: impl AsRef<str>) -> Result<ObjectId> {
        let hex = hex.as_ref();
        ffi::oid_from_hex(hex.as_bytes()).map(ObjectId::from_bytes).ok_or_else(|| refused(hex))
    }

    /// The time that the first four bytes say, to the second.
    pub fn timestamp(&self) -> DateTime {
        DateTime::from_millis(i64::from(ffi::oid_time(&self.id)) * 1000)
    }

    /// The bytes as 24 digits.
    pub fn to_hex(self) -> String {
        Hex(&self.id).to_string()
    }
}

/// Why a text is no id: an odd length comes before a character, and any other length after it.
#[cold]
fn refused(hex: &str) -> Error {
    let length = hex.len();
    match hex.char_indices().find(|(_, c)| !c.is_ascii_hexdigit()) {
        Some((index, c)) if length % 2 == 0 => Error::InvalidHexStringCharacter { c, index, hex: hex.to_owned() },
        _ => Error::InvalidHexStringLength { length, hex: hex.to_owned() },
    }
}

impl str::FromStr for ObjectId {
    type Err = Error;

    fn from_str(hex: &str) -> Result<ObjectId> {
        ObjectId::parse_str(hex)
    }
}

/// A new one.
impl Default for ObjectId {
    fn default() -> ObjectId {
        ObjectId::new()
    }
}

impl From<[u8; 12]> for ObjectId {
    fn from(bytes: [u8; 12]) -> ObjectId {
        ObjectId::from_bytes(bytes)
    }
}

impl fmt::Display for ObjectId {
    fn fmt(&self, f: &mut fmt::Formatter<'_>) -> fmt::Result {
        f.pad(&self.to_hex())
    }
}

impl fmt::Debug for ObjectId {
    fn fmt(&self, f: &mut fmt::Formatter<'_>) -> fmt::Result {
        f.debug_tuple("ObjectId").field(&Hex(&self.id)).finish()
    }
}
