//! The kinds of elements, and the subtypes of binary values.

use crate::sys;

/// A kind of element, by the tag that BSON gives it.
#[repr(u8)]
#[derive(Clone, Copy, Debug, Eq, Hash, PartialEq)]
pub enum ElementType {
    /// A number of 64 bits in floating point.
    Double = sys::BSONRAW_TAG_DOUBLE as u8,
    /// A text.
    String = sys::BSONRAW_TAG_STRING as u8,
    /// A document.
    EmbeddedDocument = sys::BSONRAW_TAG_DOCUMENT as u8,
    /// An array.
    Array = sys::BSONRAW_TAG_ARRAY as u8,
    /// Bytes with a subtype.
    Binary = sys::BSONRAW_TAG_BINARY as u8,
    /// Nothing (deprecated).
    Undefined = sys::BSONRAW_TAG_UNDEFINED as u8,
    /// An id of twelve bytes.
    ObjectId = sys::BSONRAW_TAG_OBJECT_ID as u8,
    /// True or false.
    Boolean = sys::BSONRAW_TAG_BOOLEAN as u8,
    /// A time in milliseconds.
    DateTime = sys::BSONRAW_TAG_DATETIME as u8,
    /// Nothing.
    Null = sys::BSONRAW_TAG_NULL as u8,
    /// A regular expression.
    RegularExpression = sys::BSONRAW_TAG_REGEX as u8,
    /// A namespace with an id (deprecated).
    DbPointer = sys::BSONRAW_TAG_DB_POINTER as u8,
    /// Code.
    JavaScriptCode = sys::BSONRAW_TAG_JAVASCRIPT as u8,
    /// A text (deprecated).
    Symbol = sys::BSONRAW_TAG_SYMBOL as u8,
    /// Code with a document of its variables (deprecated).
    JavaScriptCodeWithScope = sys::BSONRAW_TAG_JAVASCRIPT_WITH_SCOPE as u8,
    /// A whole number of 32 bits.
    Int32 = sys::BSONRAW_TAG_INT32 as u8,
    /// A time in seconds, with a number.
    Timestamp = sys::BSONRAW_TAG_TIMESTAMP as u8,
    /// A whole number of 64 bits.
    Int64 = sys::BSONRAW_TAG_INT64 as u8,
    /// A decimal number of 128 bits.
    Decimal128 = sys::BSONRAW_TAG_DECIMAL128 as u8,
    /// What is greater than any value.
    MaxKey = sys::BSONRAW_TAG_MAX_KEY as u8,
    /// What is less than any value.
    MinKey = sys::BSONRAW_TAG_MIN_KEY as u8,
}

impl ElementType {
    /// All kinds, in the order of their tags.
    pub(crate) const ALL: [ElementType; 21] = [
        ElementType::Double,
        ElementType::String,
        ElementType::EmbeddedDocument,
        ElementType::Array,
        ElementType::Binary,
        ElementType::Undefined,
        ElementType::ObjectId,
        ElementType::Boolean,
        ElementType::DateTime,
        ElementType::Null,
        ElementType::RegularExpression,
        ElementType::DbPointer,
        ElementType::JavaScriptCode,
        ElementType::Symbol,
        ElementType::JavaScriptCodeWithScope,
        ElementType::Int32,
        ElementType::Timestamp,
        ElementType::Int64,
        ElementType::Decimal128,
        ElementType::MaxKey,
        ElementType::MinKey,
    ];

    /// The kind with this tag, if there is one.
    #[inline]
    pub fn from(tag: u8) -> Option<ElementType> {
        match tag {
            1..=19 => Some(ElementType::ALL[usize::from(tag) - 1]),
            0x7F => Some(ElementType::MaxKey),
            0xFF => Some(ElementType::MinKey),
            _ => None,
        }
    }
}

/// What the bytes of a binary value are.
#[derive(Clone, Copy, Debug, Eq, Hash, PartialEq)]
#[non_exhaustive]
pub enum BinarySubtype {
    /// Any bytes: 0.
    Generic,
    /// A function: 1.
    Function,
    /// Any bytes, in a form that isn't used any more: 2. Their length is there a second time.
    BinaryOld,
    /// A UUID in a form that isn't used any more: 3.
    UuidOld,
    /// A UUID: 4.
    Uuid,
    /// An MD5 checksum: 5.
    Md5,
    /// An encrypted value: 6.
    Encrypted,
    /// A compressed column: 7.
    Column,
    /// What isn't to be logged: 8.
    Sensitive,
    /// A vector of numbers: 9.
    Vector,
    /// 128 to 255: for users.
    UserDefined(u8),
    /// 10 to 127: not used so far.
    Reserved(u8),
}

/// The subtypes with a name, in the order of their numbers.
const NAMED: [BinarySubtype; 10] = [
    BinarySubtype::Generic,
    BinarySubtype::Function,
    BinarySubtype::BinaryOld,
    BinarySubtype::UuidOld,
    BinarySubtype::Uuid,
    BinarySubtype::Md5,
    BinarySubtype::Encrypted,
    BinarySubtype::Column,
    BinarySubtype::Sensitive,
    BinarySubtype::Vector,
];

impl From<u8> for BinarySubtype {
    #[inline]
    fn from(number: u8) -> BinarySubtype {
        match number {
            0..=9 => NAMED[usize::from(number)],
            10..=0x7F => BinarySubtype::Reserved(number),
            0x80..=0xFF => BinarySubtype::UserDefined(number),
        }
    }
}

impl From<BinarySubtype> for u8 {
    #[inline]
    fn from(subtype: BinarySubtype) -> u8 {
        match subtype {
            BinarySubtype::Generic => 0,
            BinarySubtype::Function => 1,
            BinarySubtype::BinaryOld => 2,
            BinarySubtype::UuidOld => 3,
            BinarySubtype::Uuid => 4,
            BinarySubtype::Md5 => 5,
            BinarySubtype::Encrypted => 6,
            BinarySubtype::Column => 7,
            BinarySubtype::Sensitive => 8,
            BinarySubtype::Vector => 9,
            BinarySubtype::UserDefined(number) | BinarySubtype::Reserved(number) => number,
        }
    }
}
