//! Documents as values in memory: an ordered map of keys to [`Bson`]s.
//!
//! ```
//! use bsonraw::{doc, Bson, RawDocumentBuf};
//!
//! let mut document = doc! { "name": "Ada", "tags": ["maths", "poetry"] };
//! document.insert("born", 1815);
//! assert_eq!(document.get_str("name")?, "Ada");
//! assert_eq!(document.get("born"), Some(&Bson::Int32(1815)));
//!
//! let raw = RawDocumentBuf::from_document(&document)?;
//! assert_eq!(raw.get_array("tags")?.get_str(1)?, "poetry");
//! assert_eq!(raw.to_document()?, document);
//! # Ok::<(), Box<dyn std::error::Error>>(())
//! ```

use std::fmt;
use std::io::{Read, Write};

use crate::entries::Entries;
use crate::oid::ObjectId;
use crate::raw::{RawDocument, RawDocumentBuf};
use crate::spec::BinarySubtype;
use crate::{de, ser};
use crate::{Array, Bson, DateTime, Decimal128, Timestamp};

mod iter;

pub use iter::{IntoIter, Iter, IterMut};

/// How many levels a document has at most that comes into memory from bytes: each takes some of the stack, also of what prints, compares
/// or drops it. MongoDB has 100.
pub(crate) const LEVELS: usize = 200;

/// An ordered map of keys to values: they come in the order in which they were inserted. Two are equal if they have the same keys with
/// equal values, in any order.
#[derive(Clone, PartialEq)]
pub struct Document {
    entries: Entries<Bson>,
}

/// Why a getter, such as [`get_i32`](Document::get_i32), doesn't return a value.
#[derive(Clone, Copy, Debug, Eq, PartialEq)]
#[non_exhaustive]
pub enum ValueAccessError {
    /// No element has the key.
    NotPresent,
    /// The value is of another type.
    UnexpectedType,
}

impl fmt::Display for ValueAccessError {
    fn fmt(&self, f: &mut fmt::Formatter<'_>) -> fmt::Result {
        f.write_str(match self {
            ValueAccessError::NotPresent => "field is not present",
            ValueAccessError::UnexpectedType => "field does not have the expected type",
        })
    }
}

impl std::error::Error for ValueAccessError {}

/// What a getter returns.
pub type ValueAccessResult<T> = std::result::Result<T, ValueAccessError>;

/// Declares the getters of a document, and those of values that are to be changed.
macro_rules! getters {
    ($($what:literal $get:ident -> $of:ty, $get_mut:ident -> $of_mut:ty = $kind:ident $value:ident $given:expr, $given_mut:expr;)*) => {
        $(
            #[doc = $what]
            ///
            /// It fails where the key isn't there, and where the value is of another type.
            pub fn $get(&self, key: impl AsRef<str>) -> ValueAccessResult<$of> {
                match self.get(key) {
                    Some(Bson::$kind($value)) => Ok($given),
                    Some(_) => Err(ValueAccessError::UnexpectedType),
                    None => Err(ValueAccessError::NotPresent),
                }
            }

            #[doc = $what]
            #[doc = "It can be changed."]
            ///
            /// It fails where the key isn't there, and where the value is of another type.
            pub fn $get_mut(&mut self, key: impl AsRef<str>) -> ValueAccessResult<$of_mut> {
                match self.get_mut(key) {
                    Some(Bson::$kind($value)) => Ok($given_mut),
                    Some(_) => Err(ValueAccessError::UnexpectedType),
                    None => Err(ValueAccessError::NotPresent),
                }
            }
        )*
    };
}

impl Document {
    /// An empty document.
    pub fn new() -> Document {
        Document { entries: Entries::new() }
    }

    /// Takes all elements out.
    pub fn clear(&mut self) {
        self.entries = Entries::new();
    }

    /// The keys and values in order.
    pub fn iter(&self) -> Iter<'_> {
        Iter::new(self.entries.list().iter())
    }

    /// The keys and values in order; the values can be changed.
    pub fn iter_mut(&mut self) -> IterMut<'_> {
        IterMut::new(self.entries.iter_mut())
    }

    /// The keys in order.
    pub fn keys(&self) -> impl DoubleEndedIterator<Item = &String> + ExactSizeIterator {
        self.entries.list().iter().map(|(key, _)| key)
    }

    /// The values in order.
    pub fn values(&self) -> impl DoubleEndedIterator<Item = &Bson> + ExactSizeIterator {
        self.entries.list().iter().map(|(_, value)| value)
    }

    /// How many elements there are.
    pub fn len(&self) -> usize {
        self.entries.list().len()
    }

    /// Whether there is no element.
    pub fn is_empty(&self) -> bool {
        self.entries.list().is_empty()
    }

    /// Whether the key is there.
    pub fn contains_key(&self, key: impl AsRef<str>) -> bool {
        self.entries.place(key.as_ref()).is_some()
    }

    /// The value of a key.
    pub fn get(&self, key: impl AsRef<str>) -> Option<&Bson> {
        self.entries.get(key.as_ref())
    }

    /// The value of a key, to be changed.
    pub fn get_mut(&mut self, key: impl AsRef<str>) -> Option<&mut Bson> {
        let place = self.entries.place(key.as_ref())?;
        Some(self.entries.at_mut(place))
    }

    getters! {
        "The double of a key." get_f64 -> f64, get_f64_mut -> &mut f64 = Double it *it, it;
        "The string of a key." get_str -> &str, get_str_mut -> &mut str = String it it, it;
        "The array of a key." get_array -> &Array, get_array_mut -> &mut Array = Array it it, it;
        "The document of a key." get_document -> &Document, get_document_mut -> &mut Document = Document it it, it;
        "The boolean of a key." get_bool -> bool, get_bool_mut -> &mut bool = Boolean it *it, it;
        "The number of 32 bits of a key." get_i32 -> i32, get_i32_mut -> &mut i32 = Int32 it *it, it;
        "The number of 64 bits of a key." get_i64 -> i64, get_i64_mut -> &mut i64 = Int64 it *it, it;
        "The timestamp of a key." get_timestamp -> Timestamp, get_timestamp_mut -> &mut Timestamp = Timestamp it *it, it;
        "The id of a key." get_object_id -> ObjectId, get_object_id_mut -> &mut ObjectId = ObjectId it *it, it;
        "The time of a key." get_datetime -> &DateTime, get_datetime_mut -> &mut DateTime = DateTime it it, it;
        "The Decimal128 of a key." get_decimal128 -> &Decimal128, get_decimal128_mut -> &mut Decimal128 = Decimal128 it it, it;
    }

    /// The bytes of the binary value of a key, if its subtype is the generic one.
    pub fn get_binary_generic(&self, key: impl AsRef<str>) -> ValueAccessResult<&Vec<u8>> {
        match self.get(key) {
            Some(Bson::Binary(binary)) if binary.subtype == BinarySubtype::Generic => Ok(&binary.bytes),
            Some(_) => Err(ValueAccessError::UnexpectedType),
            None => Err(ValueAccessError::NotPresent),
        }
    }

    /// Whether the value of a key is null.
    pub fn is_null(&self, key: impl AsRef<str>) -> bool {
        self.get(key) == Some(&Bson::Null)
    }

    /// Puts a value under a key: in its place if the key is there, whose old value is returned; else at the end.
    pub fn insert(&mut self, key: impl Into<String>, value: impl Into<Bson>) -> Option<Bson> {
        self.entries.insert(key.into(), value.into())
    }

    /// Takes a key out, and returns its value. The others stay in order.
    pub fn remove(&mut self, key: impl AsRef<str>) -> Option<Bson> {
        self.entries.remove(key.as_ref())
    }

    /// The element of a key, or its place, to be changed.
    ///
    /// ```
    /// let mut document = bsonraw::doc! { "a": 1 };
    /// document.entry("a".into()).or_insert(7.into());
    /// document.entry("b".into()).or_insert_with(|| true.into());
    /// assert_eq!(document, bsonraw::doc! { "a": 1, "b": true });
    /// ```
    pub fn entry(&mut self, key: String) -> Entry<'_> {
        let place = self.entries.place(&key);
        Entry { document: self, key, place }
    }

    /// Writes the document as BSON.
    pub fn to_writer(&self, mut writer: impl Write) -> ser::Result<()> {
        writer.write_all(RawDocumentBuf::from_document(self)?.as_bytes())?;
        Ok(())
    }

    /// Reads a document of BSON, up to its end. It has 16 MiB at most; [`Documents`](crate::whole::Documents) reads larger ones.
    ///
    /// ```
    /// use bsonraw::{doc, Document};
    ///
    /// let mut bytes = Vec::new();
    /// doc! { "a": 1 }.to_writer(&mut bytes)?;
    /// assert_eq!(Document::from_reader(&mut bytes.as_slice())?, doc! { "a": 1 });
    /// # Ok::<(), Box<dyn std::error::Error>>(())
    /// ```
    pub fn from_reader(reader: impl Read) -> de::Result<Document> {
        let bytes = de::document_bytes(reader)?;
        Ok(RawDocument::from_bytes(&bytes)?.to_document()?)
    }
}

impl Default for Document {
    fn default() -> Document {
        Document::new()
    }
}

/// As the crate `bson` prints it: `Document({"a": Int32(1)})`.
impl fmt::Debug for Document {
    fn fmt(&self, f: &mut fmt::Formatter<'_>) -> fmt::Result {
        f.write_str("Document(")?;
        f.debug_map().entries(self).finish()?;
        f.write_str(")")
    }
}

/// As the crate `bson` prints it: `{ "a": 1 }`.
impl fmt::Display for Document {
    fn fmt(&self, f: &mut fmt::Formatter<'_>) -> fmt::Result {
        f.write_str("{")?;
        for (number, (key, value)) in self.iter().enumerate() {
            write!(f, "{}\"{key}\": {value}", if number == 0 { " " } else { ", " })?;
        }
        f.write_str(if self.is_empty() { "}" } else { " }" })
    }
}

/// A key of a document, which may be there.
#[derive(Debug)]
pub struct Entry<'a> {
    document: &'a mut Document,
    key: String,
    place: Option<usize>,
}

impl<'a> Entry<'a> {
    /// The key.
    pub fn key(&self) -> &str {
        &self.key
    }

    /// The value of the key, which is this one if there was none.
    pub fn or_insert(self, value: Bson) -> &'a mut Bson {
        self.or_insert_with(|| value)
    }

    /// The value of the key, which is that of the function if there was none.
    pub fn or_insert_with(self, value: impl FnOnce() -> Bson) -> &'a mut Bson {
        let entries = &mut self.document.entries;
        let place = self.place.unwrap_or_else(|| entries.push(self.key, value()));
        entries.at_mut(place)
    }
}

impl FromIterator<(String, Bson)> for Document {
    fn from_iter<I: IntoIterator<Item = (String, Bson)>>(elements: I) -> Document {
        let mut document = Document::new();
        document.extend(elements);
        document
    }
}

impl Extend<(String, Bson)> for Document {
    fn extend<I: IntoIterator<Item = (String, Bson)>>(&mut self, elements: I) {
        for (key, value) in elements {
            self.entries.insert(key, value);
        }
    }
}
