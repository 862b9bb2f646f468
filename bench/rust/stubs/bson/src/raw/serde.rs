//! In place of the crate's raw/serde.rs, which needs the rest of serde's support. Nothing that is measured reaches it.

use serde::{de::Visitor, Deserialize, Deserializer};

use super::{RawArray, RawArrayBuf, RawBson, RawBsonRef, RawDocument, RawDocumentBuf};

#[derive(Debug)]
pub(crate) enum OwnedOrBorrowedRawBson<'a> {
    #[allow(dead_code)]
    Owned(RawBson),
    #[allow(dead_code)]
    Borrowed(RawBsonRef<'a>),
}

#[derive(Debug)]
pub(crate) enum OwnedOrBorrowedRawDocument<'a> {
    #[allow(dead_code)]
    Owned(RawDocumentBuf),
    #[allow(dead_code)]
    Borrowed(&'a RawDocument),
}

impl OwnedOrBorrowedRawDocument<'_> {
    pub(crate) fn into_owned(self) -> RawDocumentBuf {
        match self {
            Self::Owned(it) => it,
            Self::Borrowed(it) => it.to_owned(),
        }
    }
}

impl<'a, 'de: 'a> Deserialize<'de> for OwnedOrBorrowedRawDocument<'a> {
    fn deserialize<D: Deserializer<'de>>(_: D) -> Result<Self, D::Error> {
        Err(serde::de::Error::custom("a stub"))
    }
}

#[derive(Debug)]
pub(crate) enum OwnedOrBorrowedRawArray<'a> {
    #[allow(dead_code)]
    Owned(RawArrayBuf),
    #[allow(dead_code)]
    Borrowed(&'a RawArray),
}

impl OwnedOrBorrowedRawArray<'_> {
    pub(crate) fn into_owned(self) -> RawArrayBuf {
        match self {
            Self::Owned(it) => it,
            Self::Borrowed(it) => it.to_owned(),
        }
    }
}

impl<'a, 'de: 'a> Deserialize<'de> for OwnedOrBorrowedRawArray<'a> {
    fn deserialize<D: Deserializer<'de>>(_: D) -> Result<Self, D::Error> {
        Err(serde::de::Error::custom("a stub"))
    }
}

pub(crate) mod bson_visitor {
    use super::*;

    pub(crate) struct OwnedOrBorrowedRawBsonVisitor;

    impl<'de> Visitor<'de> for OwnedOrBorrowedRawBsonVisitor {
        type Value = OwnedOrBorrowedRawBson<'de>;

        fn expecting(&self, f: &mut std::fmt::Formatter) -> std::fmt::Result {
            f.write_str("nothing: a stub")
        }
    }
}
