//! The types of the crate: each is its own kind in BSON, in a struct, in a flattened one, and in an enum without tags.

use std::collections::BTreeMap;

use bsonraw::oid::ObjectId;
use bsonraw::raw::{
    RawBinaryRef, RawDbPointerRef, RawJavaScriptCodeWithScope, RawJavaScriptCodeWithScopeRef, RawRegexRef,
};
use bsonraw::spec::{BinarySubtype, ElementType};
use bsonraw::{
    doc, from_slice, rawdoc, to_bson, to_raw_document_buf, to_vec, Array, Binary, Bson, DateTime, DbPointer,
};
use bsonraw::{Decimal128, Document, JavaScriptCodeWithScope, RawArray, RawArrayBuf, RawBson, RawBsonRef, RawDocument};
use bsonraw::{RawDocumentBuf, Regex, Timestamp, Uuid};
use serde::de::DeserializeOwned;
use serde::{Deserialize, Serialize};

use crate::maker;

/// A value of each kind.
fn values() -> Vec<RawBson> {
    let pointer = RawDocumentBuf::from_bytes(maker::framed(
        b"\x0cp\0\x02\0\0\0n\0\x50\x7f\x1f\x77\xbc\xf8\x6c\xd7\x99\x43\x90\x11",
    ));
    vec![
        1.5.into(),
        "é".into(),
        rawdoc! { "b": null }.into(),
        RawBson::Array([1, 2].into_iter().collect()),
        Binary { subtype: BinarySubtype::Generic, bytes: vec![1, 2] }.into(),
        Binary { subtype: BinarySubtype::UserDefined(0x81), bytes: vec![0xfb, 0xff, 3, 4] }.into(),
        RawBson::Undefined,
        ObjectId::from_bytes([7; 12]).into(),
        true.into(),
        DateTime::from_millis(-2).into(),
        RawBson::Null,
        Regex::new("^a", "ix").into(),
        pointer.unwrap().get("p").unwrap().unwrap().to_raw_bson(),
        RawBson::JavaScriptCode("f()".into()),
        RawBson::Symbol("s".into()),
        RawJavaScriptCodeWithScope { code: "f".into(), scope: rawdoc! { "x": 1 } }.into(),
        (-1).into(),
        Timestamp { time: 1, increment: u32::MAX }.into(),
        (1_i64 << 40).into(),
        "1.50".parse::<Decimal128>().unwrap().into(),
        RawBson::MaxKey,
        RawBson::MinKey,
    ]
}

#[derive(Debug, Deserialize, PartialEq, Serialize)]
struct Of<T> {
    a: T,
}

#[derive(Debug, Deserialize, PartialEq, Serialize)]
struct Flat<T> {
    number: i32,
    #[serde(flatten)]
    rest: T,
}

#[derive(Debug, Deserialize, PartialEq, Serialize)]
#[serde(untagged)]
enum Untagged<T> {
    Value { a: T },
}

#[derive(Debug, Deserialize, PartialEq, Serialize)]
#[serde(tag = "kind")]
enum Tagged<T> {
    Value { a: T },
}

#[test]
fn each_kind_is_itself_as_a_value_of_any() {
    for value in values() {
        let given = rawdoc! { "a": value.clone() };
        let bytes = given.as_bytes();
        assert_eq!(from_slice::<Of<RawBson>>(bytes).unwrap().a, value);
        assert_eq!(from_slice::<Of<RawBsonRef>>(bytes).unwrap().a, value.as_raw_bson_ref());
        let bson = Bson::try_from(value.clone()).unwrap();
        assert_eq!(from_slice::<Of<Bson>>(bytes).unwrap().a, bson);
        assert_eq!(from_slice::<Document>(bytes).unwrap(), doc! { "a": bson.clone() });
        assert_eq!(from_slice::<RawDocumentBuf>(bytes).unwrap(), given);
        assert_eq!(from_slice::<BTreeMap<String, Bson>>(bytes).unwrap()["a"], bson);

        for written in [
            to_vec(&Of { a: value.clone() }),
            to_vec(&Of { a: value.as_raw_bson_ref() }),
            to_vec(&Of { a: bson.clone() }),
            to_vec(&doc! { "a": bson.clone() }),
            to_vec(&given),
            to_vec(&*given),
        ] {
            assert_eq!(written.unwrap(), bytes);
        }
        assert_eq!(to_bson(&value).unwrap(), bson);
        assert_eq!(to_bson(&bson).unwrap(), bson);
        assert_eq!(bsonraw::from_bson::<Bson>(bson.clone()).unwrap(), bson);
        assert_eq!(bsonraw::from_bson::<RawBson>(bson).unwrap(), value);
    }
}

/// That a type is read and written as a value, wherever it is.
fn is<T: Clone + std::fmt::Debug + DeserializeOwned + PartialEq + Serialize>(made: T, value: impl Into<RawBson>) {
    let value = value.into();
    let given = rawdoc! { "a": value.clone() };
    assert_eq!(to_raw_document_buf(&Of { a: made.clone() }).unwrap(), given);
    assert_eq!(from_slice::<Of<T>>(given.as_bytes()).unwrap().a, made);
    assert_eq!(from_slice::<Untagged<T>>(given.as_bytes()).unwrap(), Untagged::Value { a: made.clone() });
    assert_eq!(to_raw_document_buf(&Untagged::Value { a: made.clone() }).unwrap(), given);
    let flat = Flat { number: 1, rest: Of { a: made.clone() } };
    let given = rawdoc! { "number": 1, "a": value.clone() };
    assert_eq!(from_slice::<Flat<Of<T>>>(given.as_bytes()).unwrap(), flat);
    assert_eq!(to_raw_document_buf(&flat).unwrap(), given);
    let given = rawdoc! { "kind": "Value", "a": value.clone() };
    assert_eq!(from_slice::<Tagged<T>>(given.as_bytes()).unwrap(), Tagged::Value { a: made.clone() });
    assert_eq!(to_raw_document_buf(&Tagged::Value { a: made.clone() }).unwrap(), given);
    let document = bsonraw::to_document(&Of { a: made.clone() }).unwrap();
    assert_eq!(document, rawdoc! { "a": value }.to_document().unwrap());
    assert_eq!(bsonraw::from_document::<Of<T>>(document).unwrap().a, made);
}

#[test]
fn types_are_themselves_wherever_they_are() {
    let all = values();
    let of = |kind: ElementType| all.iter().find(|value| value.element_type() == kind).unwrap().clone();
    is(ObjectId::from_bytes([7; 12]), of(ElementType::ObjectId));
    is(DateTime::from_millis(-2), of(ElementType::DateTime));
    is(Timestamp { time: 1, increment: u32::MAX }, of(ElementType::Timestamp));
    is("1.50".parse::<Decimal128>().unwrap(), of(ElementType::Decimal128));
    is(Regex::new("^a", "ix"), of(ElementType::RegularExpression));
    is(JavaScriptCodeWithScope { code: "f".into(), scope: doc! { "x": 1 } }, of(ElementType::JavaScriptCodeWithScope));
    is(
        RawJavaScriptCodeWithScope { code: "f".into(), scope: rawdoc! { "x": 1 } },
        of(ElementType::JavaScriptCodeWithScope),
    );
    is(Binary { subtype: BinarySubtype::Md5, bytes: vec![9] }, Binary { subtype: BinarySubtype::Md5, bytes: vec![9] });
    is(Uuid::from_bytes([9; 16]), Binary { subtype: BinarySubtype::Uuid, bytes: vec![9; 16] });
    is(doc! { "b": null }, of(ElementType::EmbeddedDocument));
    is(rawdoc! { "b": null }, of(ElementType::EmbeddedDocument));
    is([1, 2].into_iter().collect::<RawArrayBuf>(), of(ElementType::Array));
    is(vec![Bson::Int32(1), Bson::Int32(2)] as Array, of(ElementType::Array));
    let pointer: Of<DbPointer> = from_slice(rawdoc! { "a": of(ElementType::DbPointer) }.as_bytes()).unwrap();
    is(pointer.a, of(ElementType::DbPointer));
    for value in values() {
        is(value.clone(), value.clone());
        is(Bson::try_from(value.clone()).unwrap(), value);
    }
}

#[test]
fn borrowed_types_are_read_from_bytes() {
    let all = values();
    for value in &all {
        let given = rawdoc! { "a": value.clone() };
        let bytes = given.as_bytes();
        macro_rules! is {
            ($($of:ty: $as:ident,)*) => {
                $(
                    let wanted = value.as_raw_bson_ref().$as();
                    match from_slice::<Of<$of>>(bytes) {
                        Ok(read) => assert_eq!(Some(read.a), wanted),
                        Err(error) => {
                            assert!(wanted.is_none());
                            assert_eq!(error.path(), ["a"]);
                            let text = error.to_string();
                            assert!(text.contains("expected ") || text.contains("not a digit of hex"), "{text}");
                        }
                    }
                )*
            };
        }
        is! {
            RawBinaryRef: as_binary, RawRegexRef: as_regex, RawDbPointerRef: as_db_pointer, &RawDocument: as_document,
            &RawArray: as_array, RawJavaScriptCodeWithScopeRef: as_javascript_with_scope, ObjectId: as_object_id,
            DateTime: as_datetime, Timestamp: as_timestamp,
        }
    }
    // not from what is no BSON
    assert!(serde_json::from_str::<&RawDocument>("{}").is_err());
}

#[test]
fn a_document_with_the_key_of_a_wrapper_stays_one() {
    let given = rawdoc! { "a": { "$oid": "507f1f77bcf86cd799439011" }, "b": { "$code": "f", "$scope": {} } };
    assert_eq!(to_raw_document_buf(&given.to_document().unwrap()).unwrap(), given);
    assert_eq!(from_slice::<Document>(given.as_bytes()).unwrap(), given.to_document().unwrap());
    let map: BTreeMap<String, BTreeMap<String, Bson>> = from_slice(given.as_bytes()).unwrap();
    assert_eq!(map["a"]["$oid"], Bson::from("507f1f77bcf86cd799439011"));
    assert_eq!(to_raw_document_buf(&map).unwrap(), given);
}

/// Types that go by the names that the crate bson gives to its own.
#[test]
fn documents_of_the_crate_bson_are_taken_by_their_names() {
    struct Theirs(Vec<u8>);
    impl Serialize for Theirs {
        fn serialize<S: serde::Serializer>(&self, serializer: S) -> Result<S::Ok, S::Error> {
            struct Bytes<'a>(&'a [u8]);
            impl Serialize for Bytes<'_> {
                fn serialize<S: serde::Serializer>(&self, serializer: S) -> Result<S::Ok, S::Error> {
                    serializer.serialize_bytes(self.0)
                }
            }
            serializer.serialize_newtype_struct("$__private__bson_RawDocument", &Bytes(&self.0))
        }
    }
    let inner = rawdoc! { "b": 1 };
    let made = to_raw_document_buf(&Of { a: Theirs(inner.as_bytes().to_vec()) }).unwrap();
    assert_eq!(made, rawdoc! { "a": inner });
    assert!(to_vec(&Theirs(vec![0; 5])).unwrap_err().to_string().contains("document length incorrect"));
}

#[test]
fn made_documents_are_read_as_without_serde() {
    let (mut good, mut bad) = (0, 0);
    for data in maker::all(0x5eed, 3000) {
        let Ok(raw) = RawDocument::from_bytes(&data) else { continue };
        match (raw.to_document(), from_slice::<Document>(&data)) {
            (Ok(wanted), Ok(read)) => {
                // a NaN isn't equal to itself
                assert_eq!(format!("{read:?}"), format!("{wanted:?}"));
                let bytes = RawDocumentBuf::from_document(&wanted).unwrap();
                assert_eq!(to_raw_document_buf(&wanted).unwrap(), bytes);
                let map: BTreeMap<String, RawBsonRef> = from_slice(bytes.as_bytes()).unwrap();
                assert_eq!(map.len(), wanted.len());
                good += 1;
            }
            (Err(wanted), Err(error)) => {
                assert_eq!(error.to_string(), wanted.to_string());
                bad += 1;
            }
            (wanted, read) => panic!("{wanted:?}, and {read:?} by serde"),
        }
    }
    assert!(good > 1000 && bad > 500, "{good} {bad}");
}
