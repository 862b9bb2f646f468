//! What the 33 examples in the documentation of the crate bson's module `raw` show, a test for each, in the same order and in other words.

use std::error::Error;

use bsonraw::oid::ObjectId;
use bsonraw::raw::{RawArrayBuf, RawBsonRef, RawDocument, RawDocumentBuf, ValueAccessErrorKind};
use bsonraw::spec::BinarySubtype;
use bsonraw::{doc, rawdoc, Binary, DateTime, Regex, Timestamp};

type Result = std::result::Result<(), Box<dyn Error>>;

const GREETING: &[u8; 19] = b"\x13\0\0\0\x02hi\0\x06\0\0\0y'all\0\0";
const EMPTY: &[u8; 5] = b"\x05\0\0\0\0";

/// The bytes of a document with a list in it.
fn listing() -> std::result::Result<Vec<u8>, Box<dyn Error>> {
    Ok(bsonraw::to_vec(&doc! { "list": [7, false, "three", 0.5] })?)
}

#[test]
fn values_of_an_array() -> Result {
    let bytes = listing()?;
    let view = RawDocument::from_bytes(bytes.as_slice())?;
    let list = view.get_array("list")?;
    let mut values = Vec::new();
    for value in list {
        values.push(format!("{:?}", value?));
    }
    assert_eq!(values, ["Int32(7)", "Boolean(false)", "String(\"three\")", "Double(0.5)"]);
    Ok(())
}

#[test]
fn a_value_of_an_array_by_its_number() -> Result {
    let bytes = listing()?;
    let list = RawDocument::from_bytes(bytes.as_slice())?.get_array("list")?;
    assert!(!list.get_bool(1)?);
    Ok(())
}

#[test]
fn an_array_grows() -> Result {
    let mut array = RawArrayBuf::new();
    array.push("text");
    array.push(5_i32);
    let mut values = array.into_iter();
    assert_eq!(values.next().unwrap()?.as_str(), Some("text"));
    assert_eq!(values.next().unwrap()?.as_i32(), Some(5));
    assert!(values.next().is_none());
    Ok(())
}

#[test]
fn an_array_grows_by_a_document() -> Result {
    let mut array = RawArrayBuf::new();
    array.push("text");
    array.push(5_i32);
    let mut inner = RawDocumentBuf::new();
    inner.append("key", "value");
    array.push(inner.clone());
    let mut values = array.into_iter().skip(1);
    assert_eq!(values.next().unwrap()?.as_i32(), Some(5));
    assert_eq!(values.next().unwrap()?.as_document(), Some(inner.as_ref()));
    assert!(values.next().is_none());
    Ok(())
}

#[test]
fn elements_of_a_view() -> Result {
    let view = RawDocument::from_bytes(GREETING)?;
    let mut items = view.into_iter();
    let (key, value) = items.next().unwrap()?;
    assert_eq!((key, value.as_str()), ("hi", Some("y'all")));
    assert!(items.next().is_none());
    Ok(())
}

#[test]
fn a_text_of_a_view() -> Result {
    let view = RawDocument::from_bytes(GREETING)?;
    assert_eq!(view.get_str("hi")?, "y'all");
    Ok(())
}

#[test]
fn a_view_of_the_empty_document() -> std::result::Result<(), bsonraw::raw::Error> {
    let view = RawDocument::from_bytes(EMPTY)?;
    assert!(view.iter().next().is_none());
    Ok(())
}

#[test]
fn a_view_is_copied() -> Result {
    let view = RawDocument::from_bytes(EMPTY)?;
    let copy: RawDocumentBuf = view.to_raw_document_buf();
    assert_eq!(*copy, *view);
    Ok(())
}

#[test]
fn a_value_by_its_key() -> Result {
    let made = rawdoc! { "_id": ObjectId::new(), "share": 0.25, };
    assert_eq!(made.get("share")?.expect("the key is there").as_f64(), Some(0.25));
    assert!(made.get("none")?.is_none());
    Ok(())
}

/// What a getter returns of its kind, of another one, and where the key isn't there.
macro_rules! getter {
    ($name:ident: $get:ident { $($made:tt)* }, $found:ident => $is:expr) => {
        #[test]
        fn $name() -> Result {
            let made = rawdoc! { $($made)* };
            let $found = made.$get("it")?;
            assert!($is);
            let kind = |key: &str| made.$get(key).unwrap_err().kind;
            assert!(matches!(kind("other"), ValueAccessErrorKind::UnexpectedType { .. }));
            assert!(matches!(kind("unknown"), ValueAccessErrorKind::NotPresent));
            Ok(())
        }
    };
}

getter! { doubles: get_f64 { "other": true, "it": 0.25, }, found => found == 0.25 }
getter! { strings: get_str { "it": "text", "other": true }, found => found == "text" }
getter! { documents: get_document { "it": { "a": "b" }, "other": true }, found => found.get_str("a")? == "b" }
getter! { arrays: get_array { "it": [false, 5], "other": true },
found => found.into_iter().collect::<std::result::Result<Vec<_>, _>>()? == [RawBsonRef::Boolean(false), RawBsonRef::Int32(5)] }
getter! { binary_values: get_binary { "it": Binary { subtype: BinarySubtype::Generic, bytes: vec![4, 5] }, "other": true },
found => found.bytes == [4, 5] }
getter! { ids: get_object_id { "it": ObjectId::from_bytes([1; 12]), "other": true }, found => found.bytes() == [1; 12] }
getter! { booleans: get_bool { "other": ObjectId::new(), "it": true }, found => found }
getter! { times: get_datetime { "it": DateTime::from_millis(5), "other": true }, found => found == DateTime::from_millis(5) }
getter! { regular_expressions: get_regex { "it": Regex { pattern: r"^\d".into(), options: "x".into() }, "other": true },
found => (found.pattern, found.options) == (r"^\d", "x") }
getter! { timestamps: get_timestamp { "other": true, "it": Timestamp { time: 7, increment: 9 } },
found => (found.time, found.increment) == (7, 9) }
getter! { numbers_of_32_bits: get_i32 { "other": true, "it": 2_000_000 }, found => found == 2_000_000 }
getter! { numbers_of_64_bits: get_i64 { "other": true, "it": -9223372036854775808_i64 }, found => found == i64::MIN }

#[test]
fn the_bytes_of_an_empty_buffer() {
    let made = rawdoc! {};
    assert_eq!(made.as_bytes(), EMPTY);
}

#[test]
fn elements_of_a_buffer() -> Result {
    let owned = RawDocumentBuf::from_bytes(GREETING.to_vec())?;
    let mut items = owned.iter();
    assert_eq!(items.next().unwrap()?, ("hi", RawBsonRef::String("y'all")));
    assert!(items.next().is_none());
    Ok(())
}

#[test]
fn a_text_of_a_buffer() -> Result {
    let owned = RawDocumentBuf::from_bytes(GREETING.to_vec())?;
    assert_eq!(owned.get_str("hi")?, "y'all");
    Ok(())
}

#[test]
fn a_buffer_of_the_empty_document() -> std::result::Result<(), bsonraw::raw::Error> {
    assert!(RawDocumentBuf::from_bytes(EMPTY.to_vec())?.is_empty());
    Ok(())
}

#[test]
fn a_document_in_memory_becomes_bytes() -> Result {
    let book = doc! { "_id": ObjectId::new(), "name": "Jane Austen", "title": "Emma", };
    let raw = RawDocumentBuf::from_document(&book)?;
    assert_eq!((raw.iter().count(), raw.get_str("title")?), (3, "Emma"));
    Ok(())
}

#[test]
fn elements_of_a_document_that_was_in_memory() -> Result {
    let raw = RawDocumentBuf::from_document(&doc! { "crab": true })?;
    let mut count = 0;
    for element in raw.iter() {
        let (key, value) = element?;
        assert_eq!((key, value.as_bool()), ("crab", Some(true)));
        count += 1;
    }
    assert_eq!(count, 1);
    Ok(())
}

#[test]
fn an_empty_document_in_memory_becomes_bytes() -> Result {
    assert_eq!(RawDocumentBuf::from_document(&doc! {})?.into_bytes(), EMPTY.to_vec());
    Ok(())
}

#[test]
fn what_is_appended_becomes_a_document_in_memory() -> Result {
    let mut made = RawDocumentBuf::new();
    made.append("text", "some text");
    made.append("number", 12_i32);
    let mut inner = RawDocumentBuf::new();
    inner.append("key", true);
    made.append("document", inner);
    assert_eq!(made.to_document()?, doc! { "text": "some text", "number": 12_i32, "document": { "key": true } });
    Ok(())
}

#[test]
fn a_value_of_a_buffer_by_its_key() -> Result {
    let owned = RawDocumentBuf::from_bytes(GREETING.to_vec())?;
    assert_eq!(owned.get("hi")?.unwrap().as_str(), Some("y'all"));
    Ok(())
}

#[test]
fn a_text_of_a_document_in_another() -> Result {
    let raw = RawDocumentBuf::from_document(&doc! { "well": { "known": "fact" } })?;
    assert_eq!(raw.get_document("well")?.get_str("known")?, "fact");
    Ok(())
}

#[test]
fn a_text_of_bytes() -> Result {
    let bytes = b"\x13\0\0\0\x02hi\0\x06\0\0\0y'all\0\0";
    assert_eq!(RawDocument::from_bytes(bytes)?.get_str("hi")?, "y'all");
    Ok(())
}

#[test]
fn elements_in_order_with_their_types() -> Result {
    let raw = RawDocumentBuf::from_document(&doc! { "first": "1", "second": "2" })?;
    let mut items = raw.iter();
    for wanted in [("first", Some("1")), ("second", Some("2"))] {
        let (key, value): (&str, RawBsonRef) = items.next().unwrap()?;
        assert_eq!((key, value.as_str()), wanted);
    }
    assert!(items.next().is_none());
    Ok(())
}
