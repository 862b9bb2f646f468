//! What values of serde are in BSON: bytes written by hand.

use std::collections::{BTreeMap, HashMap};
use std::net::Ipv4Addr;

use bsonraw::{doc, from_document, from_reader, from_slice, rawdoc, to_bson, to_document, to_raw_document_buf, to_vec};
use bsonraw::{Bson, Document, RawArray, RawBsonRef, RawDocument, RawDocumentBuf};
use serde::de::DeserializeOwned;
use serde::{Deserialize, Serialize};

/// The bytes of hex digits with blanks between them.
fn bytes(hex: &str) -> Vec<u8> {
    let digits: Vec<u8> = hex.bytes().filter(|c| *c != b' ').collect();
    let pairs = digits.chunks(2).map(|pair| std::str::from_utf8(pair).unwrap());
    pairs.map(|pair| u8::from_str_radix(pair, 16).unwrap()).collect()
}

/// That a value is written as these bytes, and read from them.
fn is<T: Serialize + DeserializeOwned + PartialEq + std::fmt::Debug>(value: &T, hex: &str) {
    assert_eq!(to_vec(value).unwrap(), bytes(hex));
    assert_eq!(from_slice::<T>(&bytes(hex)).unwrap(), *value);
    assert_eq!(from_reader::<T>(&bytes(hex)[..]).unwrap(), *value);
    let document = to_document(value).unwrap();
    assert_eq!(RawDocumentBuf::from_document(&document).unwrap().as_bytes(), bytes(hex));
    assert_eq!(from_document::<T>(document).unwrap(), *value);
}

#[derive(Debug, Deserialize, PartialEq, Serialize)]
struct One<T> {
    a: T,
}

#[test]
fn values_of_rust_have_their_kinds() {
    is(&One { a: 1.5 }, "10000000 01 6100 000000000000f83f 00");
    is(&One { a: 1.5_f32 }, "10000000 01 6100 000000000000f83f 00");
    is(&One { a: "é".to_string() }, "0f000000 02 6100 03000000 c3a900 00");
    is(&One { a: 'é' }, "0f000000 02 6100 03000000 c3a900 00");
    is(&One { a: true }, "09000000 08 6100 01 00");
    is(&One { a: -1_i8 }, "0c000000 10 6100 ffffffff 00");
    is(&One { a: 255_u8 }, "0c000000 10 6100 ff000000 00");
    is(&One { a: -2_i16 }, "0c000000 10 6100 feffffff 00");
    is(&One { a: 65535_u16 }, "0c000000 10 6100 ffff0000 00");
    is(&One { a: i32::MIN }, "0c000000 10 6100 00000080 00");
    is(&One { a: u32::MAX }, "10000000 12 6100 ffffffff00000000 00");
    is(&One { a: 1_i64 }, "10000000 12 6100 0100000000000000 00");
    is(&One { a: 1_u64 }, "10000000 12 6100 0100000000000000 00");
    is(&One { a: () }, "08000000 0a 6100 00");
    is(&One { a: None::<i32> }, "08000000 0a 6100 00");
    is(&One { a: Some(1) }, "0c000000 10 6100 01000000 00");
    is(&One { a: vec![true, false] }, "15000000 04 6100 0d000000 08 3000 01 08 3100 00 00 00");
    is(&One { a: (1, true) }, "18000000 04 6100 10000000 10 3000 01000000 08 3100 01 00 00");
    is(&One { a: One { a: () } }, "10000000 03 6100 08000000 0a 6100 00 00");
    is(&BTreeMap::from([("x".to_string(), true), ("y".to_string(), false)]), "0d000000 08 7800 01 08 7900 00 00");
    is(&doc! { "b": 1, "a": [null] }, "17000000 10 6200 01000000 04 6100 08000000 0a 3000 00 00");
}

#[derive(Debug, Deserialize, PartialEq, Serialize)]
struct Newtype(i32);

#[derive(Debug, Deserialize, PartialEq, Serialize)]
struct Unit;

#[derive(Debug, Deserialize, PartialEq, Serialize)]
struct Pair(i32, bool);

#[derive(Debug, Deserialize, PartialEq, Serialize)]
enum Shape {
    Point,
    Circle(i32),
    Line(i32, bool),
    Box { w: i32 },
}

#[test]
fn structs_and_enums_are_strings_arrays_and_documents() {
    is(&One { a: Newtype(1) }, "0c000000 10 6100 01000000 00");
    is(&One { a: Unit }, "08000000 0a 6100 00");
    is(&One { a: Pair(1, true) }, "18000000 04 6100 10000000 10 3000 01000000 08 3100 01 00 00");
    is(&One { a: Shape::Point }, "12000000 02 6100 06000000 506f696e7400 00");
    is(&Shape::Circle(7), "11000000 10 436972636c6500 07000000 00");
    is(&Shape::Line(1, true), "1b000000 04 4c696e6500 10000000 10 3000 01000000 08 3100 01 00 00");
    is(&Shape::Box { w: 3 }, "16000000 03 426f7800 0c000000 10 7700 03000000 00 00");
    is(&One { a: vec![Shape::Point] }, "1a000000 04 6100 12000000 02 3000 06000000 506f696e7400 00 00");
    let error = from_slice::<One<Shape>>(&rawdoc! { "a": 1 }.into_bytes()).unwrap_err();
    assert!(error.to_string().starts_with("error at key \"a\": invalid type: a value of type Int32"), "{error}");
    let error = from_slice::<One<Shape>>(&rawdoc! { "a": "Star" }.into_bytes()).unwrap_err();
    assert!(error.to_string().starts_with("error at key \"a\": unknown variant `Star`"), "{error}");
}

#[test]
fn numbers_are_read_from_each_kind_that_holds_them() {
    let bytes = rawdoc! { "a": 7_i64 }.into_bytes();
    assert_eq!(from_slice::<One<u8>>(&bytes).unwrap().a, 7);
    assert_eq!(from_slice::<One<f64>>(&bytes).unwrap().a, 7.0);
    let bytes = rawdoc! { "a": -7 }.into_bytes();
    assert_eq!(from_slice::<One<i64>>(&bytes).unwrap().a, -7);
    let error = from_slice::<One<u8>>(&bytes).unwrap_err();
    assert!(error.to_string().contains("invalid value: integer `-7`, expected u8"), "{error}");
    let error = to_vec(&One { a: u64::MAX }).unwrap_err();
    assert_eq!(error.to_string(), "error at key \"a\": 18446744073709551615 is no number of 64 bits with a sign");
}

#[derive(Debug, Deserialize, PartialEq, Serialize)]
struct Name(String);

#[derive(Debug, Deserialize, Eq, Hash, Ord, PartialEq, PartialOrd, Serialize)]
enum Colour {
    Red,
}

#[test]
fn keys_are_texts_of_what_they_are() {
    is(&BTreeMap::from([(1_u32, true)]), "09000000 08 3100 01 00");
    is(&BTreeMap::from([(-1_i64, true)]), "0a000000 08 2d3100 01 00");
    is(&BTreeMap::from([(true, true)]), "0c000000 08 7472756500 01 00");
    is(&BTreeMap::from([('k', true)]), "09000000 08 6b00 01 00");
    is(&BTreeMap::from([(Colour::Red, true)]), "0b000000 08 52656400 01 00");
    is(&One { a: Name("x".into()) }, "0e000000 02 6100 02000000 7800 00");
    assert_eq!(to_vec(&BTreeMap::from([(Some(1), 1)])).unwrap(), rawdoc! { "1": 1 }.into_bytes());
    let error = to_vec(&BTreeMap::from([((1, 2), 1)])).unwrap_err();
    assert_eq!(error.to_string(), "a value of type Array is no key");
    let error = from_slice::<HashMap<u8, i32>>(&rawdoc! { "x": 1 }.into_bytes()).unwrap_err();
    assert!(error.to_string().contains("invalid type: string \"x\", expected u8"), "{error}");
    assert!(to_vec(&BTreeMap::from([("a\0", 1)])).unwrap_err().to_string().contains("interior NUL"));
}

#[derive(Deserialize)]
struct Borrowed<'a> {
    text: &'a str,
    #[serde(borrow)]
    document: &'a RawDocument,
    #[serde(borrow)]
    array: &'a RawArray,
    bytes: &'a [u8],
    #[serde(borrow)]
    value: RawBsonRef<'a>,
}

#[test]
fn strings_bytes_and_documents_are_borrowed() {
    let binary = bsonraw::Binary { subtype: bsonraw::spec::BinarySubtype::Uuid, bytes: vec![1, 2] };
    let given = rawdoc! {
        "text": "a", "document": { "b": 1 }, "array": [true], "bytes": binary.clone(), "value": { "c": 2 }, "rest": { "d": 1 },
    };
    let read: Borrowed = from_slice(given.as_bytes()).unwrap();
    assert_eq!((read.text, read.document.get_i32("b"), read.array.get_bool(0)), ("a", Ok(1), Ok(true)));
    assert_eq!((read.bytes, read.value.as_document().unwrap().get_i32("c")), (&[1, 2][..], Ok(2)));
    let range = given.as_bytes().as_ptr_range();
    for start in
        [read.text.as_ptr(), read.document.as_bytes().as_ptr(), read.array.as_bytes().as_ptr(), read.bytes.as_ptr()]
    {
        assert!(range.contains(&start));
    }
    // what is inside isn't looked at
    let damaged = bytes("18000000 03 646f63756d656e7400 09000000 08 6200 02 00 00");
    #[derive(Deserialize)]
    struct Part<'a> {
        #[serde(borrow)]
        document: &'a RawDocument,
    }
    let read: Part = from_slice(&damaged).unwrap();
    assert!(read.document.get_bool("b").is_err());
}

#[test]
fn errors_say_the_keys_to_their_place() {
    #[derive(Debug, Deserialize)]
    #[allow(dead_code)]
    struct Person {
        name: String,
        homes: Vec<Home>,
    }
    #[derive(Debug, Deserialize)]
    #[allow(dead_code)]
    struct Home {
        city: String,
    }
    let path = |given: RawDocumentBuf| {
        let error = from_slice::<Person>(given.as_bytes()).unwrap_err();
        (error.path().join("/"), error.to_string())
    };
    let (keys, text) = path(rawdoc! { "name": "Ada", "homes": [{ "city": "London" }, { "city": 7 }] });
    assert_eq!(keys, "homes/1/city");
    assert_eq!(text, "error at key \"homes.1.city\": invalid type: integer `7`, expected a string");
    assert_eq!(path(rawdoc! { "name": "Ada" }), (String::new(), "missing field `homes`".into()));
    assert_eq!(path(rawdoc! { "name": "Ada", "homes": [{}] }).1, "error at key \"homes.0\": missing field `city`");
    let damaged =
        RawDocumentBuf::from_bytes(bytes("18000000 04 686f6d657300 0c000000 03 3000 ffffffff 00 00")).unwrap();
    assert_eq!(path(damaged).1, "error at key \"homes.0\": malformed value: \"lengths can't be negative\"");

    let text =
        RawDocumentBuf::from_bytes(bytes("1b000000 04 686f6d657300 0f000000 02 3000 03000000 63ff00 00 00")).unwrap();
    assert_eq!(
        path(text).1,
        "error at key \"homes.0\": utf-8 encoding error: invalid utf-8 sequence of 1 bytes from index 1"
    );

    let error = to_vec(&One { a: vec![One { a: 1 }, One { a: u64::MAX }] }).unwrap_err();
    assert_eq!(error.path(), ["a", "1", "a"]);
    #[derive(Serialize)]
    enum Deep {
        Here { x: u64 },
        There(u64),
        Both(u64, u64),
    }
    for (value, keys) in [
        (Deep::Here { x: 1 << 63 }, "a/Here/x"),
        (Deep::There(1 << 63), "a/There"),
        (Deep::Both(1, 1 << 63), "a/Both/1"),
    ] {
        assert_eq!(to_vec(&One { a: value }).unwrap_err().path().join("/"), keys);
    }
    for (error, wanted) in [
        (to_vec(&1), "a document is a struct or a map, not a value of type Int32"),
        (to_vec(&[1]), "a document is a struct or a map, not a value of type Array"),
        (to_vec("a"), "a document is a struct or a map, not a value of type String"),
    ] {
        assert_eq!(error.unwrap_err().to_string(), wanted);
    }
    assert_eq!(
        from_slice::<Document>(b"\x05\0\0\0").unwrap_err().to_string(),
        "malformed value: \"document too short\""
    );
}

#[test]
fn what_people_read_is_asked_for_in_memory_alone() {
    let address = One { a: Ipv4Addr::new(127, 0, 0, 1) };
    assert_eq!(to_document(&address).unwrap(), doc! { "a": "127.0.0.1" });
    assert_eq!(from_document::<One<Ipv4Addr>>(doc! { "a": "127.0.0.1" }).unwrap(), address);
    assert_eq!(to_bson(&address.a).unwrap(), Bson::from("127.0.0.1"));
    assert_eq!(bsonraw::from_bson::<Ipv4Addr>("127.0.0.1".into()).unwrap(), address.a);
    assert_eq!(to_raw_document_buf(&address).unwrap(), rawdoc! { "a": [127, 0, 0, 1] });
    assert_eq!(from_slice::<One<Ipv4Addr>>(&rawdoc! { "a": [127, 0, 0, 1] }.into_bytes()).unwrap(), address);
}

#[derive(Debug, Default, Deserialize, PartialEq, Serialize)]
struct Chain {
    #[serde(skip_serializing_if = "Option::is_none")]
    next: Option<Box<Chain>>,
}

/// This many levels under the key next.
fn levels(count: usize) -> RawDocumentBuf {
    (1..count).fold(RawDocumentBuf::new(), |inner, _| rawdoc! { "next": inner })
}

#[test]
fn levels_are_limited() {
    let chain: Chain = from_slice(levels(200).as_bytes()).unwrap();
    assert_eq!(to_raw_document_buf(&chain).unwrap(), levels(200));
    let error = from_slice::<Chain>(levels(201).as_bytes()).unwrap_err();
    assert!(error.to_string().ends_with(": more levels than allowed"), "{error}");
    assert_eq!(error.path().len(), 200);
    let longer = Chain { next: Some(Box::new(chain)) };
    assert!(to_vec(&longer).unwrap_err().to_string().ends_with(": more levels than allowed"));
    let deep = levels(5000);
    assert!(serde_json::to_string(&deep).unwrap_err().to_string().contains("more levels than allowed"));
    assert!(serde_json::to_string(&levels(200)).is_ok());
    let scope = |inner| bsonraw::raw::RawJavaScriptCodeWithScope { code: "c".into(), scope: inner };
    let codes = (1..2000).fold(RawDocumentBuf::new(), |inner, _| rawdoc! { "next": scope(inner) });
    assert!(serde_json::to_string(&codes).unwrap_err().to_string().contains("more levels than allowed"));
    assert!(from_slice::<serde_json::Value>(codes.as_bytes())
        .unwrap_err()
        .to_string()
        .ends_with("more levels than allowed"));
    assert!(from_slice::<Document>(codes.as_bytes()).unwrap_err().to_string().ends_with("more levels than allowed\""));
    assert!(from_slice::<serde_json::Value>(deep.as_bytes()).is_err());
    assert!(from_slice::<Document>(deep.as_bytes()).is_err());
    assert!(from_slice::<Bson>(deep.as_bytes()).is_err());
    assert_eq!(from_slice::<&RawDocument>(deep.as_bytes()).unwrap(), &*deep);
    assert_eq!(from_slice::<serde::de::IgnoredAny>(deep.as_bytes()).map(|_| ()).ok(), Some(()));
    assert_eq!(from_slice::<Document>(levels(200).as_bytes()).unwrap(), levels(200).to_document().unwrap());
}
