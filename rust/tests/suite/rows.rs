//! Worked documents, with bytes written by hand: what is read of them, what is made of them, and the texts of errors.

use bsonraw::oid::ObjectId;
use bsonraw::raw::{
    Error, ErrorKind, RawArray, RawArrayBuf, RawBson, RawBsonRef, RawDocument, RawDocumentBuf, RawRegexRef,
};
use bsonraw::raw::{RawJavaScriptCodeWithScope, ValueAccessErrorKind};
use bsonraw::spec::{BinarySubtype, ElementType};
use bsonraw::whole::{Cause, Limits, ProblemKind};
use bsonraw::{rawbson, rawdoc, Binary, DateTime, Decimal128, Regex, Timestamp};

use crate::plain;

/// The bytes of hex digits with blanks between them.
pub fn bytes(hex: &str) -> Vec<u8> {
    let digits: Vec<u8> = hex.bytes().filter(|c| *c != b' ').collect();
    let pairs = digits.chunks(2).map(|pair| std::str::from_utf8(pair).unwrap());
    pairs.map(|pair| u8::from_str_radix(pair, 16).unwrap()).collect()
}

pub fn document(hex: &str) -> RawDocumentBuf {
    RawDocumentBuf::from_bytes(bytes(hex)).unwrap()
}

fn hex(bytes: &[u8]) -> String {
    bytes.iter().map(|byte| format!("{byte:02x}")).collect()
}

/// The items of a document: key and value, or the error.
fn items(document: &RawDocument) -> Vec<String> {
    let text = |item: Result<(&str, RawBsonRef<'_>), Error>| match item {
        Ok((key, value)) => format!("{key:?} {value:?}"),
        Err(error) => error.to_string(),
    };
    document.iter().map(text).collect()
}

/// Documents and their items.
const ITEMS: &[(&str, &[&str])] = &[
    ("0500000000", &[]),
    ("13000000 02 686900 06000000 7927616c6c00 00", &[r#""hi" String("y'all")"#]),
    ("06000000 0a 00", &[r#""" Null"#, r#"malformed value: "iteration overflowed document""#]),
    ("06000000 00 00", &[r#"error at key "": malformed value: "invalid tag: 0""#]),
    (
        "11000000 0b 246461746500 6f706500 0400",
        &[
            r#""$date" RegularExpression(RawRegexRef { pattern: "ope", options: "\u{4}" })"#,
            r#"malformed value: "iteration overflowed document""#,
        ],
    ),
    ("13000000 10 6100 01000000 10 6100 02000000 00", &[r#""a" Int32(1)"#, r#""a" Int32(2)"#]),
    (
        "15000000 02 3000 02000000 ff00 10 3100 07000000 00",
        &["utf-8 encoding error: invalid utf-8 sequence of 1 bytes from index 0", r#""1" Int32(7)"#],
    ),
    ("0b000000 0f 6100 03000000", &[r#"error at key "a": malformed value: "code with scope length too small""#]),
    (
        "0f000000 0f 6100 03000008 62000100",
        &[r#"error at key "a": malformed value: "length exceeds remaining length of buffer: 134217731 vs 8""#],
    ),
    ("0c000000 03 6100 ffffffff 00", &[r#"error at key "a": malformed value: "lengths can't be negative""#]),
    ("09000000 08 6100 02 00", &[r#"error at key "a": malformed value: "boolean must be stored as 0 or 1, got 2""#]),
    ("11000000 05 6200 04000000 02 ffffffff 00", &[r#"malformed value: "attempted to add with overflow""#]),
    (
        "16000000 0f 6300 0e000000 01000000 00 0500000000 00",
        &[concat!(
            r#""c" JavaScriptCodeWithScope(RawJavaScriptCodeWithScopeRef "#,
            r#"{ code: "", scope: RawDocument { data: "0500000000" } })"#
        )],
    ),
    ("17000000 0f 6300 0f000000 01000000 00 050000000000 00", &[r#"malformed value: "document length incorrect""#]),
    (
        "0d000000 08 6100 02 08 6100 01 00",
        &[r#"error at key "a": malformed value: "boolean must be stored as 0 or 1, got 2""#, r#""a" Boolean(true)"#],
    ),
    ("07000000 0a ff 00", &["utf-8 encoding error: invalid utf-8 sequence of 1 bytes from index 0"]),
    (
        "0a000000 0b 6100 ff00 00",
        &[r#"error at key "a": utf-8 encoding error: invalid utf-8 sequence of 1 bytes from index 0"#],
    ),
    (
        "0c000000 02 6100 06000000 00",
        &[r#"error at key "a": malformed value: "expected buffer to contain at least 10 bytes, but it only has 5""#],
    ),
    ("07000000 0b 7200", &[r#"error at key "r": malformed value: "expected null terminator""#]),
    ("08000000 0b 7200 00", &[r#"error at key "r": malformed value: "expected null terminator""#]),
    (
        "11000000 02 6100 05000000 616263643d 00",
        &[r#"error at key "a": malformed value: "expected string to be null-terminated""#],
    ),
    (
        "0a000000 02 6100 0000 00",
        &[
            r#"error at key "a": malformed value: "expected buffer with string to contain at least 4 bytes, but it only has 3""#,
        ],
    ),
    (
        "0d000000 02 6100 00000000 0000",
        &[
            r#"error at key "a": malformed value: "BSON length encoded string needs to be at least 5 bytes, instead got 4""#,
        ],
    ),
    (
        "0f000000 0c 6100 01000000 00 0000 00",
        &[r#"error at key "a": malformed value: "length exceeds remaining length of buffer: 17 vs 8""#],
    ),
    (
        "0a000000 03 6100 0500 00",
        &[r#"error at key "a": malformed value: "length exceeds remaining length of buffer: 5 vs 3""#],
    ),
    ("0c000000 04 6100 04000000 00", &[r#"error at key "a": malformed value: "document too small: 4 bytes""#]),
    (
        "0c000000 03 6100 06000000 00",
        &[r#"error at key "a": malformed value: "length exceeds remaining length of buffer: 6 vs 5""#],
    ),
    ("0d000000 03 6100 05000000 01 00", &[r#"error at key "a": malformed value: "not null terminated""#]),
    (
        "0a000000 05 6100 0000 00",
        &[r#"error at key "a": malformed value: "expected 4 bytes to read i32, instead got 3""#],
    ),
    (
        "0d000000 05 6100 02000000 00 00",
        &[r#"error at key "a": malformed value: "length exceeds remaining length of buffer: 7 vs 6""#],
    ),
    (
        "10000000 05 6100 03000000 02 000000 00",
        &[r#"error at key "a": malformed value: "old binary subtype has no inner declared length""#],
    ),
    ("0c000000 02 6100 ffffffff 00", &[r#"error at key "a": malformed value: "lengths can't be negative""#]),
    ("0d000000 05 6100 ffffffff 00 00", &[r#"error at key "a": malformed value: "lengths can't be negative""#]),
    ("0c000000 0f 6100 ffffffff 00", &[r#"error at key "a": malformed value: "lengths can't be negative""#]),
    (
        "0a000000 10 6100 0000 00",
        &[r#"error at key "a": malformed value: "length exceeds remaining length of buffer: 4 vs 3""#],
    ),
    (
        "16000000 0f 6300 0e000000 00000000 00 0500000000 00",
        &[r#"malformed value: "BSON length encoded string needs to be at least 5 bytes, instead got 4""#],
    ),
    (
        "17000000 0f 6300 0f000000 02000000 ff00 0500000000 00",
        &["utf-8 encoding error: invalid utf-8 sequence of 1 bytes from index 0"],
    ),
    (
        "1b000000 0c 7000 03000000 61ff00 0102030405060708090a0b0c 00",
        &["utf-8 encoding error: invalid utf-8 sequence of 1 bytes from index 1"],
    ),
    (
        "11000000 05 6100 04000000 02 01000000 00",
        &[r#"error at key "a": malformed value: "old binary subtype has wrong inner declared length""#],
    ),
];

#[test]
fn items_are_those_of_worked_documents() {
    for (hex, wanted) in ITEMS {
        assert_eq!(items(&document(hex)), *wanted, "{hex}");
    }
}

#[test]
fn bytes_without_an_envelope_are_no_document() {
    for (hex, wanted) in [
        ("", "document too short"),
        ("05000000", "document too short"),
        ("0600000001", "document length incorrect"),
        ("0500000001", "document not null-terminated"),
    ] {
        let wanted = format!("malformed value: {wanted:?}");
        assert_eq!(RawDocument::from_bytes(&bytes(hex)).unwrap_err().to_string(), wanted);
        assert_eq!(RawDocumentBuf::from_bytes(bytes(hex)).unwrap_err().to_string(), wanted);
        assert_eq!(<&RawDocument>::try_from(&bytes(hex)[..]).unwrap_err().key(), None);
    }
}

/// An array and an id of each: a value of each kind, and its payload.
pub fn kinds() -> Vec<(ElementType, RawBson, &'static str)> {
    let scope = RawJavaScriptCodeWithScope { code: "c".into(), scope: rawdoc! {} };
    let regex = Regex { pattern: "p".into(), options: "im".into() };
    let binary = |subtype, bytes: &[u8]| Binary { subtype, bytes: bytes.to_vec() };
    let pointer = document("1a000000 0c 7000 02000000 6e00 0102030405060708090a0b0c 00");
    let pointer = pointer.get("p").unwrap().unwrap().to_raw_bson();
    vec![
        (ElementType::Double, 1.5.into(), "000000000000f83f"),
        (ElementType::String, "é".into(), "03000000 c3a900"),
        (ElementType::EmbeddedDocument, rawbson!({ "a": null }), "08000000 0a 6100 00"),
        (ElementType::Array, rawbson!([null]), "08000000 0a 3000 00"),
        (ElementType::Binary, binary(BinarySubtype::Generic, &[1, 2]).into(), "02000000 00 0102"),
        (ElementType::Undefined, RawBson::Undefined, ""),
        (ElementType::ObjectId, ObjectId::from_bytes(*b"abcdefghijkl").into(), "6162636465666768696a6b6c"),
        (ElementType::Boolean, true.into(), "01"),
        (ElementType::DateTime, DateTime::from_millis(-2).into(), "feffffffffffffff"),
        (ElementType::Null, RawBson::Null, ""),
        (ElementType::RegularExpression, regex.into(), "7000 696d00"),
        (ElementType::DbPointer, pointer, "02000000 6e00 0102030405060708090a0b0c"),
        (ElementType::JavaScriptCode, RawBson::JavaScriptCode("f()".into()), "04000000 66282900"),
        (ElementType::Symbol, RawBson::Symbol("s".into()), "02000000 7300"),
        (ElementType::JavaScriptCodeWithScope, scope.into(), "0f000000 02000000 6300 0500000000"),
        (ElementType::Int32, (-1).into(), "ffffffff"),
        (ElementType::Timestamp, Timestamp { time: 1, increment: 2 }.into(), "02000000 01000000"),
        (ElementType::Int64, (1_i64 << 40).into(), "0000000000010000"),
        (ElementType::Decimal128, Decimal128::from_bytes([9; 16]).into(), "09090909090909090909090909090909"),
        (ElementType::MaxKey, RawBson::MaxKey, ""),
        (ElementType::MinKey, RawBson::MinKey, ""),
    ]
}

#[test]
fn each_kind_has_its_tag_and_its_payload() {
    let tags: Vec<u8> = (1..=19).chain([0x7F, 0xFF]).collect();
    assert_eq!(kinds().iter().map(|(kind, ..)| *kind as u8).collect::<Vec<_>>(), tags);
    for tag in 0..=255 {
        let kind = kinds().into_iter().map(|(kind, ..)| kind).find(|kind| *kind as u8 == tag);
        assert_eq!(ElementType::from(tag), kind);
    }
    for (kind, value, payload) in kinds() {
        let mut made = RawDocumentBuf::new();
        made.append("k", value.clone());
        let element = made.iter_elements().next().unwrap().unwrap();
        assert_eq!((element.key(), element.element_type(), element.payload()), ("k", kind, &bytes(payload)[..]));
        assert_eq!(value.element_type(), kind);
        assert_eq!(element.value().unwrap().element_type(), kind);
        assert_eq!(element.value().unwrap().to_raw_bson(), value);
        assert_eq!(RawBson::try_from(element).unwrap(), value);
        assert_eq!(RawBsonRef::try_from(element).unwrap(), value.as_raw_bson_ref());
        let mut pushed = RawArrayBuf::new();
        pushed.push(value.clone());
        assert_eq!(pushed.get(0).unwrap(), Some(value.as_raw_bson_ref()));
    }
}

/// What the accessors of a borrowed and of an owned value say: the kind of each that gives something.
macro_rules! accessors {
    ($($name:ident: $kind:ident,)*) => {
        fn given(value: RawBsonRef<'_>) -> Vec<ElementType> {
            let mut given = Vec::new();
            $(
                assert_eq!(value.$name().is_some(), value.to_raw_bson().$name().is_some());
                if value.$name().is_some() {
                    given.push(ElementType::$kind);
                }
            )*
            given
        }
    };
}

accessors! {
    as_f64: Double, as_str: String, as_document: EmbeddedDocument, as_array: Array, as_binary: Binary,
    as_object_id: ObjectId, as_bool: Boolean, as_datetime: DateTime, as_regex: RegularExpression, as_timestamp: Timestamp,
    as_i32: Int32, as_i64: Int64, as_null: Null, as_symbol: Symbol, as_javascript: JavaScriptCode,
    as_javascript_with_scope: JavaScriptCodeWithScope, as_db_pointer: DbPointer,
}

/// What the getters of both views say of the value under a key, which is the first of an array too: the type of each that gives it;
/// each other one says which type it expects.
macro_rules! getters {
    ($($name:ident: $kind:ident,)*) => {
        fn got(document: &RawDocument, array: &RawArray, actual: ElementType) -> Vec<ElementType> {
            let mut got = Vec::new();
            $(
                match (document.$name("k"), array.$name(0)) {
                    (Ok(value), Ok(same)) => {
                        assert_eq!(value, same);
                        got.push(ElementType::$kind);
                    }
                    (Err(error), Err(same)) => {
                        assert_eq!((error.key(), same.key()), ("k", "0"));
                        assert_eq!(error.kind, same.kind);
                        let wanted = format!(" unexpected element type: {actual:?}, expected: {:?}", ElementType::$kind);
                        assert_eq!(error.to_string(), format!("error at key: \"k\": {wanted}"));
                    }
                    _ => panic!("both views give the same"),
                }
                let error = document.$name("l").unwrap_err();
                assert_eq!((error.key(), &error.kind), ("l", &ValueAccessErrorKind::NotPresent));
                assert_eq!(array.$name(1).unwrap_err().to_string(), "error at key: \"1\": value not present");
            )*
            got
        }
    };
}

getters! {
    get_f64: Double, get_str: String, get_document: EmbeddedDocument, get_array: Array, get_binary: Binary,
    get_object_id: ObjectId, get_bool: Boolean, get_datetime: DateTime, get_regex: RegularExpression,
    get_timestamp: Timestamp, get_i32: Int32, get_i64: Int64,
}

#[test]
fn accessors_and_getters_give_their_kind_alone() {
    use ElementType::*;
    for (kind, value, _) in kinds() {
        let without_accessor = [Undefined, Decimal128, MaxKey, MinKey];
        let wanted = if without_accessor.contains(&kind) { vec![] } else { vec![kind] };
        assert_eq!(given(value.as_raw_bson_ref()), wanted);
        let without_getter = [Null, Symbol, JavaScriptCode, JavaScriptCodeWithScope, DbPointer, Decimal128];
        let wanted = if without_getter.contains(&kind) { vec![] } else { wanted };
        let made = RawDocumentBuf::try_from_iter([("k", value.clone())]).unwrap();
        let array = RawArrayBuf::try_from_iter([value]).unwrap();
        assert_eq!(got(&made, &array, kind), wanted);
    }
}

#[test]
fn subtypes_have_their_numbers() {
    use BinarySubtype::*;
    let named = [Generic, Function, BinaryOld, UuidOld, Uuid, Md5, Encrypted, Column, Sensitive, Vector];
    for number in 0..=255_u8 {
        let wanted = match number {
            0..=9 => named[usize::from(number)],
            10..=127 => Reserved(number),
            128.. => UserDefined(number),
        };
        assert_eq!(BinarySubtype::from(number), wanted);
        assert_eq!(u8::from(wanted), number);
    }
}

#[test]
fn texts_of_any_length_are_judged() {
    let heads = ["", "short", "é", &"a".repeat(31), &"a".repeat(32), &"a".repeat(99), &"日本".repeat(30)];
    let tails: [&[u8]; 6] = [b"", b"b", "é😀".as_bytes(), b"\xff", b"\xe6\x97", b"\xed\xa0\x80"];
    for (head, tail) in heads.iter().flat_map(|head| tails.map(|tail| (head, tail))) {
        let bytes = [head.as_bytes(), tail].concat();
        for (tag, kind) in [(2, ElementType::String), (13, ElementType::JavaScriptCode), (14, ElementType::Symbol)] {
            let len = (bytes.len() as i32 + 1).to_le_bytes();
            let elements = [&[tag, b'k', 0], &len[..], &bytes, &[0]].concat();
            let made = RawDocumentBuf::from_bytes(crate::maker::framed(&elements)).unwrap();
            let value = made.get("k");
            match std::str::from_utf8(&bytes) {
                Ok(text) => {
                    let value = value.unwrap().unwrap();
                    let found = value.as_str().or(value.as_javascript()).or(value.as_symbol());
                    assert_eq!((found, value.element_type()), (Some(text), kind));
                }
                Err(error) => {
                    let found = value.unwrap_err();
                    assert_eq!((&found.kind, found.key()), (&ErrorKind::Utf8EncodingError(error), None));
                }
            }
        }
    }
}

#[test]
fn look_up_goes_to_the_first_element_with_the_key() {
    let overflowed = document("06000000 0a 00");
    assert_eq!(overflowed.get("").unwrap(), Some(RawBsonRef::Null));
    let error = overflowed.get("x").unwrap_err();
    assert_eq!((error.to_string().as_str(), error.key()), ("malformed value: \"iteration overflowed document\"", None));

    let twice = document("13000000 10 6100 01000000 10 6100 02000000 00");
    assert_eq!(twice.get_i32("a"), Ok(1));

    let bad_first = document("0d000000 08 6100 02 08 6100 01 00");
    let error = bad_first.get_bool("a").unwrap_err();
    assert!(matches!(error.kind, ValueAccessErrorKind::InvalidBson(_)));
    assert_eq!(
        error.to_string(),
        "error at key: \"a\": : error at key \"a\": malformed value: \"boolean must be stored as 0 or 1, got 2\""
    );

    let two = document("15000000 08 626f6f6c00 01 10 69333200 40420f00 00");
    assert_eq!(two.get_i32("i32"), Ok(1_000_000));
    assert_eq!(
        two.get_i32("bool").unwrap_err().to_string(),
        "error at key: \"bool\":  unexpected element type: Boolean, expected: Int32"
    );
    assert_eq!(two.get_i32("unknown").unwrap_err().to_string(), "error at key: \"unknown\": value not present");
}

#[test]
fn look_up_in_an_array_counts_faults() {
    let outer = plain::with_array(&bytes("06000000 0a 00"));
    let array = outer.get_array("0").unwrap();
    assert_eq!(array.get(0).unwrap(), Some(RawBsonRef::Null));
    assert_eq!(array.get(1).unwrap_err().to_string(), "malformed value: \"iteration overflowed document\"");
    assert_eq!(array.get(2).unwrap(), None);
    let error = array.get_i32(2).unwrap_err();
    assert_eq!((error.key(), &error.kind), ("2", &ValueAccessErrorKind::NotPresent));

    let mut copied = array.to_raw_array_buf();
    assert_eq!(format!("{copied:?}"), "RawArrayBuf { data: \"060000000a00\", len: 2 }");
    copied.push(RawBson::Null);
    assert_eq!(copied.as_bytes(), bytes("09000000 0a 0a3200 00"));
    assert_eq!(items(RawDocument::from_bytes(copied.as_bytes()).unwrap()), ["\"\\n2\" Null"]);

    let outer = plain::with_array(&bytes("15000000 02 3000 02000000 ff00 10 3100 07000000 00"));
    let array = outer.get_array("0").unwrap();
    let error = array.get_str(0).unwrap_err();
    let ValueAccessErrorKind::InvalidBson(inner) = &error.kind else { panic!("the text isn't UTF-8") };
    assert_eq!((error.key(), inner.key()), ("0", None));
    assert_eq!(array.get_i32(1), Ok(7));
    assert_eq!(array.into_iter().filter(Result::is_ok).count(), 1);
}

#[test]
fn an_element_whose_length_is_too_small_takes_in_what_is_appended() {
    let mut made = document("0b000000 0f 6100 03000000");
    assert_eq!(made.iter_elements().map(|element| element.unwrap().len()).collect::<Vec<_>>(), [3]);
    made.append("b", true);
    assert_eq!(made.as_bytes(), bytes("0f000000 0f 6100 03000008 62000100"));
}

/// Documents that appends make, each to an empty one.
fn appended() -> Vec<(RawDocumentBuf, &'static str)> {
    let old = Binary { subtype: BinarySubtype::BinaryOld, bytes: vec![1, 2, 3, 4] };
    let regex = Regex { pattern: r"end\s*$".into(), options: "i".into() };
    vec![
        (rawdoc! { "b": old }, "15000000 05 6200 08000000 02 04000000 01020304 00"),
        (rawdoc! { "ts": Timestamp { time: 649_876_543, increment: 9 } }, "11000000 11 747300 09000000 3f54bc26 00"),
        (rawdoc! { "a": -1, "b": 123, "c": 0 }, "1a000000 10 6100 ffffffff 10 6200 7b000000 10 6300 00000000 00"),
        (rawdoc! { "regex": regex }, "16000000 0b 726567657800 656e645c732a2400 6900 00"),
        (rawdoc! { "a": 1, "a": 2 }, "13000000 10 6100 01000000 10 6100 02000000 00"),
        (rawdoc! { "hello": "world" }, "16000000 02 68656c6c6f00 06000000 776f726c6400 00"),
    ]
}

#[test]
fn appends_make_these_bytes() {
    for (made, wanted) in appended() {
        assert_eq!(hex(made.as_bytes()), wanted.replace(' ', ""));
    }
    let mut list = RawArrayBuf::new();
    for text in ["binary", "serialized", "object", "notation"] {
        list.push(text);
    }
    assert_eq!((list.as_bytes().len(), list.as_bytes()[0]), (67, 0x43));
    assert_eq!((list.get_str(0), list.get_str(3)), (Ok("binary"), Ok("notation")));
    assert_eq!(list.get_str(4).unwrap_err().key(), "4");
    let mixed = RawArrayBuf::try_from_iter([RawBson::from("a string"), 12.into()]).unwrap();
    assert_eq!((mixed.as_bytes().len(), mixed.as_bytes()[0]), (28, 0x1c));
    let nested = rawdoc! { "a string": "some string", "an integer": 12, "a document": { "a key": true } };
    assert_eq!((nested.as_bytes().len(), nested.as_bytes()[0]), (72, 0x48));
}

#[test]
fn what_has_a_0_is_refused_and_changes_nothing() {
    let mut made = rawdoc! { "a": 1 };
    let before = made.clone();
    let regex = |pattern: &str, options: &str| Regex { pattern: pattern.into(), options: options.into() };
    let error = made.try_append("a\0b", RawBson::Null).unwrap_err();
    assert_eq!((error.to_string().as_str(), error.key()), ("malformed value: \"interior NUL\"", None));
    assert!(made.try_append("r", regex("a\0", "")).is_err());
    assert!(made.try_append("r", regex("a", "\0")).is_err());
    assert!(made.try_append_ref("r\0", 1).is_err());
    assert_eq!(made, before);
    let mut list = RawArrayBuf::new();
    assert!(list.try_push(regex("a\0", "")).is_err());
    assert_eq!(format!("{list:?}"), "RawArrayBuf { data: \"0500000000\", len: 0 }");
    assert!(RawDocumentBuf::try_from_iter([("a", RawBson::from(true)), ("b\0", RawBson::Null)]).is_err());
    assert!(RawArrayBuf::try_from_iter([regex("\0", "")]).is_err());
    // a text may hold one
    made.append("t", "a\0b");
    assert_eq!(made.get_str("t"), Ok("a\0b"));
}

/// What a call panics with.
fn panic_of(call: impl FnOnce() + std::panic::UnwindSafe) -> String {
    *std::panic::catch_unwind(call).unwrap_err().downcast::<String>().unwrap()
}

#[test]
fn what_has_a_0_ends_an_append_without_a_result() {
    let wanted = "the element can't be appended: malformed value: \"interior NUL\"";
    let regex = || RawBson::RegularExpression(Regex { pattern: "a\0".into(), options: String::new() });
    assert_eq!(panic_of(|| RawDocumentBuf::new().append("a\0", 1)), wanted);
    assert_eq!(panic_of(|| RawDocumentBuf::new().append("a", regex())), wanted);
    assert_eq!(panic_of(|| RawDocumentBuf::new().append_ref("a\0b", "c")), wanted);
    assert_eq!(panic_of(|| RawArrayBuf::new().push(regex())), wanted);
    assert_eq!(panic_of(|| RawArrayBuf::new().push_ref(&regex())), wanted);
    assert_eq!(panic_of(|| drop([("\0", 1)].into_iter().collect::<RawDocumentBuf>())), wanted);
    assert_eq!(panic_of(|| drop([regex()].into_iter().collect::<RawArrayBuf>())), wanted);
    assert_eq!(panic_of(|| drop(rawdoc! { "a\0": 1 })), wanted);
    assert_eq!(panic_of(|| drop(rawbson!([{ "a\0": 1 }]))), wanted);
}

#[test]
fn no_document_is_longer_than_its_length_can_say() {
    // memory that nothing is written to takes none
    let mut data = vec![0; i32::MAX as usize];
    let size = i32::MAX - 4 - 3 - 5 - 1;
    data[..4].copy_from_slice(&i32::MAX.to_le_bytes());
    data[4..11].copy_from_slice(&[&[5, b'b', 0], &size.to_le_bytes()[..]].concat());
    let mut longest = RawDocumentBuf::from_bytes(data).unwrap();
    assert_eq!(longest.get_binary("b").unwrap().bytes.len(), size as usize);
    let error = longest.try_append("", RawBson::Null).unwrap_err();
    assert_eq!(error.to_string(), "malformed value: \"document too long\"");
    assert!(longest.try_append("a\0", RawBson::Null).unwrap_err().to_string().contains("interior NUL"));
    assert_eq!(longest.iter_elements().count(), 1);
}

#[test]
fn options_are_sorted_by_a_copy_alone() {
    let borrowed = RawBsonRef::RegularExpression(RawRegexRef { pattern: "a", options: "mi" });
    let copied = borrowed.to_raw_bson();
    assert_eq!(copied.as_regex().unwrap().options, "im");
    let mut made = RawDocumentBuf::new();
    made.append_ref("r", borrowed);
    made.append("r", Regex { pattern: "a".into(), options: "mi".into() });
    assert_eq!(hex(made.as_bytes()), "150000000b720061006d69000b720061006d690000");
}

/// Why a document isn't canonical, and where.
type Breach = (Cause, &'static [usize]);

/// Documents with their canonical form, and why and where they aren't canonical.
const FORMS: &[(&str, &str, Option<Breach>)] = &[
    ("0500000000", "0500000000", None),
    ("16000000 0f 6300 0e000000 01000000 00 0500000000 00", "160000000f63000e00000001000000000500000000 00", None),
    ("13000000 10 6100 01000000 10 6100 02000000 00", "0c000000 10 6100 02000000 00", Some((Cause::RepeatedKey, &[1]))),
    (
        "0f000000 04 6100 07000000 0a 00 00 00",
        "10000000 04 6100 08000000 0a 3000 00 00",
        Some((Cause::ArrayKey, &[0, 0])),
    ),
    ("0d000000 0b 7200 6100 6d6900 00", "0d000000 0b 7200 6100 696d00 00", Some((Cause::Options, &[0]))),
    (
        "1a000000 10 6100 01000000 10 6200 02000000 10 6100 03000000 00",
        "13000000 10 6100 03000000 10 6200 02000000 00",
        Some((Cause::RepeatedKey, &[2])),
    ),
    ("13000000 10 6200 02000000 10 6100 01000000 00", "13000000 10 6200 02000000 10 6100 01000000 00", None),
];

#[test]
fn forms_and_breaches_are_those_of_worked_documents() {
    let limits = Limits::default();
    for (hex, form, breach) in FORMS {
        let given = document(hex);
        let form = document(form);
        assert_eq!(given.canonical_with(limits).as_ref(), Ok(&form));
        assert_eq!(form.canonical_with(limits).as_ref(), Ok(&form));
        assert_eq!(form.validate_with(limits), Ok(()));
        assert_eq!(given.first_fault_with(limits), None);
        let problem = given.validate_with(limits).err();
        assert_eq!(
            problem.as_ref().map(|it| it.kind.clone()),
            breach.map(|(cause, _)| ProblemKind::NotCanonical(cause))
        );
        assert_eq!(problem.map(|it| it.place.unwrap().path), breach.map(|(_, path)| path.to_vec()));
    }
    let bad_first = document("0d000000 08 6100 02 08 6100 01 00");
    assert_eq!(bad_first.validate_with(limits).unwrap_err().kind, ProblemKind::NotCanonical(Cause::Value));
    let problem = bad_first.canonical_with(limits).unwrap_err();
    let wanted = "at /0:\"a\", byte 4: malformed value: \"boolean must be stored as 0 or 1, got 2\"";
    assert_eq!(problem.to_string(), wanted);
    let stop = document("0e000000 03 6100 06000000 0a 00 00");
    assert_eq!(stop.validate_with(limits).unwrap_err().kind, ProblemKind::NotCanonical(Cause::Stop));
    let place = stop.first_fault_with(limits).unwrap().place.unwrap();
    assert_eq!((place.path, place.offset, place.key), (vec![0, 1], 13, None));
}

/// This many levels, each but the innermost holding the next under the empty key.
pub fn levels(count: usize) -> RawDocumentBuf {
    (1..count).fold(RawDocumentBuf::new(), |inner, _| rawdoc! { "": inner })
}

#[test]
fn limits_are_kept() {
    let limits = Limits::default();
    let deep = levels(500);
    assert_eq!((deep.as_bytes().len(), &deep.as_bytes()[..4]), (3498, &[0xaa, 0x0d, 0, 0][..]));
    assert_eq!(deep.canonical_with(limits).as_ref(), Ok(&deep));
    assert_eq!(deep.flatten_with(limits).unwrap().len(), 499);
    let deeper = levels(501);
    for problem in [
        deeper.canonical_with(limits).unwrap_err(),
        deeper.first_fault_with(limits).unwrap(),
        deeper.validate_with(limits).unwrap_err(),
        deeper.to_json_with(limits, Default::default()).unwrap_err(),
        deeper.flatten_with(limits).err().unwrap(),
    ] {
        assert_eq!(problem.kind, ProblemKind::TooDeep);
        assert_eq!(problem.place.unwrap().path, [0; 500]);
    }
    let deepest = levels(1001);
    let all = Limits { max_depth: usize::MAX, ..limits };
    assert_eq!(deepest.canonical_with(all).as_ref(), Ok(&deepest));
    assert_eq!(deepest.flatten_with(all).unwrap().len(), 1000);
    let small = Limits { max_bytes: 4, ..limits };
    let problem = RawDocumentBuf::new().validate_with(small).unwrap_err();
    assert_eq!((problem.kind, problem.place), (ProblemKind::TooManyBytes, None));
}

#[test]
fn tokens_are_elements_of_all_levels() {
    let scope = RawJavaScriptCodeWithScope { code: "f".into(), scope: rawdoc! { "x": "y" } };
    let given = rawdoc! { "a": [{ "b": "c" }], "s": scope, "d": 1.5 };
    let tokens = given.flatten().unwrap();
    let told: Vec<_> = tokens.iter().map(|it| (it.element.key(), it.depth, it.inside)).collect();
    assert_eq!(told, [("a", 0, 2), ("0", 1, 1), ("b", 2, 0), ("s", 0, 1), ("x", 1, 0), ("d", 0, 0)]);
    assert_eq!(tokens[2].element.value(), Ok(RawBsonRef::String("c")));
    assert_eq!(tokens[4].element.value(), Ok(RawBsonRef::String("y")));
    assert_eq!(tokens[5].element.value(), Ok(RawBsonRef::Double(1.5)));
}

#[test]
fn json_has_its_styles() {
    let given = rawdoc! { "a": 1, "b": [true, null] };
    let text = |canonical, indented| {
        given.to_json_with(Limits::default(), bsonraw::whole::JsonStyle { canonical, indented }).unwrap()
    };
    assert_eq!(text(false, false), r#"{"a":1,"b":[true,null]}"#);
    assert_eq!(text(true, false), r#"{"a":{"$numberInt":"1"},"b":[true,null]}"#);
    assert_eq!(text(false, true), "{\n  \"a\": 1,\n  \"b\": [\n    true,\n    null\n  ]\n}");
    let long = "x".repeat(5000);
    let given = rawdoc! { "a": long.as_str(), "b": "\u{1}".repeat(3000) };
    let text = given.to_json().unwrap();
    assert_eq!(text.len(), 23 - 8 + 5000 + 6 * 3000);
}

#[test]
fn documents_come_from_json() {
    use bsonraw::whole::JsonReason;
    let limits = Limits::default();
    let read = |text: &str| RawDocumentBuf::from_json_with(text, limits);
    let wanted = rawdoc! { "a": 1, "b": [true, RawBson::Null], "c": RawBson::Double(-0.0), "d": i64::MAX };
    assert_eq!(
        read(r#"{"a":1,"b":[true,null],"c":-0.0,"d":{"$numberLong":"9223372036854775807"}}"#),
        Ok(wanted.clone())
    );
    let style = bsonraw::whole::JsonStyle { canonical: true, indented: true };
    assert_eq!(read(&wanted.to_json_with(limits, style).unwrap()), Ok(wanted));
    let items = "0,".repeat(99_999) + "0";
    let long = read(&format!("{{\"a\":[{items}]}}")).unwrap();
    assert_eq!(long.get_array("a").unwrap().into_iter().count(), 100_000);

    let error = read("{\"a\": 1,\n \"é\": tru}").unwrap_err();
    assert_eq!((error.reason, error.offset, error.line, error.column), (JsonReason::ExpectedValue, 16, 2, 7));
    assert_eq!(error.to_string(), "line 2, column 7: expected a value");
    let error = read(r#"{"a": {"$oid": "5f2b"}}"#).unwrap_err();
    assert_eq!(
        (error.reason, error.to_string().as_str()),
        (JsonReason::Malformed("$oid"), "line 1, column 16: a malformed $oid")
    );
    let error = RawDocumentBuf::from_json_with(r#"{"a": 1}"#, Limits { max_bytes: 11, ..limits }).unwrap_err();
    assert_eq!(error.reason, JsonReason::TooManyBytes);
    let error = RawDocumentBuf::from_json_with(r#"{"a": {}}"#, Limits { max_depth: 1, ..limits }).unwrap_err();
    assert_eq!(error.reason, JsonReason::TooDeep);
}

#[test]
fn documents_lie_one_behind_the_other() {
    use bsonraw::whole::Documents;
    let dump = bytes("0500000000 0600000001 01 0500000000");
    let found: Vec<_> = Documents::new(&dump).map(|(offset, document)| (offset, document.is_ok())).collect();
    assert_eq!(found, [(0, true), (5, false), (11, true)]);
    let found: Vec<_> = Documents::new(&dump[..8]).map(|(offset, document)| (offset, document.is_ok())).collect();
    assert_eq!(found, [(0, true), (5, false)]);
}

/// A reader that gives a byte at a time, and fails at the end.
struct Slow<'a>(&'a [u8]);

impl std::io::Read for Slow<'_> {
    fn read(&mut self, room: &mut [u8]) -> std::io::Result<usize> {
        let (byte, rest) = self.0.split_first().ok_or(std::io::ErrorKind::ConnectionReset)?;
        self.0 = rest;
        room[0] = *byte;
        Ok(1)
    }
}

#[test]
fn documents_come_from_a_reader() {
    use bsonraw::whole::{DocumentReader, Documents, ReadError};
    let told = |item: (u64, Result<RawDocumentBuf, ReadError>)| match item {
        (offset, Ok(document)) => format!("{offset} {}", document.as_bytes().len()),
        (offset, Err(error)) => format!("{offset} {error}"),
    };
    let all = |dump: &[u8], most| DocumentReader::with_max_bytes(dump, most).map(told).collect::<Vec<_>>();
    let not_terminated = "malformed value: \"document not null-terminated\"";
    let dump = bytes("0500000000 060000000001 080000000a610000 0500000000");
    assert_eq!(all(&dump, 100), ["0 5", &format!("5 {not_terminated}"), "11 8", "19 5"]);
    assert_eq!(all(&dump, 6), ["0 5", &format!("5 {not_terminated}"), "11 more bytes than allowed", "19 5"]);
    assert_eq!(all(&dump[..18], 6), ["0 5", &format!("5 {not_terminated}"), "11 more bytes than allowed"]);
    let incorrect = "malformed value: \"document length incorrect\"";
    assert_eq!(all(&dump[..18], 100)[2], format!("11 {incorrect}"));
    assert_eq!(all(b"", 100), [""; 0]);
    for short in [&b"\x05\0\0"[..], b"\x05\0\0\0", b"\x04\0\0\0\0", b"\xff\xff\xff\xff\0\0"] {
        assert_eq!(all(short, 100), ["0 malformed value: \"document too short\""]);
    }
    // as those of the bytes
    for cut in 0..=dump.len() {
        let of_bytes: Vec<_> = Documents::new(&dump[..cut]).map(|(at, it)| (at as u64, it.is_ok())).collect();
        let of_reader: Vec<_> = DocumentReader::new(&dump[..cut]).map(|(at, it)| (at, it.is_ok())).collect();
        assert_eq!(of_reader, of_bytes);
    }
    let mut slow = DocumentReader::new(Slow(&dump));
    assert_eq!(slow.by_ref().take(4).map(told).last().unwrap(), "19 5");
    assert!(matches!(slow.next(), Some((24, Err(ReadError::Io(_))))));
    assert!(slow.next().is_none());
    assert_eq!(DocumentReader::new(&dump[..]).into_inner().len(), dump.len());
}

#[test]
fn traits_lead_from_buffers_to_views_and_back() {
    use std::borrow::{Borrow, Cow};
    use std::collections::HashSet;
    let made = rawdoc! { "a": [1, 2] };
    let view: &RawDocument = &made;
    assert_eq!((made.as_ref() as &RawDocument, Borrow::<RawDocument>::borrow(&made)), (view, view));
    assert_eq!(
        (view.to_owned(), view.to_raw_document_buf(), RawDocumentBuf::from(view)),
        (made.clone(), made.clone(), made.clone())
    );
    assert_eq!(RawDocumentBuf::try_from(made.clone().into_bytes()).unwrap(), made);
    assert!(matches!(Cow::from(view), Cow::Borrowed(same) if same == view));
    assert!(matches!(Cow::from(&made), Cow::Borrowed(_)));
    assert!(matches!(Cow::<RawDocument>::from(made.clone()), Cow::Owned(_)));
    let list = view.get_array("a").unwrap();
    let owned: RawArrayBuf = list.to_owned();
    assert_eq!((owned.as_ref() as &RawArray, Borrow::<RawArray>::borrow(&owned), &*owned), (list, list, list));
    assert!(matches!(Cow::from(list), Cow::Borrowed(same) if same == list));
    assert!(matches!(Cow::from(&owned), Cow::Borrowed(_)));
    assert!(matches!(Cow::<RawArray>::from(owned.clone()), Cow::Owned(_)));
    let set: HashSet<RawDocumentBuf> = [made.clone()].into();
    assert!(set.contains(view));
    assert_eq!((RawDocumentBuf::default(), RawArrayBuf::default()), (rawdoc! {}, RawArrayBuf::new()));
    assert_eq!([("a", 1), ("b", 2)].into_iter().collect::<RawDocumentBuf>(), rawdoc! { "a": 1, "b": 2 });
    assert_eq!([1, 2].into_iter().collect::<RawArrayBuf>(), owned);
    let mut value = RawBson::from(made);
    value.as_document_mut().unwrap().append("b", 1);
    assert_eq!(value.as_document().unwrap().get_i32("b"), Ok(1));
    assert!(value.as_array_mut().is_none());
    assert_eq!(format!("{:?}", rawdoc! {}), "RawDocumentBuf { data: \"0500000000\" }");
    let list = rawbson!([1]);
    assert_eq!(format!("{:?}", list.as_array().unwrap()), "RawArray { data: \"0c0000001030000100000000\" }");
}

#[test]
fn macros_take_what_is_written_down() {
    let key = String::from("k");
    let given = rawdoc! {
        "null": null,
        key.as_str(): 1 + 2,
        "list": [null, [], {}, [1, { "a": null }], -1, vec![7; 2].len() as i32],
        "inner": { "a": { "b": true, }, },
    };
    assert_eq!(given.get("null").unwrap(), Some(RawBsonRef::Null));
    assert_eq!(given.get_i32("k"), Ok(3));
    let list = given.get_array("list").unwrap();
    assert_eq!(list.into_iter().count(), 6);
    assert_eq!(list.get_array(3).unwrap().get_document(1).unwrap().get("a").unwrap(), Some(RawBsonRef::Null));
    assert_eq!((list.get_i32(4), list.get_i32(5)), (Ok(-1), Ok(2)));
    assert_eq!(given.get_document("inner").unwrap().get_document("a").unwrap().get_bool("b"), Ok(true));
    assert_eq!(rawbson!("text"), RawBson::String("text".into()));
}

#[test]
fn ids_are_printed_in_hex() {
    let id = ObjectId::from_bytes([1, 2, 3, 4, 5, 6, 7, 8, 9, 10, 11, 12]);
    assert_eq!(id.to_hex(), "0102030405060708090a0b0c");
    assert_eq!((id.to_string(), format!("{id:?}")), (id.to_hex(), format!("ObjectId(\"{}\")", id.to_hex())));
    assert_eq!(id.bytes()[11], 12);
}

#[test]
fn iterators_print_what_is_left() {
    use bsonraw::whole::Documents;
    let bad = document("0d000000 08 6100 02 08 6200 01 00");
    let mut elements = bad.iter_elements();
    let first = r#"RawElement { key: "a", kind: Boolean, len: 1 }"#;
    let second = r#"RawElement { key: "b", kind: Boolean, len: 1 }"#;
    assert_eq!(format!("{elements:?}"), format!("RawIter [Ok({first}), Ok({second})]"));
    assert_eq!(format!("{:?}", elements.next().unwrap().unwrap()), first);
    assert_eq!(format!("{elements:?}"), format!("RawIter [Ok({second})]"));
    let mut items = bad.iter();
    assert!(format!("{items:?}").starts_with("Iter [Err(Error {"));
    assert!(items.next().unwrap().is_err());
    assert_eq!(format!("{items:?}"), r#"Iter [Ok(("b", Boolean(true)))]"#);
    let list = rawdoc! { "l": [1, null] };
    assert_eq!(format!("{:?}", list.get_array("l").unwrap().into_iter()), "RawArrayIter [Ok(Int32(1)), Ok(Null)]");
    for (hex, _) in ITEMS {
        let given = document(hex);
        let text = format!("{:?} {:?}", given.iter_elements(), given.iter());
        assert!(text.starts_with("RawIter [") && text.ends_with(']'), "{text}");
    }
    let tokens = list.flatten().unwrap();
    let wanted = r#"Token { element: RawElement { key: "1", kind: Null, len: 0 }, depth: 1, inside: 0 }"#;
    assert_eq!(format!("{:?}", tokens[2]), wanted);
    assert_eq!(bad.flatten().unwrap_err().place.unwrap().path, [0]);
    let dump = bytes("0500000000 0500000000 01");
    let mut documents = Documents::new(&dump);
    documents.next();
    assert_eq!(format!("{documents:?}"), "Documents { next: 5, len: 11 }");
}

#[test]
fn arrays_are_found_by_their_views() {
    use std::collections::HashSet;
    let list: RawArrayBuf = [1, 2].into_iter().collect();
    let other: RawArrayBuf = [1, 3].into_iter().collect();
    let made = rawdoc! { "a": [1, 2] };
    let view = made.get_array("a").unwrap();
    let set: HashSet<RawArrayBuf> = [list.clone(), view.to_owned(), other].into();
    assert_eq!(set.len(), 2);
    assert_eq!(set.get(view), Some(&list));
    let values: Vec<_> = view.iter().chain(list.iter()).map(|value| value.unwrap().as_i32().unwrap()).collect();
    assert_eq!(values, [1, 2, 1, 2]);
}

#[test]
fn borrowed_values_become_owned_ones() {
    for (_, value, _) in kinds() {
        assert_eq!(RawBson::from(value.as_raw_bson_ref()), value);
    }
    let regex = RawBsonRef::RegularExpression(RawRegexRef { pattern: "p", options: "mi" });
    let wanted = Regex { pattern: "p".into(), options: "im".into() };
    assert_eq!(RawBson::from(regex), RawBson::RegularExpression(wanted));
    let made = RawArrayBuf::try_from_iter([RawBsonRef::Int32(7), RawBsonRef::String("x")]).unwrap();
    assert_eq!(made.get_str(1), Ok("x"));
}

#[test]
fn ids_are_read_from_hex() {
    use bsonraw::oid::Error;
    let id = ObjectId::from_bytes([0x50, 0x7f, 0x1f, 0x77, 0xbc, 0xf8, 0x6c, 0xd7, 0x99, 0x43, 0x90, 0x11]);
    assert_eq!(ObjectId::parse_str("507f1f77bcf86cd799439011"), Ok(id));
    assert_eq!("507F1F77BCF86CD799439011".parse(), Ok(id));
    // 0x507f1f77 is 1350508407, and the first bit is no sign.
    assert_eq!(id.timestamp(), DateTime::from_millis(1_350_508_407_000));
    assert_eq!(ObjectId::from_bytes([0xff; 12]).timestamp(), DateTime::from_millis(4_294_967_295_000));
    let length = |length, hex: &str| Err(Error::InvalidHexStringLength { length, hex: hex.into() });
    let character = |c, index, hex: &str| Err(Error::InvalidHexStringCharacter { c, index, hex: hex.into() });
    for (hex, wanted) in [
        ("", length(0, "")),
        ("507f1f77bcf86cd79943901", length(23, "507f1f77bcf86cd79943901")),
        ("507f1f77bcf86cd79943901100", length(26, "507f1f77bcf86cd79943901100")),
        ("507f1f77bcf86cd79943901g", character('g', 23, "507f1f77bcf86cd79943901g")),
        ("50é", character('é', 2, "50é")),
        ("5g7", length(3, "5g7")),
    ] {
        assert_eq!(ObjectId::parse_str(hex), wanted);
        assert_eq!(hex.parse::<ObjectId>(), wanted);
    }
    let said = |hex| ObjectId::parse_str(hex).unwrap_err().to_string();
    assert_eq!(said("5"), r#"an id has 24 digits, not 1: "5""#);
    assert_eq!(said("5g"), r#"not a digit of hex: 'g' after 1 bytes of "5g""#);
}

/// What is larger than the limits is refused before any room is taken, and what there is no memory for is an error. The test starts
/// itself again, with 1.5 GB for all.
#[cfg(target_os = "linux")]
#[test]
fn limits_come_before_memory() {
    use bsonraw::whole::JsonReason;
    use std::process::Command;
    if std::env::var_os("BSONRAW_LITTLE_MEMORY").is_none() {
        let status = Command::new("sh")
            .args(["-c", r#"ulimit -v 1500000 && exec "$0" --exact rows::limits_come_before_memory --test-threads 1"#])
            .arg(std::env::current_exe().unwrap())
            .env("BSONRAW_LITTLE_MEMORY", "1")
            .status();
        assert!(status.unwrap().success());
        return;
    }
    let text = "\0".repeat(600 << 20);
    let error = RawDocumentBuf::from_json(&text).unwrap_err();
    assert_eq!(error.reason, JsonReason::ExpectedDocument);
    let all = Limits { max_bytes: usize::MAX, max_depth: 500 };
    let error = RawDocumentBuf::from_json_with(&text, all).unwrap_err();
    assert_eq!((error.reason, error.offset, error.line, error.column), (JsonReason::OutOfMemory, 0, 1, 1));
    drop(text);

    let mut large = vec![0; 1 << 30];
    large[..4].copy_from_slice(&(1_u32 << 30).to_le_bytes());
    let large = RawDocumentBuf::from_bytes(large).unwrap();
    for (limits, wanted) in [(Limits::default(), ProblemKind::TooManyBytes), (all, ProblemKind::OutOfMemory)] {
        for problem in [
            large.to_json_with(limits, Default::default()).unwrap_err(),
            large.canonical_with(limits).unwrap_err(),
            large.flatten_with(limits).unwrap_err(),
        ] {
            assert_eq!((problem.kind, problem.place), (wanted.clone(), None));
        }
    }
}
