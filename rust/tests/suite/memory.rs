//! Documents and values in memory, and what bytes become there.

use std::collections::HashSet;

use bsonraw::document::ValueAccessError;
use bsonraw::oid::ObjectId;
use bsonraw::raw::{ErrorKind, RawBson, RawDocument, RawDocumentBuf};
use bsonraw::spec::{BinarySubtype, ElementType};
use bsonraw::{bson, doc, rawdoc, Array, Binary, Bson, DateTime, Document, JavaScriptCodeWithScope, Regex, Timestamp};

use crate::rows::{bytes, document, kinds, levels};

#[test]
fn each_kind_comes_into_memory_and_back() {
    let mut seen = HashSet::new();
    for (kind, value, payload) in kinds() {
        let raw = RawDocumentBuf::try_from_iter([("k", value.clone())]).unwrap();
        let made = raw.to_document().unwrap();
        assert_eq!(made.get("k").unwrap().element_type(), kind);
        let back = RawDocumentBuf::from_document(&made).unwrap();
        assert_eq!(back.as_bytes()[7..back.as_bytes().len() - 1], bytes(payload));
        assert_eq!(back, raw);
        assert_eq!(Bson::try_from(value.as_raw_bson_ref()).unwrap(), made.get("k").unwrap().clone());
        assert_eq!(Bson::try_from(value.clone()).unwrap(), made.get("k").unwrap().clone());
        assert_eq!(RawBson::try_from(made.get("k").unwrap().clone()).unwrap(), value);
        let element = raw.iter_elements().next().unwrap().unwrap();
        assert_eq!(Bson::try_from(element).unwrap(), made.get("k").unwrap().clone());
        let array = rawdoc! { "a": [value.clone(), value] };
        let list: Array = array.get_array("a").unwrap().try_into().unwrap();
        assert_eq!(list, [made.get("k").unwrap().clone(), made.get("k").unwrap().clone()]);
        assert_eq!(RawDocumentBuf::from_document(&array.to_document().unwrap()).unwrap(), array);
        seen.insert(kind);
    }
    assert_eq!(seen.len(), 21);
}

#[test]
fn a_repeated_key_has_its_last_value_in_its_first_place() {
    let raw = document("1a000000 10 6100 01000000 10 6200 03000000 10 6100 02000000 00");
    let made = raw.to_document().unwrap();
    assert_eq!(
        made.iter().map(|(key, value)| (key.as_str(), value.as_i32())).collect::<Vec<_>>(),
        [("a", Some(2)), ("b", Some(3))]
    );
}

#[test]
fn a_fault_at_any_level_is_the_error_of_a_document() {
    // a document with a boolean of 2 inside an array
    let raw = document("19000000 04 6100 11000000 03 3000 09000000 08 6200 02 00 00 00");
    let error = raw.to_document().unwrap_err();
    assert_eq!(error.key(), Some("b"));
    assert_eq!(error.to_string(), r#"error at key "b": malformed value: "boolean must be stored as 0 or 1, got 2""#);
    assert_eq!(Document::try_from(&*raw).unwrap_err(), error);
    assert_eq!(Document::try_from(raw.clone()).unwrap_err(), error);
    assert_eq!(Bson::try_from(RawBson::from(raw)).unwrap_err(), error);
}

#[test]
fn a_document_in_memory_has_200_levels_at_most() {
    let made = levels(200).to_document().unwrap();
    assert_eq!(RawDocumentBuf::from_document(&made).unwrap(), levels(200));
    let error = levels(201).to_document().unwrap_err();
    assert_eq!(error.to_string(), "malformed value: \"more levels than allowed\"");
    // however many there are
    let nested = RawDocumentBuf::from_bytes(nested(100_000)).unwrap();
    assert!(matches!(nested.to_document().unwrap_err().kind, ErrorKind::MalformedValue { .. }));
}

/// This many levels under the empty key, quickly made.
fn nested(count: usize) -> Vec<u8> {
    let mut made = Vec::new();
    for level in 0..count {
        made.extend((5 + 7 * (count - level - 1) as u32).to_le_bytes());
        made.extend(if level + 1 < count { &b"\x03\0"[..] } else { &b""[..] });
    }
    made.extend(vec![0; count]);
    made
}

#[test]
fn what_has_a_0_becomes_no_bytes() {
    let regex = Regex { pattern: "a\0".into(), options: String::new() };
    for made in [
        doc! { "a\0": 1 },
        doc! { "a": { "b\0": 1 } },
        doc! { "a": [{ "b\0": 1 }] },
        doc! { "a": regex },
        doc! { "a": JavaScriptCodeWithScope { code: "c".into(), scope: doc! { "\0": 1 } } },
    ] {
        let error = RawDocumentBuf::from_document(&made).unwrap_err();
        assert_eq!(error.to_string(), "malformed value: \"interior NUL\"");
        assert_eq!(RawDocumentBuf::try_from(&made).unwrap_err(), error);
        assert!(RawBson::try_from(Bson::from(made.clone())).is_err());
        assert!(made.to_writer(Vec::new()).is_err());
    }
}

#[test]
fn keys_stay_in_order_however_many_there_are() {
    let mut made = Document::new();
    for number in 0..1000 {
        assert_eq!(made.insert(format!("k{number}"), number), None);
    }
    assert_eq!(made.len(), 1000);
    assert_eq!(made.insert("k500", "new"), Some(Bson::Int32(500)));
    assert_eq!(made.remove("k0"), Some(Bson::Int32(0)));
    assert_eq!(made.remove("k0"), None);
    assert_eq!(made.remove("k900"), Some(Bson::Int32(900)));
    let wanted: Vec<_> = (1..1000).filter(|number| *number != 900).map(|number| format!("k{number}")).collect();
    assert_eq!(made.keys().cloned().collect::<Vec<_>>(), wanted);
    assert_eq!(made.get_str("k500"), Ok("new"));
    for number in (1..1000).filter(|number| ![500, 900].contains(number)) {
        assert_eq!(made.get_i32(format!("k{number}")), Ok(number));
    }
    assert!(!made.contains_key("k900") && !made.contains_key("k0") && made.contains_key("k999"));
    while made.len() > 3 {
        let first = made.keys().next().unwrap().clone();
        made.remove(first);
    }
    assert_eq!(made, doc! { "k997": 997, "k998": 998, "k999": 999 });
    made.extend([("k998".to_string(), Bson::Null), ("a".to_string(), Bson::Null)]);
    assert_eq!(made.to_string(), r#"{ "k997": 997, "k998": null, "k999": 999, "a": null }"#);
    made.clear();
    assert!(made.is_empty() && made.get("a").is_none());
}

#[test]
fn the_order_of_keys_is_no_part_of_equality() {
    assert_eq!(doc! { "a": 1, "b": 2 }, doc! { "b": 2, "a": 1 });
    for other in [doc! { "a": 1 }, doc! { "a": 1, "b": 3 }, doc! { "a": 1, "c": 2 }, doc! { "a": 1, "b": 2, "c": 3 }] {
        assert_ne!(doc! { "a": 1, "b": 2 }, other);
    }
    assert_ne!(doc! { "a": 1_i32 }, doc! { "a": 1_i64 });
}

#[test]
fn getters_of_a_document_tell_what_is_missing() {
    let id = ObjectId::from_bytes([7; 12]);
    let time = DateTime::from_millis(5);
    let mut made = doc! {
        "double": 1.5, "string": "s", "array": [1], "document": { "a": 1 }, "bool": true, "i32": 1, "i64": 2_i64,
        "timestamp": Timestamp { time: 1, increment: 2 }, "id": id, "time": time, "null": null,
        "bytes": Binary { subtype: BinarySubtype::Generic, bytes: vec![1] },
        "function": Binary { subtype: BinarySubtype::Function, bytes: vec![1] },
        "decimal": "1.5".parse::<bsonraw::Decimal128>().unwrap(),
    };
    assert_eq!(made.get_f64("double"), Ok(1.5));
    assert_eq!(made.get_str("string"), Ok("s"));
    assert_eq!(made.get_array("array"), Ok(&vec![Bson::Int32(1)]));
    assert_eq!(made.get_document("document"), Ok(&doc! { "a": 1 }));
    assert_eq!((made.get_bool("bool"), made.get_i32("i32"), made.get_i64("i64")), (Ok(true), Ok(1), Ok(2)));
    assert_eq!(made.get_timestamp("timestamp"), Ok(Timestamp { time: 1, increment: 2 }));
    assert_eq!((made.get_object_id("id"), made.get_datetime("time")), (Ok(id), Ok(&time)));
    assert_eq!(made.get_binary_generic("bytes"), Ok(&vec![1]));
    assert_eq!(made.get_binary_generic("function"), Err(ValueAccessError::UnexpectedType));
    assert_eq!(made.get_decimal128("decimal").unwrap().to_string(), "1.5");
    assert_eq!(made.get_i64("i32"), Err(ValueAccessError::UnexpectedType));
    assert_eq!(made.get_i64("none").unwrap_err().to_string(), "field is not present");
    assert_eq!((made.is_null("null"), made.is_null("i32"), made.is_null("none")), (true, false, false));
    *made.get_i32_mut("i32").unwrap() += 1;
    made.get_array_mut("array").unwrap().push("x".into());
    made.get_document_mut("document").unwrap().insert("b", 2);
    made.get_mut("null").unwrap().clone_from(&Bson::Int32(3));
    assert_eq!(made.get_bool_mut("i32"), Err(ValueAccessError::UnexpectedType));
    assert_eq!(made.get_bool_mut("none"), Err(ValueAccessError::NotPresent));
    assert_eq!((made.get_i32("i32"), made.get_i32("null")), (Ok(2), Ok(3)));
    assert_eq!(made.get("array"), Some(&bson!([1, "x"])));
    assert_eq!(made.get("document"), Some(&bson!({ "a": 1, "b": 2 })));
    for (_, value) in &mut made {
        *value = Bson::Null;
    }
    assert!(made.values().all(|value| *value == Bson::Null) && made.iter_mut().rev().count() == 14);
    assert_eq!(made.into_iter().next().unwrap().0, "double");
}

#[test]
fn values_are_made_of_what_rust_has() {
    for (value, wanted) in [
        (Bson::from(1_u8), Bson::Int32(1)),
        (Bson::from(-1_i8), Bson::Int32(-1)),
        (Bson::from(1_u16), Bson::Int32(1)),
        (Bson::from(i32::MAX as u32), Bson::Int32(i32::MAX)),
        (Bson::from(u32::MAX), Bson::Int64(4_294_967_295)),
        (Bson::from(1.5_f32), Bson::Double(1.5)),
        (Bson::from("s"), Bson::String("s".into())),
        (Bson::from(&String::from("s")), Bson::String("s".into())),
        (Bson::from(&7), Bson::Int32(7)),
        (Bson::from(Some(7)), Bson::Int32(7)),
        (Bson::from(None::<i32>), Bson::Null),
        (Bson::from(vec!["a", "b"]), bson!(["a", "b"])),
        (Bson::from(&[1, 2][..]), bson!([1, 2])),
        (["a"].into_iter().collect(), bson!(["a"])),
        (Bson::from([7_u8; 12]), Bson::ObjectId(ObjectId::from_bytes([7; 12]))),
        (Bson::default(), Bson::Null),
    ] {
        assert_eq!(value, wanted);
    }
    let key = String::from("k");
    let given = doc! { key.as_str(): 1 + 2, "n": -1, "l": [null, [], {}, [1, { "a": null }]], key: 4, };
    assert_eq!(given.to_string(), r#"{ "k": 4, "n": -1, "l": [null, [], {}, [1, { "a": null }]] }"#);
}

#[test]
fn accessors_of_a_value_give_its_kind_alone() {
    let value = bson!([5, { "a": true }]);
    assert_eq!(value.as_array().unwrap()[0].as_i32(), Some(5));
    assert_eq!(value.as_array().unwrap()[1].as_document().unwrap().get_bool("a"), Ok(true));
    assert_eq!((value.as_i32(), value.as_bool(), value.as_null()), (None, None, None));
    assert_eq!((Bson::Null.as_null(), Bson::Double(1.0).as_f64()), (Some(()), Some(1.0)));
    let mut value = Bson::from(1);
    *value.as_i32_mut().unwrap() = 2;
    assert_eq!((value.as_i32(), value.element_type()), (Some(2), ElementType::Int32));
    assert_eq!(value.as_i64_mut(), None);
}

/// Values, what `Debug` prints of them, and `Display`: as the crate bson does.
fn printed() -> Vec<(Bson, &'static str, &'static str)> {
    let id = ObjectId::parse_str("507f1f77bcf86cd799439011").unwrap();
    let code = JavaScriptCodeWithScope { code: "f()".into(), scope: doc! { "x": 1 } };
    vec![
        (Bson::Double(1.5), "Double(1.5)", "1.5"),
        (bson!("a\"b"), r#"String("a\"b")"#, r#""a"b""#),
        (bson!([1, "x"]), r#"Array([Int32(1), String("x")])"#, r#"[1, "x"]"#),
        (bson!({ "a": { "b": null } }), r#"Document({"a": Document({"b": Null})})"#, r#"{ "a": { "b": null } }"#),
        (bson!({}), "Document({})", "{}"),
        (bson!(true), "Boolean(true)", "true"),
        (Bson::Null, "Null", "null"),
        (Regex::new("^a", "xi").into(), r#"Regex { pattern: "^a", options: "ix" }"#, "/^a/ix"),
        (Bson::JavaScriptCode("f".into()), r#"JavaScriptCode("f")"#, "f"),
        (code.into(), r#"JavaScriptCodeWithScope { code: "f()", scope: Document({"x": Int32(1)}) }"#, "f()"),
        (bson!(2_i64), "Int64(2)", "2"),
        (Timestamp { time: 1, increment: 2 }.into(), "Timestamp { time: 1, increment: 2 }", "Timestamp(1, 2)"),
        (
            Binary { subtype: BinarySubtype::UserDefined(0x80), bytes: b"any".to_vec() }.into(),
            "Binary { subtype: UserDefined(128), bytes: [97, 110, 121] }",
            "Binary(0x80, YW55)",
        ),
        (id.into(), r#"ObjectId("507f1f77bcf86cd799439011")"#, r#"ObjectId("507f1f77bcf86cd799439011")"#),
        (
            DateTime::from_millis(1_665_996_412_607).into(),
            "DateTime(2022-10-17 8:46:52.607 +00:00:00)",
            r#"DateTime("2022-10-17 8:46:52.607 +00:00:00")"#,
        ),
        (Bson::Symbol("s".into()), r#"Symbol("s")"#, r#"Symbol("s")"#),
        ("1.5E+20".parse::<bsonraw::Decimal128>().unwrap().into(), "Decimal128(1.5E+20)", "1.5E+20"),
        (Bson::Undefined, "Undefined", "undefined"),
        (Bson::MinKey, "MinKey", "MinKey"),
        (Bson::MaxKey, "MaxKey", "MaxKey"),
    ]
}

#[test]
fn values_print_as_the_crate_prints_them() {
    for (value, debug, display) in printed() {
        assert_eq!((format!("{value:?}").as_str(), value.to_string().as_str()), (debug, display));
    }
    let pretty = "Document({\n    \"a\": Int32(\n        1,\n    ),\n})";
    assert_eq!(format!("{:#?}", doc! { "a": 1 }), pretty);
}

#[test]
fn documents_come_from_readers_and_go_to_writers() {
    let given = bytes("0C0000001069000100000000");
    let mut rest = &[&given[..], b"\x05\0\0\0\0x"].concat()[..];
    assert_eq!(Document::from_reader(&mut rest).unwrap(), doc! { "i": 1 });
    assert_eq!(Document::from_reader(&mut rest).unwrap(), doc! {});
    assert_eq!(rest, b"x");
    let mut written = Vec::new();
    doc! { "i": 1 }.to_writer(&mut written).unwrap();
    assert_eq!(written, given);
    assert_eq!(bsonraw::to_vec(&doc! { "i": 1 }).unwrap(), given);
    for (bytes, wanted) in [
        (&b""[..], "unexpected end of file"),
        (&given[..3], "malformed value: \"document too short\""),
        (&given[..11], "malformed value: \"document length incorrect\""),
        (&b"\x04\0\0\0\0"[..], "malformed value: \"document too short\""),
        (&b"\xff\xff\xff\xff\0"[..], "malformed value: \"document too short\""),
        (&b"\xff\xff\xff\x7f\0"[..], "a document of 2147483647 bytes has more than 16777216"),
        (
            &b"\x09\0\0\0\x08b\0\x02\0"[..],
            "error at key \"b\": malformed value: \"boolean must be stored as 0 or 1, got 2\"",
        ),
        (&b"\x05\0\0\0\x01"[..], "malformed value: \"document not null-terminated\""),
    ] {
        assert_eq!(Document::from_reader(bytes).unwrap_err().to_string(), wanted);
    }
    let error = doc! { "i": 1 }.to_writer(&mut [0; 3][..]).unwrap_err();
    assert!(matches!(error.kind, bsonraw::ser::ErrorKind::Io(_)));
}

#[test]
fn a_value_is_found_by_its_path() {
    let given = rawdoc! { "a": { "b": [10, { "c": "x" }], "d.e": 1 }, "": { "": 2 }, "1": 3 };
    let number = |path: &str| given.get_path(path).unwrap().and_then(|value| value.as_i32());
    assert_eq!((number("a.b.0"), number("1"), number("."), number("a.d.e")), (Some(10), Some(3), Some(2), None));
    assert_eq!(given.get_path("a.b.1.c").unwrap().unwrap().as_str(), Some("x"));
    assert_eq!(given.get_path("a.b").unwrap().unwrap().element_type(), ElementType::Array);
    for none in ["", "a.b.2", "a.b.-1", "a.b.00", "b", "1.x", "a.b.1.c.d"] {
        let is_there = none.is_empty();
        assert_eq!(given.get_path(none).unwrap().is_some(), is_there, "{none}");
    }
    assert_eq!(given.get_steps(["a", "d.e"]).unwrap().unwrap().as_i32(), Some(1));
    assert_eq!(given.get_steps(["", ""]).unwrap().unwrap().as_i32(), Some(2));
    assert_eq!(given.get_steps(["a\0b"]).unwrap(), None);
    assert_eq!(given.get_steps([""; 0]).unwrap().unwrap().as_document(), Some(&*given));
    // a fault is the error, where the path goes through it
    let damaged = document("19000000 03 6100 0d000000 08 6200 02 08 6300 01 00 10 6400 01 00");
    assert!(damaged.get_path("a.c").unwrap().unwrap().as_bool().unwrap());
    assert_eq!(damaged.get_path("a.b").unwrap_err().key(), Some("b"));
    assert!(damaged.get_path("d").is_err());
    let view: &RawDocument = &damaged;
    assert!(view.get_path("a.x").unwrap().is_none());
}
