//! What values and errors print, and the kinds that programs match: all of it written by hand after the crate bson, for tests that keep
//! a text of it.

use bsonraw::oid::ObjectId;
use bsonraw::raw::{Error, ErrorKind, RawArrayBuf, RawBinaryRef, RawBson, RawBsonRef, RawDocument, RawDocumentBuf};
use bsonraw::raw::{RawJavaScriptCodeWithScope, RawJavaScriptCodeWithScopeRef, RawRegexRef, ValueAccessErrorKind};
use bsonraw::spec::{BinarySubtype, ElementType};
use bsonraw::{rawdoc, Timestamp};

/// The document of these elements.
fn document(elements: &[u8]) -> RawDocumentBuf {
    RawDocumentBuf::from_bytes(crate::maker::framed(elements)).unwrap()
}

/// A pointer, which has no public parts to be made of.
fn pointer() -> RawDocumentBuf {
    document(b"\x0cp\0\x02\0\0\0n\0\x50\x7f\x1f\x77\xbc\xf8\x6c\xd7\x99\x43\x90\x11")
}

#[test]
fn views_and_buffers_print_their_bytes_in_hex() {
    let made = rawdoc! { "a": [true] };
    let view: &RawDocument = &made;
    let bytes = "1100000004610009000000083000010000";
    assert_eq!(format!("{view:?}"), format!("RawDocument {{ data: \"{bytes}\" }}"));
    assert_eq!(format!("{made:?}"), format!("RawDocumentBuf {{ data: \"{bytes}\" }}"));
    assert_eq!(format!("{made:#?}"), format!("RawDocumentBuf {{\n    data: \"{bytes}\",\n}}"));
    let list = made.get_array("a").unwrap();
    assert_eq!(format!("{list:?}"), r#"RawArray { data: "090000000830000100" }"#);
    assert_eq!(format!("{list:#?}"), "RawArray {\n    data: \"090000000830000100\",\n}");
    let list: RawArrayBuf = list.to_owned();
    assert_eq!(format!("{list:?}"), r#"RawArrayBuf { data: "090000000830000100", len: 1 }"#);
    assert_eq!(format!("{list:#?}"), "RawArrayBuf {\n    data: \"090000000830000100\",\n    len: 1,\n}");
}

#[test]
fn borrowed_values_print_their_kind_and_parts() {
    let empty = rawdoc! {};
    let list = RawArrayBuf::new();
    let held = pointer();
    let code = RawJavaScriptCodeWithScopeRef { code: "f", scope: &empty };
    for (value, wanted) in [
        (RawBsonRef::Double(1.0), "Double(1.0)"),
        (RawBsonRef::Double(f64::NAN), "Double(NaN)"),
        (RawBsonRef::String("y'\"\n\0é"), r#"String("y'\"\n\0é")"#),
        (RawBsonRef::Array(&list), r#"Array(RawArray { data: "0500000000" })"#),
        (RawBsonRef::Document(&empty), r#"Document(RawDocument { data: "0500000000" })"#),
        (RawBsonRef::Boolean(true), "Boolean(true)"),
        (RawBsonRef::Null, "Null"),
        (
            RawBsonRef::RegularExpression(RawRegexRef { pattern: "a\\s", options: "i" }),
            r#"RegularExpression(RawRegexRef { pattern: "a\\s", options: "i" })"#,
        ),
        (RawBsonRef::JavaScriptCode("f()"), r#"JavaScriptCode("f()")"#),
        (
            RawBsonRef::JavaScriptCodeWithScope(code),
            r#"JavaScriptCodeWithScope(RawJavaScriptCodeWithScopeRef { code: "f", scope: RawDocument { data: "0500000000" } })"#,
        ),
        (RawBsonRef::Int32(-1), "Int32(-1)"),
        (RawBsonRef::Int64(1), "Int64(1)"),
        (RawBsonRef::Timestamp(Timestamp { time: 1, increment: 2 }), "Timestamp(Timestamp { time: 1, increment: 2 })"),
        (
            RawBsonRef::Binary(RawBinaryRef { subtype: BinarySubtype::Generic, bytes: &[1, 255] }),
            "Binary(RawBinaryRef { subtype: Generic, bytes: [1, 255] })",
        ),
        (RawBsonRef::Symbol("s"), r#"Symbol("s")"#),
        (RawBsonRef::Undefined, "Undefined"),
        (RawBsonRef::MaxKey, "MaxKey"),
        (RawBsonRef::MinKey, "MinKey"),
        (
            held.get("p").unwrap().unwrap(),
            r#"DbPointer(RawDbPointerRef { namespace: "n", id: ObjectId("507f1f77bcf86cd799439011") })"#,
        ),
    ] {
        assert_eq!(format!("{value:?}"), wanted);
    }
}

#[test]
fn owned_values_print_their_kind_and_parts() {
    let code = RawJavaScriptCodeWithScope { code: "f".into(), scope: rawdoc! {} };
    for (value, wanted) in [
        (RawBson::from("s"), r#"String("s")"#),
        (RawBson::from(RawArrayBuf::new()), r#"Array(RawArrayBuf { data: "0500000000", len: 0 })"#),
        (RawBson::from(rawdoc! {}), r#"Document(RawDocumentBuf { data: "0500000000" })"#),
        (
            RawBson::from(code),
            concat!(
                r#"JavaScriptCodeWithScope(RawJavaScriptCodeWithScope { code: "f", "#,
                r#"scope: RawDocumentBuf { data: "0500000000" } })"#
            ),
        ),
        (RawBson::Null, "Null"),
    ] {
        assert_eq!(format!("{value:?}"), wanted);
    }
}

#[test]
fn ids_print_as_a_name_with_digits() {
    let id: ObjectId = "507f1f77bcf86cd799439011".parse().unwrap();
    assert_eq!(format!("{id:?}"), r#"ObjectId("507f1f77bcf86cd799439011")"#);
    assert_eq!(format!("{:#?}", Some(id)), "Some(\n    ObjectId(\n        \"507f1f77bcf86cd799439011\",\n    ),\n)");
    // the digits are a text, so that they are laid out and cut as one
    assert_eq!(format!("{id}|{id:>26}|{id:<26}|{id:.8}"), {
        let digits = "507f1f77bcf86cd799439011";
        format!("{digits}|  {digits}|{digits}  |507f1f77")
    });
}

#[test]
fn errors_print_their_kind_and_key() {
    let error = document(b"\x08a\0\x02").get("a").unwrap_err();
    let why = "boolean must be stored as 0 or 1, got 2";
    let inner = format!(r#"Error {{ kind: MalformedValue {{ message: "{why}" }}, key: Some("a") }}"#);
    assert_eq!(format!("{error:?}"), inner);
    assert_eq!(
        format!("{error:#?}"),
        format!(
            "Error {{\n    kind: MalformedValue {{\n        message: \"{why}\",\n    }},\n    key: Some(\n        \"a\",\n    ),\n}}"
        )
    );
    assert_eq!(error.to_string(), format!(r#"error at key "a": malformed value: "{why}""#));

    let error = document(b"\x02a\0\x03\0\0\0b\xff\0").get("a").unwrap_err();
    let wanted = "Error { kind: Utf8EncodingError(Utf8Error { valid_up_to: 1, error_len: Some(1) }), key: None }";
    assert_eq!(format!("{error:?}"), wanted);
    assert_eq!(error.to_string(), "utf-8 encoding error: invalid utf-8 sequence of 1 bytes from index 1");

    // a key is printed as it is, and a message as Rust writes a text
    let error = document(b"\x08\"\n\0\x02").get("\"\n").unwrap_err();
    assert_eq!(error.to_string(), format!("error at key \"\"\n\": malformed value: \"{why}\""));

    let error = document(b"\x08a\0\x02").get_bool("a").unwrap_err();
    assert_eq!(format!("{error:?}"), format!(r#"ValueAccessError {{ kind: InvalidBson({inner}), key: "a" }}"#));
    assert_eq!(error.to_string(), format!(r#"error at key: "a": : error at key "a": malformed value: "{why}""#));
    let error = rawdoc! { "a": 1 }.get_bool("a").unwrap_err();
    let wanted = r#"ValueAccessError { kind: UnexpectedType { expected: Boolean, actual: Int32 }, key: "a" }"#;
    assert_eq!(format!("{error:?}"), wanted);
    assert_eq!(error.to_string(), r#"error at key: "a":  unexpected element type: Int32, expected: Boolean"#);
    let error = rawdoc! { "a": [] }.get_array("a").unwrap().get_i32(7).unwrap_err();
    assert_eq!(format!("{error:?}"), r#"ValueAccessError { kind: NotPresent, key: "7" }"#);
    assert_eq!(error.to_string(), r#"error at key: "7": value not present"#);
}

/// How a program of another crate matches an error.
fn told(error: &Error) -> &'static str {
    match &error.kind {
        ErrorKind::MalformedValue { message, .. } if message.contains("tag") => "tag",
        ErrorKind::MalformedValue { .. } => "malformed",
        ErrorKind::Utf8EncodingError(_) => "text",
        _ => "another",
    }
}

#[test]
fn errors_are_matched_by_their_kinds() {
    assert_eq!(told(&document(b"\x20a\0").get("a").unwrap_err()), "tag");
    assert_eq!(told(&document(b"\x08a\0\x02").get("a").unwrap_err()), "malformed");
    assert_eq!(told(&document(b"\x0a\xff\0").get("a").unwrap_err()), "text");
    let made = rawdoc! { "a": 1 };
    let error = made.get_str("a").unwrap_err();
    let ValueAccessErrorKind::UnexpectedType { expected, actual, .. } = error.kind else { panic!("{error}") };
    assert_eq!((expected, actual), (ElementType::String, ElementType::Int32));
    assert!(matches!(made.get_str("b").unwrap_err().kind, ValueAccessErrorKind::NotPresent));
    let damaged = document(b"\x08a\0\x02");
    let kind = damaged.get_str("a").unwrap_err().kind;
    assert!(matches!(&kind, ValueAccessErrorKind::InvalidBson(error) if told(error) == "malformed"));
    let boxed: Box<dyn std::error::Error + Send + Sync> = Box::new(damaged.get("a").unwrap_err());
    assert!(boxed.downcast_ref::<Error>().is_some() && boxed.source().is_none());
}
