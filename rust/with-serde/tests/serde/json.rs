//! The types of the crate in JSON: as Extended JSON has them.

use bsonraw::oid::ObjectId;
use bsonraw::spec::BinarySubtype;
use bsonraw::{bson, doc, from_slice, rawdoc, to_raw_document_buf, Binary, Bson, DateTime, Document, RawBson};
use bsonraw::{JavaScriptCodeWithScope, RawDocumentBuf, Regex, Timestamp, Uuid};
use serde_json::{from_str, json, to_string, to_value, Value};

use crate::maker;

/// Values, and what they are in JSON: written by hand after the page of MongoDB on Extended JSON.
fn rows() -> Vec<(Bson, Value)> {
    let code = JavaScriptCodeWithScope { code: "f".into(), scope: doc! { "x": 1 } };
    vec![
        (bson!(1.5), json!(1.5)),
        (bson!("é"), json!("é")),
        (bson!({ "a": [null] }), json!({ "a": [null] })),
        (bson!(true), json!(true)),
        (bson!(7), json!(7)),
        (Bson::Int64(1 << 40), json!(1_i64 << 40)),
        (ObjectId::from_bytes([0x50; 12]).into(), json!({ "$oid": "505050505050505050505050" })),
        (DateTime::from_millis(-2).into(), json!({ "$date": { "$numberLong": "-2" } })),
        ("1.50".parse::<bsonraw::Decimal128>().unwrap().into(), json!({ "$numberDecimal": "1.50" })),
        (
            Binary { subtype: BinarySubtype::UserDefined(0x80), bytes: b"any+".to_vec() }.into(),
            json!({ "$binary": { "base64": "YW55Kw==", "subType": "80" } }),
        ),
        (
            Binary { subtype: BinarySubtype::Generic, bytes: vec![0xfb, 0xff] }.into(),
            json!({ "$binary": { "base64": "+/8=", "subType": "00" } }),
        ),
        (Regex::new("^a", "xi").into(), json!({ "$regularExpression": { "pattern": "^a", "options": "ix" } })),
        (
            Timestamp { time: 1, increment: 4_294_967_295 }.into(),
            json!({ "$timestamp": { "t": 1, "i": 4_294_967_295_i64 } }),
        ),
        (Bson::JavaScriptCode("f".into()), json!({ "$code": "f" })),
        (code.into(), json!({ "$code": "f", "$scope": { "x": 1 } })),
        (Bson::Symbol("s".into()), json!({ "$symbol": "s" })),
        (Bson::Undefined, json!({ "$undefined": true })),
        (Bson::MinKey, json!({ "$minKey": 1 })),
        (Bson::MaxKey, json!({ "$maxKey": 1 })),
    ]
}

#[test]
fn values_are_written_and_read_as_extended_json() {
    for (value, wanted) in rows() {
        assert_eq!(to_value(&value).unwrap(), wanted);
        assert_eq!(to_value(RawBson::try_from(value.clone()).unwrap()).unwrap(), wanted);
        assert_eq!(from_str::<Bson>(&wanted.to_string()).unwrap(), value);
        let document = doc! { "k": value.clone() };
        assert_eq!(to_value(&document).unwrap(), json!({ "k": wanted }));
        let raw = RawDocumentBuf::from_document(&document).unwrap();
        assert_eq!(to_value(&raw).unwrap(), json!({ "k": wanted }));
        assert_eq!(from_str::<Document>(&to_string(&document).unwrap()).unwrap(), document);
        assert_eq!(from_str::<RawDocumentBuf>(&to_string(&document).unwrap()).unwrap(), raw);
        // from BSON to JSON's values without a type of this crate; JSON has no bytes
        let read = from_slice::<Value>(raw.as_bytes());
        match &value {
            Bson::Binary(binary) if binary.subtype == BinarySubtype::Generic => {
                assert_eq!(read.unwrap_err().path(), ["k"])
            }
            _ => assert_eq!(read.unwrap(), json!({ "k": wanted })),
        }
        // and what the library reads of the text is the same
        assert_eq!(RawDocumentBuf::from_json(&to_string(&document).unwrap()).unwrap(), raw);
    }
}

#[test]
fn uuids_are_read_from_each_of_their_forms() {
    let id = Uuid::from_bytes(*b"0123456789abcdef");
    let binary = json!({ "$binary": { "base64": "MDEyMzQ1Njc4OWFiY2RlZg==", "subType": "04" } });
    let text = json!("30313233-3435-3637-3839-616263646566");
    assert_eq!(to_value(id).unwrap(), text);
    assert_eq!(to_value(Bson::from(id)).unwrap(), binary);
    for form in [binary, text.clone(), json!({ "$uuid": text })] {
        assert_eq!(from_str::<Uuid>(&form.to_string()).unwrap(), id);
    }
    assert_eq!(from_str::<Bson>(&json!({ "$uuid": text }).to_string()).unwrap(), Bson::from(id));
    let old = json!({ "$binary": { "base64": "MDEyMzQ1Njc4OWFiY2RlZg==", "subType": "03" } });
    for wrong in [old, json!("3031"), json!(5), json!({ "$uuid": "3031" })] {
        assert!(from_str::<Uuid>(&wrong.to_string()).is_err(), "{wrong}");
    }
}

#[test]
fn relaxed_texts_are_read_too() {
    for (text, wanted) in [
        (r#"{"$date": "1970-01-01T00:00:00.005Z"}"#, DateTime::from_millis(5).into()),
        (r#"{"$numberInt": "7"}"#, bson!(7)),
        (r#"{"$numberLong": "7"}"#, Bson::Int64(7)),
        (r#"{"$numberDouble": "-Infinity"}"#, Bson::Double(f64::NEG_INFINITY)),
        (r#"{"$numberDouble": "1.5"}"#, Bson::Double(1.5)),
        (r#"{"$scope": {}, "$code": "f"}"#, JavaScriptCodeWithScope { code: "f".into(), scope: doc! {} }.into()),
        (r#"{"$oid": "5050"}"#, bson!({ "$oid": "5050" })),
        (r#"{"$oid": "505050505050505050505050", "a": 1}"#, bson!({ "$oid": "505050505050505050505050", "a": 1 })),
        (
            r#"{"$binary": {"base64": "YQ=", "subType": "00"}}"#,
            bson!({ "$binary": { "base64": "YQ=", "subType": "00" } }),
        ),
        ("{}", bson!({})),
        ("-1", Bson::Int64(-1)),
        ("4294967296", Bson::Int64(4_294_967_296)),
    ] {
        assert_eq!(from_str::<Bson>(text).unwrap(), wanted, "{text}");
    }
    assert_eq!(from_str::<ObjectId>("\"505050505050505050505050\"").unwrap(), ObjectId::from_bytes([0x50; 12]));
    assert!(from_str::<ObjectId>("\"5050\"").is_err() && from_str::<ObjectId>("7").is_err());
    assert!(from_str::<Bson>("18446744073709551615").is_err());
    assert!(from_str::<Document>(r#"{"a\u0000": 1}"#).is_err());
}

#[test]
fn values_of_json_become_documents() {
    let given = json!({ "a": [1, -1, 1.5, null, true, "x"], "b": { "c": {} } });
    let made = to_raw_document_buf(&given).unwrap();
    assert_eq!(made, rawdoc! { "a": [1_i64, -1_i64, 1.5, null, true, "x"], "b": { "c": {} } });
    assert_eq!(from_slice::<Value>(made.as_bytes()).unwrap(), given);
}

/// Puts null in the place of each double: JSON has no NaN, and this reader of it isn't exact.
fn without_doubles(value: &mut Bson) {
    match value {
        Bson::Double(_) => *value = Bson::Null,
        Bson::Array(values) => values.iter_mut().for_each(without_doubles),
        Bson::Document(document) => document.iter_mut().for_each(|(_, value)| without_doubles(value)),
        Bson::JavaScriptCodeWithScope(code) => code.scope.iter_mut().for_each(|(_, value)| without_doubles(value)),
        _ => {}
    }
}

#[test]
fn made_documents_come_back_from_json() {
    let mut count = 0;
    for data in maker::all(0xfeed, 2000) {
        let Ok(Ok(document)) = RawDocumentBuf::from_bytes(data).map(|raw| raw.to_document()) else { continue };
        let mut value = Bson::Document(document);
        without_doubles(&mut value);
        let text = to_string(&value).unwrap();
        let read = from_str::<Bson>(&text).unwrap();
        assert_eq!(to_string(&read).unwrap(), text);
        count += 1;
    }
    assert!(count > 500, "{count}");
}

#[cfg(feature = "serde_json")]
#[test]
fn values_of_json_are_extended_json() {
    for (value, relaxed, canonical) in [
        (bson!(1.5), json!(1.5), json!({ "$numberDouble": "1.5" })),
        (bson!(-2.0), json!(-2.0), json!({ "$numberDouble": "-2.0" })),
        (bson!(f64::NEG_INFINITY), json!({ "$numberDouble": "-Infinity" }), json!({ "$numberDouble": "-Infinity" })),
        (bson!(7), json!(7), json!({ "$numberInt": "7" })),
        (bson!(1_i64 << 40), json!(1_i64 << 40), json!({ "$numberLong": "1099511627776" })),
        (
            DateTime::from_millis(5).into(),
            json!({ "$date": "1970-01-01T00:00:00.005Z" }),
            json!({ "$date": { "$numberLong": "5" } }),
        ),
        (
            DateTime::from_millis(-5).into(),
            json!({ "$date": { "$numberLong": "-5" } }),
            json!({ "$date": { "$numberLong": "-5" } }),
        ),
        (bson!([{ "a": 7 }]), json!([{ "a": 7 }]), json!([{ "a": { "$numberInt": "7" } }])),
        (
            JavaScriptCodeWithScope { code: "f".into(), scope: doc! { "x": 1 } }.into(),
            json!({ "$code": "f", "$scope": { "x": 1 } }),
            json!({ "$code": "f", "$scope": { "x": { "$numberInt": "1" } } }),
        ),
        (Bson::MinKey, json!({ "$minKey": 1 }), json!({ "$minKey": 1 })),
    ] {
        assert_eq!(value.clone().into_relaxed_extjson(), relaxed);
        assert_eq!(Value::from(value.clone()), relaxed);
        assert_eq!(value.clone().into_canonical_extjson(), canonical);
        assert_eq!(Bson::try_from(canonical.clone()).unwrap(), value);
        assert_eq!(Bson::try_from(relaxed).unwrap(), value);
        // as the library writes it
        let text = rawdoc! { "k": RawBson::try_from(value).unwrap() }.to_json_with(
            bsonraw::whole::Limits::default(),
            bsonraw::whole::JsonStyle { canonical: true, indented: false },
        );
        assert_eq!(from_str::<Value>(&text.unwrap()).unwrap(), json!({ "k": canonical }));
    }
    let Value::Object(members) = json!({ "a": { "$numberInt": "7" } }) else { unreachable!() };
    assert_eq!(Document::try_from(members).unwrap(), doc! { "a": 7 });
    assert!(Bson::try_from(json!(u64::MAX)).is_err());
}
