//! What the functions of `serde_helpers` write and read.

use bsonraw::oid::ObjectId;
use bsonraw::{from_slice, rawdoc, serde_helpers, to_raw_document_buf, DateTime, RawDocumentBuf, Timestamp};
use serde::{Deserialize, Serialize};

#[derive(Debug, Deserialize, PartialEq, Serialize)]
struct All {
    #[serde(with = "serde_helpers::u32_as_f64")]
    small: u32,
    #[serde(with = "serde_helpers::u64_as_f64")]
    large: u64,
    #[serde(with = "serde_helpers::rfc3339_string_as_bson_datetime")]
    text: String,
    #[serde(with = "serde_helpers::bson_datetime_as_rfc3339_string")]
    time: DateTime,
    #[serde(with = "serde_helpers::hex_string_as_object_id")]
    hex: String,
    #[serde(with = "serde_helpers::i64_as_bson_datetime")]
    millis: i64,
    #[serde(with = "serde_helpers::u32_as_timestamp")]
    seconds: u32,
    #[serde(with = "serde_helpers::timestamp_as_u32")]
    stamp: Timestamp,
}

fn all() -> All {
    All {
        small: u32::MAX,
        large: 1 << 60,
        text: "2012-12-24T12:15:30.501Z".into(),
        time: DateTime::from_millis(1_356_351_330_501),
        hex: "507f1f77bcf86cd799439011".into(),
        millis: -5,
        seconds: 9,
        stamp: Timestamp { time: 7, increment: 0 },
    }
}

/// What `all` is as BSON.
fn written() -> RawDocumentBuf {
    rawdoc! {
        "small": 4_294_967_295.0,
        "large": 1_152_921_504_606_846_976.0,
        "text": DateTime::from_millis(1_356_351_330_501),
        "time": "2012-12-24T12:15:30.501Z",
        "hex": ObjectId::from_bytes([0x50, 0x7f, 0x1f, 0x77, 0xbc, 0xf8, 0x6c, 0xd7, 0x99, 0x43, 0x90, 0x11]),
        "millis": DateTime::from_millis(-5),
        "seconds": Timestamp { time: 9, increment: 0 },
        "stamp": 7_i64,
    }
}

#[test]
fn values_go_there_and_back() {
    assert_eq!(to_raw_document_buf(&all()).unwrap(), written());
    assert_eq!(from_slice::<All>(written().as_bytes()).unwrap(), all());
}

#[test]
fn what_does_not_fit_is_an_error_with_its_key() {
    let wrong = [
        (All { large: (1 << 53) + 1, ..all() }, "large"),
        (All { large: u64::MAX, ..all() }, "large"),
        (All { text: "yesterday".into(), ..all() }, "text"),
        (All { time: DateTime::MAX, ..all() }, "time"),
        (All { hex: "507f".into(), ..all() }, "hex"),
        (All { stamp: Timestamp { time: 7, increment: 1 }, ..all() }, "stamp"),
    ];
    for (value, key) in wrong {
        assert_eq!(to_raw_document_buf(&value).unwrap_err().path(), [key]);
    }
    for (key, value) in [
        ("small", (-1.0).into()),
        ("small", 0.5.into()),
        ("small", 4_294_967_296.0.into()),
        ("large", 18_446_744_073_709_551_616.0.into()),
        ("large", f64::NAN.into()),
        ("text", DateTime::MAX.into()),
        ("time", "2012".into()),
        ("hex", 5.into()),
        ("seconds", "x".into()),
        ("stamp", (-1).into()),
    ] as [(&str, bsonraw::Bson); 10]
    {
        let mut document = written().to_document().unwrap();
        document.insert(key, value);
        let bytes = bsonraw::to_vec(&document).unwrap();
        assert_eq!(from_slice::<All>(&bytes).unwrap_err().path(), [key], "{document}");
    }
}

#[derive(Serialize)]
struct Written {
    #[serde(serialize_with = "serde_helpers::serialize_u32_as_i32")]
    a: u32,
    #[serde(serialize_with = "serde_helpers::serialize_u32_as_i64")]
    b: u32,
    #[serde(serialize_with = "serde_helpers::serialize_u64_as_i32")]
    c: u64,
    #[serde(serialize_with = "serde_helpers::serialize_u64_as_i64")]
    d: u64,
    #[serde(serialize_with = "serde_helpers::serialize_object_id_as_hex_string")]
    e: ObjectId,
    #[serde(serialize_with = "serde_helpers::serialize_hex_string_as_object_id")]
    f: String,
}

#[test]
fn values_are_written_in_other_types() {
    let written = |a, c, d| {
        let id = ObjectId::from_bytes([1; 12]);
        to_raw_document_buf(&Written { a, b: 2, c, d, e: id, f: id.to_hex() })
    };
    let wanted = rawdoc! { "a": 1, "b": 2_i64, "c": 3, "d": 4_i64, "e": "010101010101010101010101", "f": ObjectId::from_bytes([1; 12]) };
    assert_eq!(written(1, 3, 4).unwrap(), wanted);
    assert_eq!(written(1 << 31, 3, 4).unwrap_err().path(), ["a"]);
    assert_eq!(written(1, 1 << 31, 4).unwrap_err().path(), ["c"]);
    assert_eq!(written(1, 3, 1 << 63).unwrap_err().path(), ["d"]);
}
