//! Texts of ids, times and decimal numbers. Expected values are those of the formats' documents, and the crate bson's.

use std::collections::HashSet;
use std::time::{Duration, SystemTime};

use bsonraw::datetime::Error;
use bsonraw::oid::ObjectId;
use bsonraw::{DateTime, Decimal128};

#[test]
fn times_have_texts_of_rfc_3339() {
    for (millis, rfc, display) in [
        (0, "1970-01-01T00:00:00Z", "1970-01-01 0:00:00.0 +00:00:00"),
        (1_356_351_330_501, "2012-12-24T12:15:30.501Z", "2012-12-24 12:15:30.501 +00:00:00"),
        (1_665_996_412_600, "2022-10-17T08:46:52.6Z", "2022-10-17 8:46:52.6 +00:00:00"),
        (-1, "1969-12-31T23:59:59.999Z", "1969-12-31 23:59:59.999 +00:00:00"),
        (-62_167_219_200_000, "0000-01-01T00:00:00Z", "0000-01-01 0:00:00.0 +00:00:00"),
        (253_402_300_799_999, "9999-12-31T23:59:59.999Z", "9999-12-31 23:59:59.999 +00:00:00"),
    ] {
        let time = DateTime::from_millis(millis);
        assert_eq!(time.try_to_rfc3339_string().as_deref(), Ok(rfc));
        assert_eq!((time.to_string(), format!("{time:?}")), (display.into(), format!("DateTime({display})")));
        assert_eq!((DateTime::parse_rfc3339_str(rfc), rfc.parse()), (Ok(time), Ok(time)));
    }
    for millis in [-62_167_219_200_001, 253_402_300_800_000, i64::MIN, i64::MAX] {
        let time = DateTime::from_millis(millis);
        assert!(matches!(time.try_to_rfc3339_string(), Err(Error::CannotFormat { .. })));
        assert_eq!((time.to_string(), format!("{time:?}")), (millis.to_string(), format!("DateTime({millis})")));
    }
    let zoned = DateTime::parse_rfc3339_str("2012-12-24T13:15:30.501+01:00");
    assert_eq!(zoned, Ok(DateTime::from_millis(1_356_351_330_501)));
    for text in ["2012-12-24t12:15:30.501z", "2012-12-24T12:15:30.501999999Z", "2012-12-24T11:15:30.5019-01:00"] {
        assert_eq!(text.parse(), zoned);
    }
    for text in [
        "",
        "2012-12-24",
        "2012-12-24T12:15:30.Z",
        "2012-12-24T12:15:30.5é",
        "2012-13-24T12:15:30Z",
        "2012-12-24T12:15:30",
        "2012-12-24T12:15:30.501Zx",
    ] {
        let error = DateTime::parse_rfc3339_str(text).unwrap_err();
        assert!(matches!(&error, Error::InvalidTimestamp { .. }));
        assert_eq!(error.to_string(), format!("not a time of RFC 3339: {text:?}"));
    }
}

#[test]
fn times_are_made_of_their_parts() {
    let on = |year, month, day| DateTime::builder().year(year).month(month).day(day);
    for (made, millis) in [
        (on(1970, 1, 1).build(), 0),
        (on(2012, 12, 24).hour(12).minute(15).second(30).millisecond(501).build(), 1_356_351_330_501),
        (on(2024, 2, 29).hour(23).minute(59).second(59).millisecond(999).build(), 1_709_251_199_999),
        (DateTime::builder().hour(1).day(1).month(1).minute(2).year(0).build(), -62_167_215_480_000),
    ] {
        assert_eq!(made, Ok(DateTime::from_millis(millis)));
    }
    for (year, month, day) in
        [(2023, 2, 29), (2023, 13, 1), (2023, 0, 1), (2023, 1, 0), (2023, 1, 100), (-1, 1, 1), (10_000, 1, 1)]
    {
        assert!(on(year, month, day).build().is_err());
    }
    let today = on(2023, 1, 1);
    for wrong in [today.hour(24), today.minute(60), today.second(60), today.millisecond(1000)] {
        assert!(matches!(wrong.build(), Err(Error::InvalidTimestamp { .. })));
    }
}

#[test]
fn times_are_those_of_the_clock() {
    let before = SystemTime::now();
    let now = DateTime::now();
    let after = SystemTime::now();
    assert!(DateTime::from(before) <= now && now <= DateTime::from(after));
    let time = SystemTime::UNIX_EPOCH + Duration::from_millis(1_000);
    assert_eq!(DateTime::from(time), DateTime::from_millis(1_000));
    assert_eq!(SystemTime::from(DateTime::from_millis(1_000)), time);
    let time = SystemTime::UNIX_EPOCH - Duration::from_millis(1_500);
    assert_eq!(DateTime::from(time), DateTime::from_millis(-1_500));
    assert_eq!(DateTime::from_millis(-1_500).to_system_time(), time);
    let (first, second) = (DateTime::from_millis(-5), DateTime::from_millis(7));
    assert_eq!(second.checked_duration_since(first), Some(Duration::from_millis(12)));
    assert_eq!((first.checked_duration_since(second), first.saturating_duration_since(second)), (None, Duration::ZERO));
    assert_eq!(DateTime::MAX.checked_duration_since(DateTime::MIN), Some(Duration::from_millis(u64::MAX)));
}

/// The bytes of a Decimal128 of a coefficient and an exponent, as IEEE 754 has them.
fn decimal(coefficient: u64, exponent: i64) -> [u8; 16] {
    let high = ((6176 + exponent) as u64) << 49;
    [coefficient.to_le_bytes(), high.to_le_bytes()].concat().try_into().unwrap()
}

#[test]
fn decimals_have_texts() {
    for (text, bytes) in [
        ("0", decimal(0, 0)),
        ("0.1", decimal(1, -1)),
        ("1.50", decimal(150, -2)),
        ("1.05E+3", decimal(105, 1)),
        ("1.2345E-8", decimal(12345, -12)),
        ("1E+6111", decimal(1, 6111)),
        ("NaN", [0, 0, 0, 0, 0, 0, 0, 0, 0, 0, 0, 0, 0, 0, 0, 0x7c]),
        ("Infinity", [0, 0, 0, 0, 0, 0, 0, 0, 0, 0, 0, 0, 0, 0, 0, 0x78]),
        ("-Infinity", [0, 0, 0, 0, 0, 0, 0, 0, 0, 0, 0, 0, 0, 0, 0, 0xf8]),
    ] {
        let number = Decimal128::from_bytes(bytes);
        assert_eq!((number.to_string(), format!("{number:?}")), (text.to_string(), format!("Decimal128({text})")));
        assert_eq!(text.parse(), Ok(number));
    }
    assert_eq!(format!("{:>6}", "1.5".parse::<Decimal128>().unwrap()), "   1.5");
    for text in ["", "one", "1.5.0", "1E+7000", "12345678901234567890123456789012345.5", "1 "] {
        let error = text.parse::<Decimal128>().unwrap_err();
        assert_eq!(error.to_string(), "not the text of a Decimal128");
    }
}

#[test]
fn new_ids_are_new() {
    let before = DateTime::now().timestamp_millis() / 1000;
    let threads: Vec<_> =
        (0..4).map(|_| std::thread::spawn(|| (0..1000).map(|_| ObjectId::new()).collect::<Vec<_>>())).collect();
    let ids: Vec<ObjectId> = threads.into_iter().flat_map(|thread| thread.join().unwrap()).collect();
    let after = DateTime::now().timestamp_millis() / 1000;
    assert_eq!(ids.iter().collect::<HashSet<_>>().len(), 4000);
    for id in &ids {
        let seconds = id.timestamp().timestamp_millis() / 1000;
        assert!(before <= seconds && seconds <= after);
        assert_eq!(id.bytes()[4..9], ids[0].bytes()[4..9]);
    }
    // Each number is one more than the number before it, modulo 2 ^ 24.
    let mut numbers: Vec<u32> =
        ids.iter().map(|id| u32::from_be_bytes([0, id.bytes()[9], id.bytes()[10], id.bytes()[11]])).collect();
    numbers.sort_unstable();
    assert!(numbers.windows(2).filter(|two| two[1] != two[0] + 1).count() <= 1);
}
