//! UUIDs and their binary values.

use std::collections::HashSet;

use bsonraw::spec::BinarySubtype;
use bsonraw::uuid::{Error, Uuid, UuidRepresentation};
use bsonraw::{bson, doc, rawdoc, Binary, Bson};

const TEXT: &str = "00112233-4455-6677-8899-aabbccddeeff";

#[test]
fn texts() {
    let id = Uuid::parse_str(TEXT).unwrap();
    assert_eq!(u128::from_be_bytes(id.bytes()), 0x0011_2233_4455_6677_8899_aabb_ccdd_eeff);
    assert_eq!((id.to_string(), format!("{id:?}")), (TEXT.into(), TEXT.into()));
    let plain = TEXT.replace('-', "");
    for text in [plain.clone(), TEXT.to_uppercase(), format!("{{{TEXT}}}"), format!("urn:uuid:{TEXT}")] {
        assert_eq!(text.parse(), Ok(id), "{text}");
    }
    for text in [
        String::new(),
        plain[1..].into(),
        format!("{plain}0"),
        format!("{{{plain}}}"),
        format!("urn:uuid:{plain}"),
        format!("{{{TEXT}"),
        TEXT.replacen('a', "g", 1),
        TEXT.replacen("aa", "é", 1),
        format!("0{}", &TEXT[1..].replacen('-', "0", 1)),
        format!("{}-{}", &plain[..16], &plain[16..]),
    ] {
        assert!(matches!(Uuid::parse_str(&text), Err(Error::InvalidUuidString { .. })), "{text}");
    }
}

/// The bytes are those that MongoDB's specification of UUIDs has for this one.
#[test]
fn binary_values() {
    let id: Uuid = TEXT.parse().unwrap();
    for (representation, subtype, bytes) in [
        (UuidRepresentation::Standard, BinarySubtype::Uuid, 0x0011_2233_4455_6677_8899_aabb_ccdd_eeff_u128),
        (UuidRepresentation::CSharpLegacy, BinarySubtype::UuidOld, 0x3322_1100_5544_7766_8899_aabb_ccdd_eeff),
        (UuidRepresentation::JavaLegacy, BinarySubtype::UuidOld, 0x7766_5544_3322_1100_ffee_ddcc_bbaa_9988),
        (UuidRepresentation::PythonLegacy, BinarySubtype::UuidOld, 0x0011_2233_4455_6677_8899_aabb_ccdd_eeff),
    ] {
        let binary = Binary { subtype, bytes: bytes.to_be_bytes().to_vec() };
        assert_eq!(Binary::from_uuid_with_representation(id, representation), binary);
        assert_eq!(binary.to_uuid_with_representation(representation), Ok(id));
    }
    let standard = Binary::from_uuid(id);
    assert_eq!((bson!(id), Bson::from(id)), (Bson::Binary(standard.clone()), Bson::Binary(standard.clone())));
    assert_eq!(rawdoc! { "a": id }, rawdoc! { "a": standard.clone() });
    assert_eq!(doc! { "a": id }, doc! { "a": standard.clone() });
    let error = standard.to_uuid_with_representation(UuidRepresentation::JavaLegacy).unwrap_err();
    assert!(matches!(
        error,
        Error::RepresentationMismatch {
            expected_binary_subtype: BinarySubtype::UuidOld,
            actual_binary_subtype: BinarySubtype::Uuid,
            requested_representation: UuidRepresentation::JavaLegacy,
            ..
        }
    ));
    let error = Binary { subtype: BinarySubtype::Uuid, bytes: vec![1; 15] }.to_uuid().unwrap_err();
    assert!(matches!(error, Error::InvalidLength { length: 15, .. }));
}

#[test]
fn new_ones_differ() {
    let made: HashSet<Uuid> = (0..10_000).map(|_| Uuid::new()).collect();
    assert_eq!(made.len(), 10_000);
    let all = made.iter().fold((u128::MAX, 0), |(and, or), id| {
        let bits = u128::from_be_bytes(id.bytes());
        (and & bits, or | bits)
    });
    // The bits of the version and of the variant are the same in all, and no others are.
    assert_eq!(all, (0x4000_8000_0000_0000_0000, !0 ^ 0xb000_4000_0000_0000_0000));
}
