//! Makes a trail of what was done, as a service would keep it, and audits it: each entry names the one before it, and says how many bytes
//! that has. Written for the crate `bson`: only its lines `use` name another one.

use bsonraw::oid::ObjectId;
use bsonraw::raw::{RawArrayBuf, RawDocument, RawDocumentBuf, ValueAccessErrorKind};
use bsonraw::spec::BinarySubtype;
use bsonraw::{doc, rawdoc, Binary, Bson, DateTime, Document};

/// An entry after another one.
fn entry(
    number: u8,
    before: Option<&RawDocument>,
    what: &[&str],
) -> Result<RawDocumentBuf, Box<dyn std::error::Error>> {
    let mut made = RawDocumentBuf::new();
    made.append("_id", ObjectId::from_bytes([number; 12]));
    made.append("at", DateTime::from_millis(1_356_351_330_501 + i64::from(number)));
    let mut done = RawArrayBuf::new();
    for word in what {
        done.push(*word);
    }
    made.append("done", done);
    if let Some(before) = before {
        made.append("before", rawdoc! { "id": before.get_object_id("_id")?, "len": before.as_bytes().len() as i32 });
        made.append("sum", Binary { subtype: BinarySubtype::Md5, bytes: sum(before).to_vec() });
    }
    Ok(made)
}

/// A sum of the bytes of an entry, eight bytes long.
fn sum(entry: &RawDocument) -> [u8; 8] {
    let step = |sum: u64, byte: &u8| (sum ^ u64::from(*byte)).wrapping_mul(0x100_0000_01b3);
    entry.as_bytes().iter().fold(0xcbf2_9ce4_8422_2325, step).to_be_bytes()
}

/// What is wrong with an entry, given the one before it.
fn audited(entry: &RawDocument, before: Option<&RawDocument>) -> Result<(), String> {
    let stated = match entry.get_document("before") {
        Ok(stated) => stated,
        Err(error) if matches!(error.kind, ValueAccessErrorKind::NotPresent) && before.is_none() => return Ok(()),
        Err(error) => return Err(error.to_string()),
    };
    let before = before.ok_or("the entry before it is missing")?;
    if stated.get_object_id("id").ok() != before.get_object_id("_id").ok() {
        return Err("another entry is before it".to_string());
    }
    if stated.get_i32("len").map_err(|error| error.to_string())? as usize != before.as_bytes().len() {
        return Err("the entry before it has another length".to_string());
    }
    if entry.get_binary("sum").map_err(|error| error.to_string())?.bytes != sum(before) {
        return Err("the entry before it was changed".to_string());
    }
    Ok(())
}

fn main() -> Result<(), Box<dyn std::error::Error>> {
    let first = entry(1, None, &["opened"])?;
    let second = entry(2, Some(&first), &["read", "wrote"])?;
    let third = entry(3, Some(&second), &[])?;
    let mut trail = vec![first, second, third];
    for (number, entry) in trail.iter().enumerate() {
        println!("{number}: {:?}", audited(entry, number.checked_sub(1).map(|before| &*trail[before])));
    }

    // Someone changes a word of the second entry.
    let mut changed: Document = trail[1].to_document()?;
    changed.get_array_mut("done")?[1] = Bson::from("erred");
    trail[1] = RawDocumentBuf::from_document(&changed)?;
    println!("2: {:?}", audited(&trail[2], Some(&trail[1])));
    trail.remove(1);
    println!("1: {:?}", audited(&trail[1], Some(&trail[0])));

    let summary = doc! { "entries": trail.len() as i32, "last": trail[1].to_document()?.get("at").cloned() };
    println!("{summary}");
    Ok(())
}
