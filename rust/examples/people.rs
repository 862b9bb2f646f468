//! Prints what is in the documents of standard input, one after the other, and what it makes of them. Written for the module
//! `raw` of the crate `bson`, of which it needs nothing else: only its line `use` names another crate.

use bsonraw::raw::{self, ErrorKind, RawArrayBuf, RawBsonRef, RawDocument, RawDocumentBuf, ValueAccessErrorKind};
use std::io::Read;

/// The kind of an error and its key.
fn told(kind: &ErrorKind, key: Option<&str>) -> String {
    match kind {
        ErrorKind::MalformedValue { .. } => format!("malformed at {key:?}"),
        ErrorKind::Utf8EncodingError(error) => format!("not UTF-8 at {key:?}: {error}"),
        _ => "another error".to_string(),
    }
}

/// Prints the elements of a document, and those inside; gives how many there are.
fn print(document: &RawDocument, indent: usize) -> usize {
    let mut count = 0;
    for item in document {
        match item {
            Ok((key, RawBsonRef::Document(inside))) => {
                println!("{:indent$}{key}:", "");
                count += print(inside, indent + 2);
            }
            Ok((key, RawBsonRef::Array(inside))) => {
                let kind = |item: raw::Result<RawBsonRef<'_>>| match item {
                    Ok(value) => format!("{:?}", value.element_type()),
                    Err(error) => told(&error.kind, error.key()),
                };
                let kinds: Vec<_> = inside.into_iter().map(kind).collect();
                println!("{:indent$}{key}: {} of {kinds:?}", "", kinds.len());
            }
            Ok((key, RawBsonRef::DbPointer(_))) => println!("{:indent$}{key}: a pointer", ""),
            Ok((key, RawBsonRef::Double(number))) => println!("{:indent$}{key}: {:x}", "", number.to_bits()),
            Ok((key, value)) => println!("{:indent$}{key}: {:?} {:?}", "", value.element_type(), value.as_str()),
            Err(error) => println!("{:indent$}{}", "", told(&error.kind, error.key())),
        }
        count += 1;
    }
    count
}

/// What a typed look-up of a key gives.
fn look_up(document: &RawDocument, key: &str) -> String {
    match document.get_document(key).and_then(|inside| inside.get_str("name")) {
        Ok(name) => format!("{key} has the name {name}"),
        Err(error) => match &error.kind {
            ValueAccessErrorKind::UnexpectedType { expected, actual, .. } => {
                format!("{}: {actual:?} in place of {expected:?}", error.key())
            }
            ValueAccessErrorKind::InvalidBson(inner) => format!("{}: {}", error.key(), told(&inner.kind, inner.key())),
            _ => error.to_string(),
        },
    }
}

fn main() -> Result<(), Box<dyn std::error::Error>> {
    let mut bytes = Vec::new();
    std::io::stdin().read_to_end(&mut bytes)?;
    let mut rest = &bytes[..];
    while let Some(head) = rest.first_chunk() {
        let (document, behind) = rest.split_at(u32::from_le_bytes(*head) as usize);
        let document = RawDocument::from_bytes(document)?;
        let count = print(document, 0);
        println!("{count} elements, {}, {}", document.iter_elements().count(), look_up(document, "a"));
        let (mut copy, mut list) = (RawDocumentBuf::new(), RawArrayBuf::new());
        for (key, value) in document.iter().flatten() {
            copy.append_ref(key, value);
            list.push(value.to_raw_bson());
        }
        copy.append("list", list);
        println!("{copy:?}");
        rest = behind;
    }
    Ok(())
}
