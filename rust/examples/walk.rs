//! Prints each value of the documents of standard input, one after the other, with the path of keys to it; and each error with the path to
//! where it is. Written for the crate `bson`: only its lines `use` name another one.

use bsonraw::raw::{Error, ErrorKind, RawArray, RawBsonRef, RawDocument};
use std::io::Read;

/// The path of a key inside of another path.
fn joined(path: &str, key: &str) -> String {
    if path.is_empty() {
        key.to_string()
    } else {
        format!("{path}.{key}")
    }
}

/// What an error says, with the path to it.
fn described(path: &str, error: &Error) -> String {
    let place = joined(path, error.key().unwrap_or("?"));
    match &error.kind {
        ErrorKind::MalformedValue { message, .. } => format!("{place}: damaged: {message}"),
        ErrorKind::Utf8EncodingError(error) => format!("{place}: not a text from byte {} on", error.valid_up_to()),
        _ => format!("{place}: {error}"),
    }
}

/// Prints a value, or those inside; gives how many errors there are.
fn print(path: &str, value: RawBsonRef<'_>) -> usize {
    match value {
        RawBsonRef::Document(document) => walk(path, document),
        RawBsonRef::Array(array) => walk_array(path, array),
        RawBsonRef::ObjectId(id) => {
            println!("{path}: id {}", id.to_hex());
            0
        }
        RawBsonRef::DateTime(time) => {
            println!("{path}: {} ms", time.timestamp_millis());
            0
        }
        other => {
            println!("{path}: {other:?}");
            0
        }
    }
}

fn walk(path: &str, document: &RawDocument) -> usize {
    let mut errors = 0;
    for element in document.iter_elements() {
        match element.and_then(|element| Ok((element.key(), element.value()?))) {
            Ok((key, value)) => errors += print(&joined(path, key), value),
            Err(error) => {
                println!("{}", described(path, &error));
                errors += 1;
            }
        }
    }
    errors
}

fn walk_array(path: &str, array: &RawArray) -> usize {
    let mut errors = 0;
    for (number, value) in array.into_iter().enumerate() {
        match value {
            Ok(value) => errors += print(&joined(path, &number.to_string()), value),
            Err(error) => {
                println!("{}", described(path, &error));
                errors += 1;
            }
        }
    }
    errors
}

fn main() -> Result<(), Box<dyn std::error::Error>> {
    let mut bytes = Vec::new();
    std::io::stdin().read_to_end(&mut bytes)?;
    let mut rest = &bytes[..];
    while let Some(head) = rest.first_chunk() {
        let (document, after) = rest.split_at(u32::from_le_bytes(*head) as usize);
        println!("{} errors", walk("", RawDocument::from_bytes(document)?));
        rest = after;
    }
    Ok(())
}
