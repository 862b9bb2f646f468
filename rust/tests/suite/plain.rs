//! BSON read slowly and plainly, straight from the format: what the crate has to return, found another way.

use bsonraw::oid::ObjectId;
use bsonraw::raw::{RawBinaryRef, RawBsonRef, RawDocument, RawDocumentBuf, RawJavaScriptCodeWithScopeRef, RawRegexRef};
use bsonraw::{DateTime, Decimal128, Timestamp};

/// A fault: whether a text isn't UTF-8, else something is malformed; and its key.
#[derive(Clone, Debug, PartialEq)]
pub struct Fault {
    pub is_utf8: bool,
    pub key: Option<String>,
}

fn malformed(key: Option<&str>) -> Fault {
    Fault { is_utf8: false, key: key.map(str::to_string) }
}

fn not_utf8(key: Option<&str>) -> Fault {
    Fault { is_utf8: true, key: key.map(str::to_string) }
}

/// An element: its tag, its key, its payload, and where it begins in its document.
#[derive(Clone, Debug)]
pub struct Frame<'a> {
    pub tag: u8,
    pub key: &'a str,
    pub payload: &'a [u8],
    pub offset: usize,
}

/// The number in the first four bytes, if there are this many.
fn number(data: &[u8]) -> Option<i64> {
    Some(i64::from(i32::from_le_bytes(data.get(..4)?.try_into().unwrap())))
}

pub fn is_document(data: &[u8]) -> bool {
    data.len() >= 5 && number(data) == Some(data.len() as i64) && data.last() == Some(&0)
}

/// How many bytes the string at the front has, its length and its 0 counted.
fn string_len(rest: &[u8]) -> Option<usize> {
    let len = number(rest).filter(|len| *len >= 1)? as usize + 4;
    (rest.get(len - 1) == Some(&0)).then_some(len)
}

/// How many bytes the payload of a regular expression at the front has.
fn regex_len(rest: &[u8], key: &str) -> Result<Option<usize>, Fault> {
    let mut at = 0;
    for _ in 0..2 {
        let Some(len) = rest[at..].iter().position(|byte| *byte == 0) else {
            return Ok(None);
        };
        if std::str::from_utf8(&rest[at..at + len]).is_err() {
            return Err(not_utf8(Some(key)));
        }
        at += len + 1;
    }
    Ok(Some(at))
}

/// How many bytes the payload of this kind at the front has.
fn payload_len(tag: u8, rest: &[u8], key: &str) -> Result<usize, Fault> {
    let at_least = |least: i64| number(rest).filter(|len| *len >= least).map(|len| len as usize);
    let len = match tag {
        1 | 9 | 17 | 18 => Some(8),
        2 | 13 | 14 => string_len(rest),
        3 | 4 => at_least(5).filter(|len| rest.get(len - 1) == Some(&0)),
        5 => at_least(0).map(|len| len + 5),
        6 | 10 | 0x7F | 0xFF => Some(0),
        7 => Some(12),
        8 => Some(1),
        11 => regex_len(rest, key)?,
        12 => string_len(rest).map(|len| len + 12),
        15 => at_least(0),
        16 => Some(4),
        19 => Some(16),
        _ => None,
    };
    len.filter(|len| *len <= rest.len()).ok_or_else(|| malformed(Some(key)))
}

/// The element at the front, which is at this offset of its document; or the fault.
fn frame(rest: &[u8], offset: usize) -> Result<Frame<'_>, Fault> {
    let (tag, behind) = rest.split_first().ok_or_else(|| malformed(None))?;
    // the last byte of a document is a 0, so that a key always ends
    let len = behind.iter().position(|byte| *byte == 0).unwrap();
    let key = std::str::from_utf8(&behind[..len]).map_err(|_| not_utf8(None))?;
    let behind = &behind[len + 1..];
    let payload = &behind[..payload_len(*tag, behind, key)?];
    Ok(Frame { tag: *tag, key, payload, offset })
}

/// The elements, and the fault at which they stop, if there is one.
pub fn walk(data: &[u8]) -> (Vec<Frame<'_>>, Option<(Fault, usize)>) {
    let mut frames = Vec::new();
    let mut at = 4;
    while at + 1 != data.len() {
        match frame(&data[at..], at) {
            Ok(frame) => {
                at += 2 + frame.key.len() + frame.payload.len();
                frames.push(frame);
            }
            Err(fault) => return (frames, Some((fault, at))),
        }
    }
    (frames, None)
}

fn text(bytes: &[u8]) -> Result<&str, Fault> {
    std::str::from_utf8(bytes).map_err(|_| not_utf8(None))
}

/// What the payload of an element means.
pub fn value<'a>(frame: &Frame<'a>) -> Result<RawBsonRef<'a>, Fault> {
    let (payload, key) = (frame.payload, frame.key);
    let eight = || <[u8; 8]>::try_from(payload).unwrap();
    Ok(match frame.tag {
        1 => RawBsonRef::Double(f64::from_le_bytes(eight())),
        2 => RawBsonRef::String(text(&payload[4..payload.len() - 1])?),
        3 => RawBsonRef::Document(RawDocument::from_bytes(payload).unwrap()),
        // an array is made for its element alone
        4 => return Ok(RawBsonRef::Undefined),
        5 => return binary(payload, key),
        6 => RawBsonRef::Undefined,
        7 => RawBsonRef::ObjectId(ObjectId::from_bytes(payload.try_into().unwrap())),
        8 if payload[0] > 1 => return Err(malformed(Some(key))),
        8 => RawBsonRef::Boolean(payload[0] == 1),
        9 => RawBsonRef::DateTime(DateTime::from_millis(i64::from_le_bytes(eight()))),
        10 => RawBsonRef::Null,
        11 => {
            let mut texts = payload.split(|byte| *byte == 0);
            let (pattern, options) = (text(texts.next().unwrap())?, text(texts.next().unwrap())?);
            RawBsonRef::RegularExpression(RawRegexRef { pattern, options })
        }
        12 => {
            // a pointer has no public parts to be made of
            text(&payload[4..payload.len() - 13])?;
            RawBsonRef::Undefined
        }
        13 => RawBsonRef::JavaScriptCode(text(&payload[4..payload.len() - 1])?),
        14 => RawBsonRef::Symbol(text(&payload[4..payload.len() - 1])?),
        15 => {
            let (code, scope) = code_and_scope(payload, key)?;
            let scope = RawDocument::from_bytes(scope).unwrap();
            RawBsonRef::JavaScriptCodeWithScope(RawJavaScriptCodeWithScopeRef { code, scope })
        }
        16 => RawBsonRef::Int32(i32::from_le_bytes(payload.try_into().unwrap())),
        17 => RawBsonRef::Timestamp(Timestamp {
            increment: u32::from_le_bytes(payload[..4].try_into().unwrap()),
            time: u32::from_le_bytes(payload[4..].try_into().unwrap()),
        }),
        18 => RawBsonRef::Int64(i64::from_le_bytes(eight())),
        19 => RawBsonRef::Decimal128(Decimal128::from_bytes(payload.try_into().unwrap())),
        0x7F => RawBsonRef::MaxKey,
        _ => RawBsonRef::MinKey,
    })
}

fn binary<'a>(payload: &'a [u8], key: &str) -> Result<RawBsonRef<'a>, Fault> {
    let mut bytes = &payload[5..];
    if payload[4] == 2 {
        let inner = number(bytes).ok_or_else(|| malformed(Some(key)))?;
        if inner + 4 != bytes.len() as i64 {
            return Err(malformed(Some(key).filter(|_| !(-4..0).contains(&inner))));
        }
        bytes = &bytes[4..];
    }
    Ok(RawBsonRef::Binary(RawBinaryRef { subtype: payload[4].into(), bytes }))
}

fn code_and_scope<'a>(payload: &'a [u8], key: &str) -> Result<(&'a str, &'a [u8]), Fault> {
    if payload.len() < 14 {
        return Err(malformed(Some(key)));
    }
    let len = string_len(&payload[4..]).ok_or_else(|| malformed(None))?;
    let code = text(&payload[8..4 + len - 1])?;
    let scope = &payload[4 + len..];
    if !is_document(scope) {
        return Err(malformed(None));
    }
    Ok((code, scope))
}

/// A fault with its place: the number of the element in each level, where it begins, and its key.
#[derive(Debug, PartialEq)]
pub struct Place {
    pub is_utf8: bool,
    pub path: Vec<usize>,
    pub offset: usize,
    pub key: Option<String>,
}

/// The first fault at any level of a document that begins at this offset.
pub fn first_fault(data: &[u8], begins: usize, path: &[usize]) -> Option<Place> {
    let (frames, stop) = walk(data);
    let place = |number: usize, fault: Fault, offset: usize, key: Option<String>| Place {
        is_utf8: fault.is_utf8,
        path: [path, &[number]].concat(),
        offset: begins + offset,
        key,
    };
    for (number, frame) in frames.iter().enumerate() {
        if let Err(fault) = value(frame) {
            return Some(place(number, fault, frame.offset, Some(frame.key.to_string())));
        }
        let inside = match frame.tag {
            3 | 4 => frame.payload,
            15 => code_and_scope(frame.payload, frame.key).unwrap().1,
            _ => continue,
        };
        let at = begins + frame.offset + 2 + frame.key.len() + frame.payload.len() - inside.len();
        let found = first_fault(inside, at, &[path, &[number]].concat());
        if found.is_some() {
            return found;
        }
    }
    let (fault, offset) = stop?;
    let key = fault.key.clone();
    Some(place(frames.len(), fault, offset, key))
}

/// How many elements all levels of a document without a fault have.
pub fn count(data: &[u8]) -> usize {
    let inside = |frame: &Frame<'_>| match frame.tag {
        3 | 4 => count(frame.payload),
        15 => count(code_and_scope(frame.payload, frame.key).unwrap().1),
        _ => 0,
    };
    walk(data).0.iter().map(|frame| 1 + inside(frame)).sum()
}

/// The document that has these bytes as an array under the key `0`.
pub fn with_array(bytes: &[u8]) -> RawDocumentBuf {
    let mut data = (bytes.len() as i32 + 8).to_le_bytes().to_vec();
    data.extend(b"\x040\0");
    data.extend(bytes);
    data.push(0);
    RawDocumentBuf::from_bytes(data).unwrap()
}
