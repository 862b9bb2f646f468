//! calls.h over the crate's own module `raw`, by its public calls.

use bson::raw::{Error, ErrorKind, RawArray, RawArrayBuf, RawBsonRef, RawDocument, RawDocumentBuf, RawElement};
use bson::Document;
use std::convert::TryFrom;

#[repr(C)]
pub struct Answer {
    pub status: i64,
    pub count: u64,
    pub sum: u64,
}

const ABSENT: i64 = -5;
const UNSUPPORTED: i64 = -100;

fn status(e: &Error) -> i64 {
    match e.kind {
        ErrorKind::Utf8EncodingError(_) => -2,
        _ => -1,
    }
}

impl Answer {
    fn begin(&mut self) {
        self.status = 0;
        self.count = 0;
        self.sum = 0;
    }

    fn end(&mut self, result: Result<(), Error>) {
        if let Err(e) = result {
            self.status = status(&e);
        }
    }

    #[inline]
    fn add(&mut self, key_len: usize, v: RawBsonRef) {
        self.count += 1;
        self.sum = self.sum.wrapping_add(v.element_type() as u64 + 3 * key_len as u64).wrapping_add(word(v));
    }

    fn hand(&mut self, bytes: &[u8], buf: &mut [u8]) {
        self.count = bytes.len() as u64;
        if buf.is_empty() {
            // only the length is asked for
        } else if bytes.len() <= buf.len() {
            buf[..bytes.len()].copy_from_slice(bytes);
        } else {
            self.status = -3;
        }
    }
}

unsafe fn bytes<'a>(p: *const u8, n: usize) -> &'a [u8] {
    std::slice::from_raw_parts(p, n)
}

unsafe fn room<'a>(p: *mut u8, n: usize) -> &'a mut [u8] {
    std::slice::from_raw_parts_mut(p, n)
}

fn le4(b: &[u8]) -> u64 {
    u32::from_le_bytes([b[0], b[1], b[2], b[3]]) as u64
}

#[inline]
fn word(v: RawBsonRef) -> u64 {
    match v {
        RawBsonRef::Double(d) => d.to_bits(),
        RawBsonRef::String(s) | RawBsonRef::JavaScriptCode(s) | RawBsonRef::Symbol(s) => s.len() as u64,
        RawBsonRef::Array(a) => a.as_bytes().len() as u64,
        RawBsonRef::Document(d) => d.as_bytes().len() as u64,
        RawBsonRef::Boolean(b) => b as u64,
        RawBsonRef::RegularExpression(r) => (r.pattern.len() + r.options.len()) as u64,
        RawBsonRef::JavaScriptCodeWithScope(c) => (c.code.len() + c.scope.as_bytes().len()) as u64,
        RawBsonRef::Int32(i) => i as i64 as u64,
        RawBsonRef::Int64(i) => i as u64,
        RawBsonRef::Timestamp(t) => t.time as u64 + t.increment as u64,
        RawBsonRef::Binary(b) => b.bytes.len() as u64 + u8::from(b.subtype) as u64,
        RawBsonRef::ObjectId(o) => le4(&o.bytes()),
        RawBsonRef::DateTime(t) => t.timestamp_millis() as u64,
        RawBsonRef::Decimal128(d) => u64::from_le_bytes(d.bytes()[..8].try_into().unwrap()),
        // its fields are private in the crate; documents.py makes none
        RawBsonRef::DbPointer(_) => 0,
        RawBsonRef::Undefined | RawBsonRef::Null | RawBsonRef::MinKey | RawBsonRef::MaxKey => 0,
    }
}

fn frames(doc: &[u8], out: &mut Answer) -> Result<(), Error> {
    for element in RawDocument::from_bytes(doc)?.iter_elements() {
        let element: RawElement = element?;
        out.count += 1;
        out.sum = out
            .sum
            .wrapping_add(element.element_type() as u64 + 3 * element.key().len() as u64 + element.len() as u64);
    }
    Ok(())
}

fn values(doc: &[u8], out: &mut Answer) -> Result<(), Error> {
    for pair in RawDocument::from_bytes(doc)?.iter() {
        let (key, value) = pair?;
        out.add(key.len(), value);
    }
    Ok(())
}

fn inside(value: RawBsonRef, out: &mut Answer) -> Result<(), Error> {
    match value {
        RawBsonRef::Document(d) => visit_document(d, out),
        RawBsonRef::Array(a) => visit_array(a, out),
        RawBsonRef::JavaScriptCodeWithScope(c) => visit_document(c.scope, out),
        _ => Ok(()),
    }
}

fn visit_document(doc: &RawDocument, out: &mut Answer) -> Result<(), Error> {
    for pair in doc.iter() {
        let (key, value) = pair?;
        out.add(key.len(), value);
        inside(value, out)?;
    }
    Ok(())
}

fn visit_array(array: &RawArray, out: &mut Answer) -> Result<(), Error> {
    for value in array {
        let value = value?;
        out.add(0, value);
        inside(value, out)?;
    }
    Ok(())
}

#[no_mangle]
pub unsafe extern "C" fn bb_frames(doc: *const u8, doc_len: usize, out: &mut Answer) {
    out.begin();
    let r = frames(bytes(doc, doc_len), out);
    out.end(r);
}

#[no_mangle]
pub unsafe extern "C" fn bb_values(doc: *const u8, doc_len: usize, out: &mut Answer) {
    out.begin();
    let r = values(bytes(doc, doc_len), out);
    out.end(r);
}

#[no_mangle]
pub unsafe extern "C" fn bb_visit(doc: *const u8, doc_len: usize, out: &mut Answer) {
    out.begin();
    let r = RawDocument::from_bytes(bytes(doc, doc_len)).and_then(|d| visit_document(d, out));
    out.end(r);
}

#[no_mangle]
pub unsafe extern "C" fn bb_values_noutf8(_: *const u8, _: usize, out: &mut Answer) {
    out.status = UNSUPPORTED;
}

#[no_mangle]
pub unsafe extern "C" fn bb_visit_noutf8(_: *const u8, _: usize, out: &mut Answer) {
    out.status = UNSUPPORTED;
}

/// The crate has no call that checks a document whole.
#[no_mangle]
pub unsafe extern "C" fn bb_validate(_: *const u8, _: usize, out: &mut Answer) {
    out.status = UNSUPPORTED;
}

#[no_mangle]
pub unsafe extern "C" fn bb_get(doc: *const u8, doc_len: usize, key: *const u8, key_len: usize, out: &mut Answer) {
    out.begin();
    let key = std::str::from_utf8_unchecked(bytes(key, key_len));
    match RawDocument::from_bytes(bytes(doc, doc_len)).and_then(|d| d.get(key)) {
        Ok(Some(v)) => {
            out.count = 1;
            out.sum = word(v);
        }
        Ok(None) => out.status = ABSENT,
        Err(e) => out.status = status(&e),
    }
}

#[no_mangle]
pub unsafe extern "C" fn bb_get_str(doc: *const u8, doc_len: usize, key: *const u8, key_len: usize, out: &mut Answer) {
    out.begin();
    let key = std::str::from_utf8_unchecked(bytes(key, key_len));
    match RawDocument::from_bytes(bytes(doc, doc_len)) {
        Ok(d) => match d.get_str(key) {
            Ok(s) => {
                out.count = 1;
                out.sum = s.len() as u64;
            }
            Err(_) => out.status = ABSENT,
        },
        Err(e) => out.status = status(&e),
    }
}

#[no_mangle]
pub unsafe extern "C" fn bb_tree(doc: *const u8, doc_len: usize, out: &mut Answer) {
    out.begin();
    match RawDocument::from_bytes(bytes(doc, doc_len)).and_then(Document::try_from) {
        Ok(d) => out.count = d.len() as u64,
        Err(e) => out.status = status(&e),
    }
}

#[no_mangle]
pub unsafe extern "C" fn bb_round(doc: *const u8, doc_len: usize, buf: *mut u8, buf_len: usize, out: &mut Answer) {
    out.begin();
    let made = RawDocument::from_bytes(bytes(doc, doc_len))
        .and_then(Document::try_from)
        .and_then(|d| RawDocumentBuf::from_document(&d));
    match made {
        Ok(made) => out.hand(&made.into_bytes(), room(buf, buf_len)),
        Err(e) => out.status = status(&e),
    }
}

fn rebuild_document(doc: &RawDocument) -> Result<RawDocumentBuf, Error> {
    let mut made = RawDocumentBuf::new();
    for pair in doc.iter() {
        let (key, value) = pair?;
        match value {
            RawBsonRef::Document(d) => made.append_ref(key, &rebuild_document(d)?),
            RawBsonRef::Array(a) => made.append_ref(key, &rebuild_array(a)?),
            _ => made.append_ref(key, value),
        }
    }
    Ok(made)
}

fn rebuild_array(array: &RawArray) -> Result<RawArrayBuf, Error> {
    let mut made = RawArrayBuf::new();
    for value in array {
        match value? {
            RawBsonRef::Document(d) => made.push(rebuild_document(d)?),
            RawBsonRef::Array(a) => made.push(rebuild_array(a)?),
            v => made.push(v.to_raw_bson()),
        }
    }
    Ok(made)
}

#[no_mangle]
pub unsafe extern "C" fn bb_rebuild(doc: *const u8, doc_len: usize, buf: *mut u8, buf_len: usize, out: &mut Answer) {
    out.begin();
    match RawDocument::from_bytes(bytes(doc, doc_len)).and_then(rebuild_document) {
        Ok(made) => out.hand(made.as_bytes(), room(buf, buf_len)),
        Err(e) => out.status = status(&e),
    }
}

#[no_mangle]
pub unsafe extern "C" fn bb_append(keys: *const u8, keys_len: usize, buf: *mut u8, buf_len: usize, out: &mut Answer) {
    out.begin();
    let keys = std::str::from_utf8_unchecked(bytes(keys, keys_len));
    let mut made = RawDocumentBuf::new();
    for i in 0..keys.len() / 8 {
        made.append(&keys[8 * i..8 * i + 8], i as i32);
    }
    out.hand(made.as_bytes(), room(buf, buf_len));
}

#[no_mangle]
pub unsafe extern "C" fn bb_push(n: u64, buf: *mut u8, buf_len: usize, out: &mut Answer) {
    out.begin();
    let mut made = RawArrayBuf::new();
    for i in 0..n {
        made.push(i as i32);
    }
    out.hand(made.as_bytes(), room(buf, buf_len));
}
