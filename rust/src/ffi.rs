//! The one file with unsafe code: each call into C, and the three casts of bytes. What a call has to be given is said at the
//! head of `bsonraw.h`, and every call here keeps it in the same way:
//!
//! - A pointer with its length is that of a slice, which is never null, lives for the call, and is initialised; or that of a buffer
//!   with its capacity, where what isn't initialised is only written. What is written is in a `&mut`, or in a buffer that is owned,
//!   so that it overlaps nothing else and no other thread touches it.
//! - A pointer to a struct or to a number is that of a reference, so it is aligned, and points to a `repr(C)` struct whose fields
//!   are those of the header (`bsonraw-sys/tests/header.rs`), and of the library: see [`LAYOUT`]. Any fields may be handed over.
//!
//! What the library returns is used without a second look where [`text`] shows what it checked to be UTF-8, and where [`append`] and [`grown`]
//! let a buffer grow over what it wrote. All other offsets are used to slice, which is checked.

#![allow(unsafe_code)]

use std::ffi::CStr;
use std::{ptr, str};

use crate::raw::{RawArray, RawDocument};
use crate::sys::*;

/// A name that only a library has whose structs are those of `sys`: with another one no program links.
#[used]
static LAYOUT: unsafe extern "C" fn() -> u32 = bsonraw_layout_2;

/// How many elements are read in a block.
const BLOCK: usize = 8;

/// How many bytes a document has at most.
pub(crate) const MOST: usize = i32::MAX as usize;

/// How many bytes the text of a Decimal128 has at most, with its 0, by the header.
const DECIMAL128_TEXT: usize = 43;

/// How many bytes the text of a time has at most, with its 0.
const DATE_TIME_TEXT: usize = 25;

/// How many numbers of a path are asked for at first.
const PATH_ROOM: usize = 32;

/// Shows bytes as a document.
#[inline]
pub(crate) fn document(bytes: &[u8]) -> &RawDocument {
    // SAFETY: RawDocument is a transparent struct over [u8], so it has its layout, and any bytes may be in it.
    unsafe { &*(ptr::from_ref(bytes) as *const RawDocument) }
}

/// Shows a document as an array.
#[inline]
pub(crate) fn array(document: &RawDocument) -> &RawArray {
    // SAFETY: RawArray is a transparent struct over RawDocument, so it has its layout, and any document may be in it.
    unsafe { &*(ptr::from_ref(document) as *const RawArray) }
}

/// Shows bytes as the text that they are.
///
/// # Safety
///
/// A call of the library has said that these bytes are a key or a text: it is proved that they are UTF-8 then.
#[inline]
unsafe fn text(bytes: &[u8], at: u32, len: u32) -> &str {
    let bytes = &bytes[at as usize..][..len as usize];
    debug_assert!(str::from_utf8(bytes).is_ok());
    // SAFETY: the bytes are UTF-8, as the caller says.
    unsafe { str::from_utf8_unchecked(bytes) }
}

/// The version of the library.
pub(crate) fn version() -> u32 {
    // SAFETY: nothing is handed over.
    unsafe { bsonraw_version() }
}

/// Whether the bytes have a document's envelope; else why not. Each call over a document looks at that itself, too, so bytes that
/// plainly have one are left to these.
#[inline]
pub(crate) fn envelope(bytes: &[u8]) -> Result<(), bsonraw_error> {
    match bytes {
        [a, b, c, d, .., 0] if u32::from_le_bytes([*a, *b, *c, *d]) as usize == bytes.len() && bytes.len() <= MOST => {
            Ok(())
        }
        _ => judged_envelope(bytes),
    }
}

#[cold]
fn judged_envelope(bytes: &[u8]) -> Result<(), bsonraw_error> {
    let mut iter = bsonraw_iter::default();
    // SAFETY: as said at the head of this file.
    let status = unsafe { bsonraw_iter_init(&mut iter, bytes.as_ptr(), bytes.len()) };
    if status == BSONRAW_OK {
        Ok(())
    } else {
        Err(iter.error)
    }
}

/// Why there is no element, where none is and not the end either.
pub(crate) struct Stop<'a> {
    pub(crate) error: bsonraw_error,
    pub(crate) key: Option<&'a [u8]>,
}

impl<'a> Stop<'a> {
    /// The stop at which a cursor is.
    #[cold]
    fn of(document: &'a [u8], cursor: &bsonraw_iter) -> Stop<'a> {
        let key_at = cursor.key_at as usize;
        Stop {
            error: cursor.error,
            key: (key_at < document.len()).then(|| &document[key_at..][..cursor.key_len as usize]),
        }
    }
}

/// An element of a document. The library has made the entry of these very bytes.
#[derive(Clone, Copy)]
pub(crate) struct Frame<'a> {
    document: &'a [u8],
    entry: bsonraw_entry,
}

impl<'a> Frame<'a> {
    #[inline]
    pub(crate) fn tag(&self) -> u8 {
        self.entry.tag as u8
    }

    #[inline]
    pub(crate) fn key(&self) -> &'a str {
        // SAFETY: the library made the entry of these bytes.
        unsafe { text(self.document, self.entry.key_at, self.entry.key_len) }
    }

    #[inline]
    pub(crate) fn payload(&self) -> &'a [u8] {
        &self.document[self.entry.payload_at as usize..][..self.entry.payload_len as usize]
    }

    #[inline]
    pub(crate) fn payload_len(&self) -> usize {
        self.entry.payload_len as usize
    }

    /// The document that the element is of.
    pub(crate) fn document(&self) -> &'a [u8] {
        self.document
    }

    /// The value, or why there is none.
    #[inline]
    pub(crate) fn value(&self) -> Result<Value<'a>, bsonraw_error> {
        let iter = bsonraw_iter {
            tag: self.entry.tag,
            key_at: self.entry.key_at,
            key_len: self.entry.key_len,
            payload_at: self.entry.payload_at,
            payload_len: self.entry.payload_len,
            ..whole(self.document)
        };
        let mut value = bsonraw_value::default();
        // SAFETY: as said at the head of this file.
        let status = unsafe { bsonraw_iter_value(&iter, self.document.as_ptr(), self.document.len(), &mut value) };
        if status == BSONRAW_OK {
            Ok(Value { document: self.document, value })
        } else {
            Err(value.error)
        }
    }
}

/// A value of an element. The library has made it of these very bytes.
pub(crate) struct Value<'a> {
    document: &'a [u8],
    value: bsonraw_value,
}

impl<'a> Value<'a> {
    /// The text of a value, which has to be of a kind with a text.
    #[inline]
    pub(crate) fn text(&self) -> &'a str {
        debug_assert!((self.value.tag < 32) && 1 << self.value.tag & WITH_TEXT != 0);
        let is_text = self.value.tag < 32 && 1 << self.value.tag & WITH_TEXT != 0;
        let len = if is_text { self.value.text_len } else { 0 };
        // SAFETY: the library made the value of these bytes; no bytes are UTF-8, too.
        unsafe { text(self.document, self.value.text_at, len) }
    }

    /// The options of a regular expression, which the value has to be.
    #[inline]
    pub(crate) fn options(&self) -> &'a str {
        debug_assert_eq!(self.value.tag, BSONRAW_TAG_REGEX);
        let is_regex = self.value.tag == BSONRAW_TAG_REGEX;
        let len = if is_regex { self.value.more_len } else { 0 };
        // SAFETY: as above.
        unsafe { text(self.document, self.value.more_at, len) }
    }

    /// The bytes of a binary value.
    #[inline]
    pub(crate) fn data(&self) -> &'a [u8] {
        &self.document[self.value.text_at as usize..][..self.value.text_len as usize]
    }

    /// The second part: a scope, or the id after a namespace.
    #[inline]
    pub(crate) fn more(&self) -> &'a [u8] {
        &self.document[self.value.more_at as usize..][..self.value.more_len as usize]
    }

    #[inline]
    pub(crate) fn subtype(&self) -> u8 {
        self.value.subtype as u8
    }
}

/// The kinds whose value has a text, as bits.
const WITH_TEXT: u32 = 1 << BSONRAW_TAG_STRING
    | 1 << BSONRAW_TAG_REGEX
    | 1 << BSONRAW_TAG_DB_POINTER
    | 1 << BSONRAW_TAG_JAVASCRIPT
    | 1 << BSONRAW_TAG_SYMBOL
    | 1 << BSONRAW_TAG_JAVASCRIPT_WITH_SCOPE;

/// A cursor before the first element of a document.
#[inline]
fn whole(document: &[u8]) -> bsonraw_iter {
    bsonraw_iter { next: 4, document_len: document.len() as u32, ..bsonraw_iter::default() }
}

/// The elements of a document in order, read in blocks.
#[derive(Clone)]
pub(crate) struct Steps<'a> {
    document: &'a [u8],
    cursor: bsonraw_iter,
    /// Where it goes on: with the block that is there, or as the library said after it.
    status: i32,
    taken: usize,
    count: usize,
    block: [bsonraw_entry; BLOCK],
}

impl<'a> Steps<'a> {
    #[inline]
    pub(crate) fn new(document: &'a [u8]) -> Steps<'a> {
        Steps {
            document,
            cursor: whole(document),
            status: BSONRAW_OK,
            taken: 0,
            count: 0,
            block: [bsonraw_entry::default(); BLOCK],
        }
    }

    pub(crate) fn document(&self) -> &'a [u8] {
        self.document
    }

    /// The next element, if there is one.
    #[inline]
    pub(crate) fn next(&mut self) -> Option<Frame<'a>> {
        if self.taken == self.count && !self.fill() {
            return None;
        }
        let entry = self.block[self.taken];
        self.taken += 1;
        Some(Frame { document: self.document, entry })
    }

    /// Reads the next block, and says whether it has an element.
    fn fill(&mut self) -> bool {
        if self.status != BSONRAW_OK {
            return false;
        }
        let (at, len) = (self.document.as_ptr(), self.document.len());
        let (block, room) = (self.block.as_mut_ptr(), self.block.len());
        let mut count = 0;
        // SAFETY: as said at the head of this file.
        self.status = unsafe { bsonraw_iter_next_many(&mut self.cursor, at, len, block, room, &mut count) };
        self.taken = 0;
        self.count = count as usize;
        self.count != 0
    }

    /// Why there is no next element, unless that is the end; said once.
    #[inline]
    pub(crate) fn stop(&mut self) -> Option<Stop<'a>> {
        if self.status != BSONRAW_FAULT {
            return None;
        }
        self.status = BSONRAW_NONE;
        Some(Stop::of(self.document, &self.cursor))
    }
}

/// The first element with this key; or why it isn't known, where none has it up to a stop.
#[inline]
pub(crate) fn find<'a>(document: &'a [u8], key: &str) -> Option<Result<Frame<'a>, Stop<'a>>> {
    let mut cursor = whole(document);
    // SAFETY: as said at the head of this file.
    let status = unsafe { bsonraw_iter_find(&mut cursor, document.as_ptr(), document.len(), key.as_ptr(), key.len()) };
    found(document, &cursor, status)
}

/// What a search that ended so has found.
#[inline]
fn found<'a>(document: &'a [u8], cursor: &bsonraw_iter, status: i32) -> Option<Result<Frame<'a>, Stop<'a>>> {
    match status {
        BSONRAW_OK => Some(Ok(Frame {
            document,
            entry: bsonraw_entry {
                tag: cursor.tag,
                key_at: cursor.key_at,
                key_len: cursor.key_len,
                payload_at: cursor.payload_at,
                payload_len: cursor.payload_len,
            },
        })),
        BSONRAW_FAULT => Some(Err(Stop::of(document, cursor))),
        _ => None,
    }
}

/// The element at the end of a path, whose steps have the separator between them; or why it isn't known. There is none, too, where a step
/// goes into what is neither a document nor an array.
pub(crate) fn find_descendant<'a>(
    document: &'a [u8],
    path: &[u8],
    separator: u8,
) -> Option<Result<Frame<'a>, Stop<'a>>> {
    let mut cursor = whole(document);
    let (at, len) = (document.as_ptr(), document.len());
    // SAFETY: as said at the head of this file.
    let status = unsafe { bsonraw_iter_find_descendant(&mut cursor, at, len, path.as_ptr(), path.len(), separator) };
    found(document, &cursor, status)
}

/// Appends an element by its parts to the document or the array that the bytes are. The library is given room for this many bytes
/// more. With any status but `BSONRAW_OK` nothing is changed.
#[inline]
pub(crate) fn append(
    data: &mut Vec<u8>,
    more: usize,
    mut builder: bsonraw_builder,
    tag: u32,
    key: &[u8],
    one: &[u8],
    two: &[u8],
) -> i32 {
    data.reserve(more);
    let (at, room) = (data.as_mut_ptr(), data.capacity());
    let (key, key_len) = (key.as_ptr(), key.len());
    let (one, one_len) = (one.as_ptr(), one.len());
    let (two, two_len) = (two.as_ptr(), two.len());
    // SAFETY: as said at the head of this file. With BSONRAW_OK the buffer has the document, builder.len bytes of it.
    unsafe {
        bsonraw_append(&mut builder, at, room, tag, key, key_len, one, one_len, two, two_len);
        let status = bsonraw_builder_end(&mut builder, at, room);
        if status == BSONRAW_OK {
            data.set_len(builder.len as usize);
        }
        status
    }
}

/// Goes on to the next document.
pub(crate) fn read(reader: &mut bsonraw_reader, bytes: &[u8]) -> i32 {
    // SAFETY: as said at the head of this file.
    unsafe { bsonraw_reader_read(reader, bytes.as_ptr(), bytes.len()) }
}

/// Goes on after damage.
pub(crate) fn resync(
    reader: &mut bsonraw_reader,
    bytes: &[u8],
    max_bytes: usize,
    max_depth: usize,
    work: &mut bsonraw_resync,
) -> i32 {
    // SAFETY: as said at the head of this file.
    unsafe { bsonraw_reader_resync(reader, bytes.as_ptr(), bytes.len(), max_bytes, max_depth, work) }
}

/// What a call over a whole document said.
pub(crate) struct Report {
    pub(crate) status: i32,
    pub(crate) said: bsonraw_report,
    pub(crate) path: Vec<u64>,
}

/// Makes a call over a whole document, and makes it again where the path is longer than was asked for.
fn reported(mut call: impl FnMut(&mut bsonraw_report, &mut [u64]) -> i32) -> Report {
    let mut said = bsonraw_report::default();
    let mut first = [0; PATH_ROOM];
    let mut status = call(&mut said, &mut first);
    let len = said.path_len as usize;
    let path = if len <= PATH_ROOM {
        first[..len].to_vec()
    } else {
        let mut path = vec![0; len];
        status = call(&mut said, &mut path);
        path
    };
    Report { status, said, path }
}

/// An empty buffer with room for this many items, if there is memory for it.
fn buffer<T>(room: usize) -> Option<Vec<T>> {
    let mut made = Vec::new();
    made.try_reserve_exact(room).ok()?;
    Some(made)
}

/// The buffer with the items that are at its front.
///
/// # Safety
///
/// This many items are there.
unsafe fn grown<T>(mut made: Vec<T>, count: usize) -> Vec<T> {
    debug_assert!(count <= made.capacity());
    // SAFETY: as the caller says.
    unsafe { made.set_len(count) };
    made
}

/// Makes a call that fills a room, and makes it again where more room is needed, with some after it. Returns the items that it put
/// there; none, where it fails. Without memory for the room the report says so.
///
/// # Safety
///
/// Where the call returns `BSONRAW_OK`, as many items as the report counts are at the front of the room.
unsafe fn filled<T>(
    mut room: usize,
    behind: usize,
    mut call: impl FnMut(*mut T, usize, &mut bsonraw_report, &mut [u64]) -> i32,
) -> (Report, Vec<T>) {
    loop {
        let Some(mut made) = buffer(room) else {
            let said = bsonraw_report::default();
            return (Report { status: BSONRAW_NO_MEMORY, said, path: Vec::new() }, Vec::new());
        };
        let (to, len) = (made.as_mut_ptr(), made.capacity());
        let report = reported(|said, path| call(to, len, said, path));
        let count = report.said.count as usize;
        match report.status {
            BSONRAW_SMALL_BUFFER => room = count + behind,
            // SAFETY: the items are there, as the caller says.
            BSONRAW_OK => return (report, unsafe { grown(made, count) }),
            _ => return (report, made),
        }
    }
}

/// The room that is asked for at first: none where the bytes are too many for the limits, so that the call only says so.
fn first_room(len: usize, max_bytes: usize, room: usize) -> usize {
    if len > max_bytes {
        0
    } else {
        room
    }
}

/// `bsonraw_first_fault`.
pub(crate) fn first_fault(bytes: &[u8], max_bytes: usize, max_depth: usize) -> Report {
    let (at, len) = (bytes.as_ptr(), bytes.len());
    reported(|said, path| {
        // SAFETY: as said at the head of this file.
        unsafe { bsonraw_first_fault(at, len, max_bytes, max_depth, said, path.as_mut_ptr(), path.len()) }
    })
}

/// `bsonraw_check`.
pub(crate) fn check(bytes: &[u8], max_bytes: usize, max_depth: usize) -> Report {
    let (at, len) = (bytes.as_ptr(), bytes.len());
    reported(|said, path| {
        // SAFETY: as said at the head of this file.
        unsafe { bsonraw_check(at, len, max_bytes, max_depth, said, path.as_mut_ptr(), path.len()) }
    })
}

/// `bsonraw_canonical`, and the form.
pub(crate) fn canonical(bytes: &[u8], max_bytes: usize, max_depth: usize) -> (Report, Vec<u8>) {
    let (at, len) = (bytes.as_ptr(), bytes.len());
    let call = |to, room, said: &mut _, path: &mut [u64]| {
        // SAFETY: as said at the head of this file.
        unsafe { bsonraw_canonical(at, len, max_bytes, max_depth, to, room, said, path.as_mut_ptr(), path.len()) }
    };
    // SAFETY: with BSONRAW_OK the form is at the front of the room, and count is how many bytes it has.
    unsafe { filled(first_room(len, max_bytes, len), 0, call) }
}

/// An element of any level, in the bytes of the whole document.
pub(crate) struct Flat<'a> {
    pub(crate) frame: Frame<'a>,
    pub(crate) depth: usize,
    pub(crate) inside: usize,
}

impl<'a> Flat<'a> {
    /// What the library said of these bytes.
    fn of(document: &'a [u8], token: &bsonraw_token) -> Flat<'a> {
        let entry = bsonraw_entry {
            tag: token.tag,
            key_at: token.key_at,
            key_len: token.key_len,
            payload_at: token.payload_at,
            payload_len: token.payload_len,
        };
        Flat { frame: Frame { document, entry }, depth: token.depth as usize, inside: token.inside as usize }
    }
}

/// `bsonraw_flatten`, and the tokens, of which there are none where it fails.
pub(crate) fn flatten(bytes: &[u8], max_bytes: usize, max_depth: usize) -> (Report, Vec<Flat<'_>>) {
    let (at, len) = (bytes.as_ptr(), bytes.len());
    let room = first_room(len, max_bytes, len / 16 + 8);
    let call = |to, room, said: &mut _, path: &mut [u64]| {
        // SAFETY: as said at the head of this file.
        unsafe { bsonraw_flatten(at, len, max_bytes, max_depth, to, room, said, path.as_mut_ptr(), path.len()) }
    };
    // SAFETY: with BSONRAW_OK count tokens are at the front of the room.
    let (mut report, tokens) = unsafe { filled(room, 0, call) };
    let mut flats = Vec::new();
    if report.status == BSONRAW_OK {
        match flats.try_reserve_exact(tokens.len()) {
            Ok(()) => flats.extend(tokens.iter().map(|token| Flat::of(bytes, token))),
            Err(_) => report.status = BSONRAW_NO_MEMORY,
        }
    }
    (report, flats)
}

/// `bsonraw_json`, and the text without the 0 after it.
pub(crate) fn json(
    bytes: &[u8],
    max_bytes: usize,
    max_depth: usize,
    canonical: bool,
    indented: bool,
) -> (Report, Vec<u8>) {
    let (at, len) = (bytes.as_ptr(), bytes.len());
    let (canonical, indented) = (u32::from(canonical), u32::from(indented));
    let room = first_room(len, max_bytes, len.saturating_mul(2).saturating_add(64));
    let call = |to, room, said: &mut _, path: &mut [u64]| {
        let (path, steps) = (path.as_mut_ptr(), path.len());
        // SAFETY: as said at the head of this file.
        unsafe { bsonraw_json(at, len, max_bytes, max_depth, canonical, indented, to, room, said, path, steps) }
    };
    // SAFETY: with BSONRAW_OK the text is at the front of the room, and count is how many bytes it has.
    unsafe { filled(room, 1, call) }
}

/// `bsonraw_from_json`, and the document.
pub(crate) fn from_json(text: &[u8], max_bytes: usize, max_depth: usize) -> (i32, bsonraw_json_report, Vec<u8>) {
    let (at, len) = (text.as_ptr(), text.len());
    let mut said = bsonraw_json_report::default();
    let mut room = len.saturating_mul(2).saturating_add(64).min(max_bytes);
    loop {
        let Some(mut made) = buffer(room) else {
            let said = bsonraw_json_report { line: 1, column: 1, ..bsonraw_json_report::default() };
            return (BSONRAW_NO_MEMORY, said, Vec::new());
        };
        let (to, to_len) = (made.as_mut_ptr(), made.capacity());
        // SAFETY: as said at the head of this file.
        let status = unsafe { bsonraw_from_json(at, len, max_bytes, max_depth, to, to_len, &mut said) };
        let count = said.count as usize;
        match status {
            BSONRAW_SMALL_BUFFER => room = count,
            // SAFETY: the document is at the front of the room, and count is how many bytes it has.
            BSONRAW_OK => return (status, said, unsafe { grown(made, count) }),
            _ => return (status, said, made),
        }
    }
}

/// `bsonraw_oid_from_hex`: the id of 24 digits, if they are that.
pub(crate) fn oid_from_hex(hex: &[u8]) -> Option<[u8; 12]> {
    let mut id = [0; 12];
    // SAFETY: as said at the head of this file; an id has twelve bytes.
    let status = unsafe { bsonraw_oid_from_hex(hex.as_ptr(), hex.len(), id.as_mut_ptr()) };
    (status == BSONRAW_OK).then_some(id)
}

/// `bsonraw_oid_time`: the seconds of an id.
pub(crate) fn oid_time(id: &[u8; 12]) -> u32 {
    // SAFETY: an id has twelve bytes.
    unsafe { bsonraw_oid_time(id.as_ptr()) }
}

/// The text before the 0 in a room that the library wrote.
fn text_of(room: &[u8]) -> String {
    let text = CStr::from_bytes_until_nul(room).unwrap_or_default();
    text.to_string_lossy().into_owned()
}

/// `bsonraw_decimal128_to_text`, which always returns `BSONRAW_OK`.
pub(crate) fn decimal128_to_text(decimal: &[u8; 16]) -> Option<String> {
    let mut room = [0_u8; DECIMAL128_TEXT];
    // SAFETY: as said at the head of this file; a decimal has 16 bytes, and no text more than the room.
    let status = unsafe { bsonraw_decimal128_to_text(decimal.as_ptr(), room.as_mut_ptr().cast()) };
    (status == BSONRAW_OK).then(|| text_of(&room))
}

/// `bsonraw_decimal128_from_text`: the number, if the text is that of one.
pub(crate) fn decimal128_from_text(text: &[u8]) -> Option<[u8; 16]> {
    let mut decimal = [0; 16];
    // SAFETY: as said at the head of this file; a decimal has 16 bytes.
    let status = unsafe { bsonraw_decimal128_from_text(text.as_ptr(), text.len(), decimal.as_mut_ptr()) };
    (status == BSONRAW_OK).then_some(decimal)
}

/// `bsonraw_date_time_to_text`; none in a year that has no text.
pub(crate) fn date_time_to_text(millis: i64) -> Option<String> {
    let mut room = [0_u8; DATE_TIME_TEXT];
    // SAFETY: as said at the head of this file; no text has more bytes than the room.
    let status = unsafe { bsonraw_date_time_to_text(millis, room.as_mut_ptr().cast()) };
    (status == BSONRAW_OK).then(|| text_of(&room))
}

/// `bsonraw_date_time_from_text`: the milliseconds, if the text is a time.
pub(crate) fn date_time_from_text(text: &[u8]) -> Option<i64> {
    let mut millis = 0;
    // SAFETY: as said at the head of this file.
    let status = unsafe { bsonraw_date_time_from_text(text.as_ptr(), text.len(), &mut millis) };
    (status == BSONRAW_OK).then_some(millis)
}
