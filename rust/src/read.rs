//! Documents that come from a reader.

use std::fmt;
use std::io::{self, Read};

use crate::raw::{self, RawDocument, RawDocumentBuf};
use crate::whole::Limits;

/// What a reader has next.
pub(crate) enum Next {
    /// Nothing.
    End,
    /// As many bytes as the first four of them say, or fewer where the reader ends.
    Bytes(Vec<u8>),
    /// A length of more bytes than are allowed.
    TooMany(u32),
}

/// Reads the bytes of the next document, this many at most. Memory is taken as bytes come, whatever the length is.
pub(crate) fn next(reader: &mut impl Read, max_bytes: usize) -> io::Result<Next> {
    let mut bytes = Vec::new();
    reader.take(4).read_to_end(&mut bytes)?;
    let Ok(head) = <[u8; 4]>::try_from(&bytes[..]) else {
        return Ok(if bytes.is_empty() { Next::End } else { Next::Bytes(bytes) });
    };
    let len = u32::from_le_bytes(head);
    // A length that no document has is left to who looks at the bytes.
    if (5..=i32::MAX as u32).contains(&len) {
        if len as usize > max_bytes {
            return Ok(Next::TooMany(len));
        }
        reader.take(u64::from(len) - 4).read_to_end(&mut bytes)?;
    }
    Ok(Next::Bytes(bytes))
}

/// Why a reader gives no document.
#[derive(Debug)]
#[non_exhaustive]
pub enum ReadError {
    /// Bytes can't be read. No more documents come.
    Io(io::Error),
    /// The bytes are no document. If that is so because of their length, no more documents come: nothing says where the next begins.
    Raw(raw::Error),
    /// The document has more bytes than allowed. It is passed over.
    TooManyBytes,
}

impl fmt::Display for ReadError {
    fn fmt(&self, f: &mut fmt::Formatter<'_>) -> fmt::Result {
        match self {
            ReadError::Io(error) => error.fmt(f),
            ReadError::Raw(error) => error.fmt(f),
            ReadError::TooManyBytes => f.write_str("more bytes than allowed"),
        }
    }
}

impl std::error::Error for ReadError {
    fn source(&self) -> Option<&(dyn std::error::Error + 'static)> {
        match self {
            ReadError::Io(error) => Some(error),
            ReadError::Raw(error) => Some(error),
            ReadError::TooManyBytes => None,
        }
    }
}

/// Documents one after the other, as in a dump, each with the offset where it begins, from a reader: as
/// [`Documents`](crate::whole::Documents) of the bytes, but one at a time. One has 16 MiB at most, if nothing else is said. A reader that
/// has no buffer of its own is put into a [`BufReader`](std::io::BufReader).
///
/// ```
/// use bsonraw::{rawdoc, whole::DocumentReader};
///
/// let dump = [rawdoc! { "a": 1 }.into_bytes(), rawdoc! { "a": 2 }.into_bytes()].concat();
/// for item in DocumentReader::new(dump.as_slice()) {
///     let (offset, document) = item;
///     println!("{offset}: {}", document?.get_i32("a")?);
/// }
/// # Ok::<(), Box<dyn std::error::Error>>(())
/// ```
#[derive(Debug)]
pub struct DocumentReader<R> {
    reader: R,
    max_bytes: usize,
    offset: u64,
    is_done: bool,
}

impl<R: Read> DocumentReader<R> {
    /// The documents of a reader, of 16 MiB at most each.
    pub fn new(reader: R) -> DocumentReader<R> {
        DocumentReader::with_max_bytes(reader, Limits::default().max_bytes)
    }

    /// The documents of a reader, of this many bytes at most each. Up to twice that many bytes of memory are taken.
    pub fn with_max_bytes(reader: R, max_bytes: usize) -> DocumentReader<R> {
        DocumentReader { reader, max_bytes, offset: 0, is_done: false }
    }

    /// The reader, which is after the last document that came.
    pub fn into_inner(self) -> R {
        self.reader
    }

    /// The next document. Where none comes after it, that is noted.
    fn read(&mut self) -> Result<Option<RawDocumentBuf>, ReadError> {
        self.is_done = true;
        match next(&mut self.reader, self.max_bytes).map_err(ReadError::Io)? {
            Next::End => Ok(None),
            Next::TooMany(len) => {
                let rest = u64::from(len) - 4;
                let passed = io::copy(&mut (&mut self.reader).take(rest), &mut io::sink()).map_err(ReadError::Io)?;
                self.offset += u64::from(len);
                self.is_done = passed < rest;
                Err(ReadError::TooManyBytes)
            }
            Next::Bytes(bytes) => {
                self.offset += bytes.len() as u64;
                let len = bytes.first_chunk().map_or(0, |head| u32::from_le_bytes(*head) as usize);
                self.is_done = len < 5 || len != bytes.len();
                RawDocument::from_bytes(&bytes).map_err(ReadError::Raw)?;
                Ok(Some(RawDocumentBuf::of_made(bytes)))
            }
        }
    }
}

impl<R: Read> Iterator for DocumentReader<R> {
    type Item = (u64, Result<RawDocumentBuf, ReadError>);

    fn next(&mut self) -> Option<Self::Item> {
        if self.is_done {
            return None;
        }
        let offset = self.offset;
        self.read().transpose().map(|document| (offset, document))
    }
}

impl<R: Read> std::iter::FusedIterator for DocumentReader<R> {}
