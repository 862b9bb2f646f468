//! 20,000 documents made at random, every second one damaged, beside a slow and plain reader of the format: the same elements,
//! values, kinds and keys of errors, look-ups, first faults with their places, and what is made of them.
//!
//! Where `BSONRAW_MADE` names a file, the documents that begin with their length and end with a 0 are written there, one after the other,
//! for programs that read them otherwise.

use bsonraw::raw::{Error, ErrorKind, RawArray, RawArrayBuf, RawBsonRef, RawDocument, RawDocumentBuf};
use bsonraw::raw::{ValueAccessErrorKind, ValueAccessResult};
use bsonraw::whole::{Documents, Limits, ProblemKind};

use crate::maker;
use crate::plain::{self, Fault, Frame};

const COUNT: usize = 20_000;
const SEED: u64 = 0x1882_0323;

/// Fewer where each takes long, as under valgrind.
fn count() -> usize {
    std::env::var("BSONRAW_COUNT").map_or(COUNT, |count| count.parse().expect("BSONRAW_COUNT is a number"))
}

fn fault(error: &Error) -> Fault {
    Fault { is_utf8: matches!(error.kind, ErrorKind::Utf8EncodingError(_)), key: error.key().map(str::to_string) }
}

/// Whether a value, or the error, is what the element means.
fn is_meant(frame: &Frame<'_>, value: &Result<RawBsonRef<'_>, Error>) -> bool {
    match (plain::value(frame), value) {
        (Err(wanted), Err(error)) => fault(error) == wanted,
        (Ok(wanted), Ok(value)) => match value {
            RawBsonRef::Double(double) => frame.payload == double.to_le_bytes(),
            RawBsonRef::Array(array) => frame.tag == 4 && frame.payload == array.as_bytes(),
            RawBsonRef::DbPointer(pointer) => {
                let end = frame.payload.len() - 13;
                let namespace = &frame.payload[4..end];
                let id = pointer.id().bytes();
                frame.tag == 12 && pointer.namespace().as_bytes() == namespace && frame.payload[end + 1..] == id
            }
            value => *value == wanted && value.element_type() as u8 == frame.tag,
        },
        _ => false,
    }
}

fn look_at_elements(document: &RawDocument, frames: &[Frame<'_>], stop: Option<&Fault>) {
    let mut elements = document.iter_elements();
    let mut values = document.iter();
    for frame in frames {
        let element = elements.next().unwrap().unwrap();
        assert_eq!((element.key(), element.element_type() as u8), (frame.key, frame.tag));
        assert_eq!((element.payload(), element.len()), (frame.payload, frame.payload.len()));
        assert!(is_meant(frame, &element.value()));
        match values.next().unwrap() {
            Ok((key, value)) => assert!(key == frame.key && is_meant(frame, &Ok(value))),
            Err(error) => assert!(is_meant(frame, &Err(error))),
        }
    }
    let end = elements.next().map(|item| fault(&item.err().unwrap()));
    assert_eq!(end.as_ref(), stop);
    assert_eq!(values.next().map(|item| fault(&item.unwrap_err())).as_ref(), stop);
    assert!(elements.next().is_none() && values.next().is_none());
}

/// What a look-up has to return: the meaning of an element, the stop, or nothing.
fn is_found(frame: Option<&Frame<'_>>, stop: Option<&Fault>, found: Result<Option<RawBsonRef<'_>>, Error>) -> bool {
    match (frame, stop, found) {
        (Some(frame), _, Ok(Some(value))) => is_meant(frame, &Ok(value)),
        (Some(frame), _, Err(error)) => is_meant(frame, &Err(error)),
        (None, Some(stop), Err(error)) => fault(&error) == *stop,
        (None, None, Ok(None)) => true,
        _ => false,
    }
}

/// Whether a getter's result is what the look-up of any kind gives.
fn is_got<T: PartialEq>(
    got: &ValueAccessResult<T>,
    found: &Result<Option<RawBsonRef<'_>>, Error>,
    read: impl FnOnce(RawBsonRef<'_>) -> Option<T>,
) -> bool {
    match (got, found) {
        (Ok(got), Ok(Some(value))) => read(*value).is_some_and(|value| value == *got),
        (Err(error), found) => match (&error.kind, found) {
            (ValueAccessErrorKind::NotPresent, Ok(None)) => true,
            (ValueAccessErrorKind::UnexpectedType { actual, .. }, Ok(Some(value))) => *actual == value.element_type(),
            (ValueAccessErrorKind::InvalidBson(inner), Err(error)) => inner == error,
            _ => false,
        },
        _ => false,
    }
}

fn look_up(document: &RawDocument, frames: &[Frame<'_>], stop: Option<&Fault>) {
    for key in frames.iter().map(|frame| frame.key).chain(["no such key"]) {
        let first = frames.iter().find(|frame| frame.key == key);
        assert!(is_found(first, stop, document.get(key)));
        let found = document.get(key);
        assert!(is_got(&document.get_i32(key), &found, |it| it.as_i32()));
        assert!(is_got(&document.get_bool(key), &found, |it| it.as_bool()));
        assert!(is_got(&document.get_str(key).map(str::to_string), &found, |it| it.as_str().map(str::to_string)));
    }
}

fn look_up_numbers(array: &RawArray, frames: &[Frame<'_>], stop: Option<&Fault>) {
    for number in 0..frames.len() + 2 {
        // the fault is in the place of the element after the last
        let stop = stop.filter(|_| number == frames.len());
        assert!(is_found(frames.get(number), stop, array.get(number)));
        assert!(is_got(&array.get_i64(number), &array.get(number), |it| it.as_i64()));
    }
}

/// A document without a fault in its own level comes back by appends.
fn append_all(document: &RawDocument) {
    let mut made = RawDocumentBuf::new();
    let mut pushed = RawArrayBuf::new();
    for element in document {
        let (key, value) = element.unwrap();
        made.append_ref(key, value);
        pushed.push(value.to_raw_bson());
    }
    assert_eq!(*made, *document);
    let mut numbers = pushed.iter_keys();
    assert!((0..document.iter().count()).all(|number| numbers.next() == Some(number.to_string())));
    for (pushed, value) in pushed.into_iter().zip(document) {
        assert_eq!(format!("{:?}", pushed.unwrap().to_raw_bson()), format!("{:?}", value.unwrap().1.to_raw_bson()));
    }
}

/// The keys of an array's elements.
trait Keys {
    fn iter_keys(&self) -> std::vec::IntoIter<String>;
}

impl Keys for RawArrayBuf {
    fn iter_keys(&self) -> std::vec::IntoIter<String> {
        let document = RawDocument::from_bytes(self.as_bytes()).unwrap();
        document.iter_elements().map(|it| it.unwrap().key().to_string()).collect::<Vec<_>>().into_iter()
    }
}

fn look_at_all_levels(document: &RawDocument) {
    let limits = Limits::default();
    let wanted = plain::first_fault(document.as_bytes(), 0, &[]);
    let problem = document.first_fault_with(limits);
    let tokens = document.flatten_with(limits);
    let form = document.canonical_with(limits);
    let Some(wanted) = wanted else {
        assert_eq!(problem, None);
        assert_eq!(tokens.unwrap().len(), plain::count(document.as_bytes()));
        let form = form.unwrap();
        assert_eq!(document.validate_with(limits).is_ok(), *form == *document);
        assert_eq!(form.validate_with(limits), Ok(()));
        assert_eq!(form.canonical_with(limits).unwrap(), form);
        assert!(document.to_json_with(limits, Default::default()).is_ok());
        return;
    };
    let problem = problem.unwrap();
    let place = problem.place.clone().unwrap();
    let is_utf8 = matches!(problem.kind, ProblemKind::Fault(ErrorKind::Utf8EncodingError(_)));
    assert_eq!(
        (is_utf8, place.path, place.offset, place.key),
        (wanted.is_utf8, wanted.path, wanted.offset, wanted.key)
    );
    assert_eq!(tokens.err().as_ref(), Some(&problem));
    assert_eq!(form.unwrap_err(), problem);
    assert_eq!(document.to_json_with(limits, Default::default()).unwrap_err(), problem);
    assert!(document.validate_with(limits).is_err());
}

#[test]
fn made_documents_are_read_as_by_the_plain_reader() {
    let mut whole = Vec::new();
    let mut faults = 0;
    for data in maker::all(SEED, count()) {
        let Ok(document) = RawDocument::from_bytes(&data) else {
            assert!(!plain::is_document(&data));
            continue;
        };
        assert!(plain::is_document(&data));
        let (frames, stop) = plain::walk(&data);
        let stop = stop.as_ref().map(|(fault, _)| fault);
        look_at_elements(document, &frames, stop);
        look_up(document, &frames, stop);
        look_up_numbers(plain::with_array(&data).get_array("0").unwrap(), &frames, stop);
        look_at_all_levels(document);
        if stop.is_none() && frames.iter().all(|frame| plain::value(frame).is_ok()) {
            append_all(document);
        } else {
            faults += 1;
        }
        whole.extend(data);
    }
    assert!(faults > count() / 10, "some of the documents have faults");
    assert!(Documents::new(&whole).all(|(_, document)| document.is_ok()));
    if let Some(file) = std::env::var_os("BSONRAW_MADE") {
        std::fs::write(file, whole).unwrap();
    }
}
