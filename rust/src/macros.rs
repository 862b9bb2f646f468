//! Documents and values as they are written down.

/// A [`RawDocumentBuf`](crate::raw::RawDocumentBuf) of these elements. A value is `null`, a list in brackets, a document in braces, or
/// an expression of what a [`RawBson`](crate::raw::RawBson) can be made of; a key is an expression of a text.
///
/// ```
/// use bsonraw::rawdoc;
///
/// let key = "born";
/// let document = rawdoc! {
///     "name": "Ada",
///     key: 1800 + 15,
///     "tags": ["maths", "poetry", null],
///     "home": { "city": "London" },
/// };
/// assert_eq!(document.get_i32("born")?, 1815);
/// assert_eq!(document.get_array("tags")?.get_str(1)?, "poetry");
/// assert_eq!(document.get_document("home")?.get_str("city")?, "London");
/// # Ok::<(), bsonraw::raw::ValueAccessError>(())
/// ```
///
/// # Panics
///
/// Where a key or a regular expression has a 0: [`try_append`](crate::raw::RawDocumentBuf::try_append) returns that as an error.
#[macro_export]
macro_rules! rawdoc {
    ($($content:tt)*) => {{
        #[allow(unused_mut)]
        let mut document = $crate::raw::RawDocumentBuf::new();
        $crate::__put!(rawbson document () $($content)*);
        document
    }};
}

/// A [`RawBson`](crate::raw::RawBson) of this value, as in [`rawdoc`].
///
/// ```
/// use bsonraw::{raw::RawBson, rawbson};
///
/// assert_eq!(rawbson!(null), RawBson::Null);
/// assert_eq!(rawbson!([1, "two"]).as_array().unwrap().get_str(1)?, "two");
/// assert_eq!(rawbson!({ "a": true }).as_document().unwrap().get_bool("a")?, true);
/// # Ok::<(), bsonraw::raw::ValueAccessError>(())
/// ```
///
/// # Panics
///
/// As [`rawdoc`] does.
#[macro_export]
macro_rules! rawbson {
    (null) => {
        $crate::raw::RawBson::Null
    };
    ([ $($content:tt)* ]) => {{
        #[allow(unused_mut)]
        let mut array = $crate::raw::RawArrayBuf::new();
        $crate::__push!(rawbson array $($content)*);
        $crate::raw::RawBson::Array(array)
    }};
    ({ $($content:tt)* }) => {
        $crate::raw::RawBson::Document($crate::rawdoc! { $($content)* })
    };
    ($value:expr) => {
        $crate::raw::RawBson::from($value)
    };
}

/// A [`Document`](crate::Document) of these elements, written as in [`rawdoc`]; a value is an expression of what a
/// [`Bson`](crate::Bson) can be made of. Of a repeated key the last value is taken.
///
/// ```
/// use bsonraw::{doc, Bson};
///
/// let document = doc! { "name": "Ada", "born": 1815, "tags": ["maths", null], "home": { "city": "London" } };
/// assert_eq!(document.get_i32("born")?, 1815);
/// assert_eq!(document.get_array("tags")?[1], Bson::Null);
/// assert_eq!(document.get_document("home")?.get_str("city")?, "London");
/// # Ok::<(), bsonraw::document::ValueAccessError>(())
/// ```
#[macro_export]
macro_rules! doc {
    ($($content:tt)*) => {{
        #[allow(unused_mut)]
        let mut document = $crate::Document::new();
        $crate::__put!(bson document () $($content)*);
        document
    }};
}

/// A [`Bson`](crate::Bson) of this value, as in [`doc`].
///
/// ```
/// use bsonraw::{bson, doc, Bson};
///
/// assert_eq!(bson!(null), Bson::Null);
/// assert_eq!(bson!([5, false]), Bson::Array(vec![Bson::Int32(5), Bson::Boolean(false)]));
/// assert_eq!(bson!({ "a": true }), Bson::Document(doc! { "a": true }));
/// ```
#[macro_export]
macro_rules! bson {
    (null) => {
        $crate::Bson::Null
    };
    ([ $($content:tt)* ]) => {{
        #[allow(unused_mut)]
        let mut array = $crate::Array::new();
        $crate::__push!(bson array $($content)*);
        $crate::Bson::Array(array)
    }};
    ({ $($content:tt)* }) => {
        $crate::Bson::Document($crate::doc! { $($content)* })
    };
    ($value:expr) => {
        $crate::Bson::from($value)
    };
}

/// Appends what a list in brackets has, value by value, of the kind that the macro of this name makes.
#[doc(hidden)]
#[macro_export]
macro_rules! __push {
    ($of:ident $array:ident) => {};
    ($of:ident $array:ident null $(, $($rest:tt)*)?) => {
        $crate::__push!(@ $of $array, $crate::$of!(null));
        $crate::__push!($of $array $($($rest)*)?);
    };
    ($of:ident $array:ident [ $($inside:tt)* ] $(, $($rest:tt)*)?) => {
        $crate::__push!(@ $of $array, $crate::$of!([ $($inside)* ]));
        $crate::__push!($of $array $($($rest)*)?);
    };
    ($of:ident $array:ident { $($inside:tt)* } $(, $($rest:tt)*)?) => {
        $crate::__push!(@ $of $array, $crate::$of!({ $($inside)* }));
        $crate::__push!($of $array $($($rest)*)?);
    };
    ($of:ident $array:ident $value:expr $(, $($rest:tt)*)?) => {
        $crate::__push!(@ $of $array, $value);
        $crate::__push!($of $array $($($rest)*)?);
    };
    (@ rawbson $array:ident, $value:expr) => {
        $array.push($value)
    };
    (@ bson $array:ident, $value:expr) => {
        $array.push($crate::Bson::from($value))
    };
}

/// Appends what a document in braces has, element by element, of the kind that the macro of this name makes. The tokens in brackets are
/// those of a key so far.
#[doc(hidden)]
#[macro_export]
macro_rules! __put {
    ($of:ident $document:ident ()) => {};
    ($of:ident $document:ident ($($key:tt)+) : null $(, $($rest:tt)*)?) => {
        $crate::__put!(@ $of $document, $($key)+, $crate::$of!(null));
        $crate::__put!($of $document () $($($rest)*)?);
    };
    ($of:ident $document:ident ($($key:tt)+) : [ $($inside:tt)* ] $(, $($rest:tt)*)?) => {
        $crate::__put!(@ $of $document, $($key)+, $crate::$of!([ $($inside)* ]));
        $crate::__put!($of $document () $($($rest)*)?);
    };
    ($of:ident $document:ident ($($key:tt)+) : { $($inside:tt)* } $(, $($rest:tt)*)?) => {
        $crate::__put!(@ $of $document, $($key)+, $crate::$of!({ $($inside)* }));
        $crate::__put!($of $document () $($($rest)*)?);
    };
    ($of:ident $document:ident ($($key:tt)+) : $value:expr $(, $($rest:tt)*)?) => {
        $crate::__put!(@ $of $document, $($key)+, $value);
        $crate::__put!($of $document () $($($rest)*)?);
    };
    (@ rawbson $document:ident, $key:expr, $value:expr) => {
        $document.append($key, $value)
    };
    (@ bson $document:ident, $key:expr, $value:expr) => {
        $document.insert($key, $value)
    };
    ($of:ident $document:ident ($($key:tt)*) $more:tt $($rest:tt)*) => {
        $crate::__put!($of $document ($($key)* $more) $($rest)*);
    };
}
