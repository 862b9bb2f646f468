//! What `bsonraw.h` declares, under the names that it has there; the header says what each is. A test compares both.
//!
//! Only a caller that keeps what the head of the header asks may call these functions. The crate `bsonraw` does, and is what programs
//! use. A program that calls them itself names [`bsonraw_layout_2`], so that it links with no library whose structs are others.

#![no_std]
#![allow(non_camel_case_types)]
#![warn(missing_docs)]

use core::ffi::c_char;

/// The version of the header that this is written by.
pub const BSONRAW_VERSION: u32 = 20000;

/// Declares numbers of an enum of the header, and what a test compares with it: all of them.
macro_rules! numbers {
    ($what:literal $all:ident: $of:ty: $($name:ident = $number:literal,)*) => {
        $(
            #[doc = $what]
            pub const $name: $of = $number;
        )*

        #[doc = concat!($what, " All of them, by name.")]
        pub const $all: &[(&str, $of)] = &[$((stringify!($name), $number),)*];
    };
}

numbers! {
    "How a call ended, of `enum bsonraw_status`."
    STATUSES: i32:
    BSONRAW_OK = 0,
    BSONRAW_NONE = 1,
    BSONRAW_FAULT = 2,
    BSONRAW_BREACH = 3,
    BSONRAW_NO_DOCUMENT = 4,
    BSONRAW_TOO_MANY_BYTES = 5,
    BSONRAW_TOO_DEEP = 6,
    BSONRAW_TOO_LONG = 7,
    BSONRAW_SMALL_BUFFER = 8,
    BSONRAW_BAD_OFFSET = 9,
    BSONRAW_NO_MEMORY = 10,
    BSONRAW_OTHER_KIND = 11,
    BSONRAW_NULL = 12,
    BSONRAW_MISUSE = 13,
    BSONRAW_CUT = 14,
    BSONRAW_NOT_READ = 15,
}

numbers! {
    "A kind of element, of `enum bsonraw_tag`."
    TAGS: u32:
    BSONRAW_TAG_DOUBLE = 1,
    BSONRAW_TAG_STRING = 2,
    BSONRAW_TAG_DOCUMENT = 3,
    BSONRAW_TAG_ARRAY = 4,
    BSONRAW_TAG_BINARY = 5,
    BSONRAW_TAG_UNDEFINED = 6,
    BSONRAW_TAG_OBJECT_ID = 7,
    BSONRAW_TAG_BOOLEAN = 8,
    BSONRAW_TAG_DATETIME = 9,
    BSONRAW_TAG_NULL = 10,
    BSONRAW_TAG_REGEX = 11,
    BSONRAW_TAG_DB_POINTER = 12,
    BSONRAW_TAG_JAVASCRIPT = 13,
    BSONRAW_TAG_SYMBOL = 14,
    BSONRAW_TAG_JAVASCRIPT_WITH_SCOPE = 15,
    BSONRAW_TAG_INT32 = 16,
    BSONRAW_TAG_TIMESTAMP = 17,
    BSONRAW_TAG_INT64 = 18,
    BSONRAW_TAG_DECIMAL128 = 19,
    BSONRAW_TAG_MAX_KEY = 127,
    BSONRAW_TAG_MIN_KEY = 255,
}

numbers! {
    "A kind of fault, of `enum bsonraw_kind`."
    KINDS: u32:
    BSONRAW_MALFORMED = 1,
    BSONRAW_NOT_UTF8 = 2,
}

numbers! {
    "Why bytes are malformed, of `enum bsonraw_reason`."
    REASONS: u32:
    BSONRAW_TOO_SHORT = 1,
    BSONRAW_LENGTH_INCORRECT = 2,
    BSONRAW_NOT_TERMINATED = 3,
    BSONRAW_OVERFLOWED = 4,
    BSONRAW_INVALID_TAG = 5,
    BSONRAW_STRING_HEAD_SHORT = 6,
    BSONRAW_NEGATIVE_LENGTH = 7,
    BSONRAW_STRING_TOO_SMALL = 8,
    BSONRAW_STRING_PAST_END = 9,
    BSONRAW_STRING_NOT_TERMINATED = 10,
    BSONRAW_PAST_END = 11,
    BSONRAW_DOCUMENT_TOO_SMALL = 12,
    BSONRAW_NESTED_NOT_TERMINATED = 13,
    BSONRAW_LENGTH_HEAD_SHORT = 14,
    BSONRAW_NO_TERMINATOR = 15,
    BSONRAW_BAD_BOOLEAN = 16,
    BSONRAW_OLD_NO_INNER = 17,
    BSONRAW_ADD_OVERFLOW = 18,
    BSONRAW_OLD_WRONG_INNER = 19,
    BSONRAW_CODE_TOO_SMALL = 20,
}

numbers! {
    "Why a document isn't canonical, of `enum bsonraw_cause`."
    CAUSES: u32:
    BSONRAW_STOP = 1,
    BSONRAW_VALUE = 2,
    BSONRAW_REPEATED_KEY = 3,
    BSONRAW_ARRAY_KEY = 4,
    BSONRAW_OPTIONS = 5,
}

numbers! {
    "Why a text isn't read, of `enum bsonraw_json_reason`."
    JSON_REASONS: u32:
    BSONRAW_JSON_END_OF_TEXT = 1,
    BSONRAW_JSON_BYTE_ORDER_MARK = 2,
    BSONRAW_JSON_EXPECTED_DOCUMENT = 3,
    BSONRAW_JSON_EXPECTED_KEY = 4,
    BSONRAW_JSON_EXPECTED_COLON = 5,
    BSONRAW_JSON_EXPECTED_COMMA = 6,
    BSONRAW_JSON_EXPECTED_VALUE = 7,
    BSONRAW_JSON_TEXT_BEHIND = 8,
    BSONRAW_JSON_BAD_NUMBER = 9,
    BSONRAW_JSON_INTEGER_TOO_LARGE = 10,
    BSONRAW_JSON_NUMBER_TOO_LARGE = 11,
    BSONRAW_JSON_CONTROL_CHARACTER = 12,
    BSONRAW_JSON_BAD_ESCAPE = 13,
    BSONRAW_JSON_LONE_SURROGATE = 14,
    BSONRAW_JSON_INTERIOR_NUL = 15,
    BSONRAW_JSON_MALFORMED = 16,
    BSONRAW_JSON_INEXACT_DECIMAL = 17,
    BSONRAW_JSON_NOT_UTF8 = 18,
    BSONRAW_JSON_UNSOUND = 19,
}

numbers! {
    "A wrapper of Extended JSON, of `enum bsonraw_json_wrapper`."
    JSON_WRAPPERS: u32:
    BSONRAW_JSON_OID = 1,
    BSONRAW_JSON_NUMBER_INT = 2,
    BSONRAW_JSON_NUMBER_LONG = 3,
    BSONRAW_JSON_NUMBER_DOUBLE = 4,
    BSONRAW_JSON_NUMBER_DECIMAL = 5,
    BSONRAW_JSON_BINARY = 6,
    BSONRAW_JSON_UUID = 7,
    BSONRAW_JSON_DATE = 8,
    BSONRAW_JSON_REGULAR_EXPRESSION = 9,
    BSONRAW_JSON_TIMESTAMP = 10,
    BSONRAW_JSON_CODE = 11,
    BSONRAW_JSON_SCOPE = 12,
    BSONRAW_JSON_DB_POINTER = 13,
    BSONRAW_JSON_SYMBOL = 14,
    BSONRAW_JSON_UNDEFINED = 15,
    BSONRAW_JSON_MIN_KEY = 16,
    BSONRAW_JSON_MAX_KEY = 17,
}

/// Declares a struct of the header of this size, and what a test compares with it: its fields, and where each is. The library's file
/// `exported.c` has the same sizes.
macro_rules! layout {
    ($(#[$what:meta])* struct $name:ident of $size:literal { $($field:ident: $of:ty,)* }) => {
        const _: () = assert!(size_of::<$name>() == $size, "the layout has another size than the library's");

        $(#[$what])*
        #[repr(C)]
        #[derive(Clone, Copy, Debug, Default, PartialEq)]
        pub struct $name {
            $(
                #[doc = concat!("`", stringify!($field), "` of the header's struct.")]
                pub $field: $of,
            )*
        }

        impl $name {
            /// The fields in order: name, type, and offset.
            pub const FIELDS: &'static [(&'static str, &'static str, usize)] =
                &[$((stringify!($field), stringify!($of), core::mem::offset_of!($name, $field)),)*];
        }
    };
}

layout! {
    /// A fault.
    struct bsonraw_error of 32 {
        kind: u32,
        reason: u32,
        number: u64,
        left: u64,
        offset: u64,
    }
}

layout! {
    /// A cursor over elements.
    struct bsonraw_iter of 64 {
        tag: u32,
        key_at: u32,
        key_len: u32,
        payload_at: u32,
        payload_len: u32,
        next: u32,
        document_at: u32,
        document_len: u32,
        error: bsonraw_error,
    }
}

layout! {
    /// An element.
    struct bsonraw_entry of 20 {
        tag: u32,
        key_at: u32,
        key_len: u32,
        payload_at: u32,
        payload_len: u32,
    }
}

layout! {
    /// A value.
    struct bsonraw_value of 80 {
        tag: u32,
        subtype: u32,
        integer: i64,
        bits: u64,
        text_at: u32,
        text_len: u32,
        more_at: u32,
        more_len: u32,
        time: u32,
        increment: u32,
        error: bsonraw_error,
    }
}

layout! {
    /// A builder.
    struct bsonraw_builder of 20 {
        len: u32,
        begins: u32,
        count: u32,
        tag: u32,
        status: i32,
    }
}

layout! {
    /// A reader of documents one after the other.
    struct bsonraw_reader of 56 {
        document_at: u64,
        document_len: u64,
        next: u64,
        error: bsonraw_error,
    }
}

layout! {
    /// What the searches after damage cost so far, and what the last one found.
    struct bsonraw_resync of 24 {
        spent: u64,
        reach: u64,
        believed: u32,
        left_out: u32,
    }
}

layout! {
    /// What is said of a text.
    struct bsonraw_json_report of 40 {
        count: u64,
        offset: u64,
        line: u64,
        column: u64,
        json_reason: u32,
        wrapper: u32,
    }
}

layout! {
    /// What a call over a whole document says.
    struct bsonraw_report of 72 {
        count: u64,
        path_len: u64,
        cause: u32,
        has_key: u32,
        key_at: u64,
        key_len: u64,
        error: bsonraw_error,
    }
}

layout! {
    /// An element of any level.
    struct bsonraw_token of 28 {
        tag: u32,
        depth: u32,
        key_at: u32,
        key_len: u32,
        payload_at: u32,
        payload_len: u32,
        inside: u32,
    }
}

/// Declares the functions, and what a test compares with the header: each declaration as a text.
macro_rules! functions {
    ($(fn $name:ident($($argument:ident: $of:ty),*) -> $result:ty;)*) => {
        extern "C" {
            $(
                #[doc = concat!("`", stringify!($name), "` of the header.")]
                pub fn $name($($argument: $of),*) -> $result;
            )*
        }

        /// The functions: name, result, and the name and type of each argument.
        #[allow(clippy::type_complexity)]
        pub const FUNCTIONS: &[(&str, &str, &[(&str, &str)])] = &[
            $((stringify!($name), stringify!($result), &[$((stringify!($argument), stringify!($of))),*]),)*
        ];
    };
}

extern "C" {
    /// `bsonraw_layout_2` of the header: the structs of the library are those that are declared here, as another layout has another name.
    pub fn bsonraw_layout_2() -> u32;
}

functions! {
    fn bsonraw_version() -> u32;
    fn bsonraw_iter_init(iter: *mut bsonraw_iter, bytes: *const u8, len: usize) -> i32;
    fn bsonraw_iter_next(iter: *mut bsonraw_iter, bytes: *const u8, len: usize) -> i32;
    fn bsonraw_iter_recurse(iter: *const bsonraw_iter, bytes: *const u8, len: usize, child: *mut bsonraw_iter) -> i32;
    fn bsonraw_iter_init_at(
        iter: *mut bsonraw_iter, bytes: *const u8, len: usize, document_at: u32, document_len: u32
    ) -> i32;
    fn bsonraw_iter_find(
        iter: *mut bsonraw_iter, bytes: *const u8, len: usize, key: *const u8, key_len: usize
    ) -> i32;
    fn bsonraw_iter_init_find(
        iter: *mut bsonraw_iter, bytes: *const u8, len: usize, key: *const u8, key_len: usize
    ) -> i32;
    fn bsonraw_iter_find_descendant(
        iter: *mut bsonraw_iter, bytes: *const u8, len: usize, path: *const u8, path_len: usize, separator: u8
    ) -> i32;
    fn bsonraw_iter_init_find_descendant(
        iter: *mut bsonraw_iter, bytes: *const u8, len: usize, path: *const u8, path_len: usize, separator: u8
    ) -> i32;
    fn bsonraw_iter_next_many(
        iter: *mut bsonraw_iter, bytes: *const u8, len: usize, entries: *mut bsonraw_entry, room: usize, count: *mut u64
    ) -> i32;
    fn bsonraw_iter_value(
        iter: *const bsonraw_iter, bytes: *const u8, len: usize, value: *mut bsonraw_value
    ) -> i32;
    fn bsonraw_value_at(
        bytes: *const u8, len: usize, path: *const u8, path_len: usize, separator: u8, tags: *const u32, count: usize,
        value: *mut bsonraw_value
    ) -> i32;
    fn bsonraw_overwrite(
        bytes: *mut u8, len: usize, path: *const u8, path_len: usize, separator: u8, tag: u32, payload: *const u8,
        payload_len: usize
    ) -> i32;
    fn bsonraw_builder_begin(builder: *mut bsonraw_builder, room: *mut u8, room_len: usize) -> i32;
    fn bsonraw_builder_end(builder: *mut bsonraw_builder, room: *mut u8, room_len: usize) -> i32;
    fn bsonraw_append_begin(
        builder: *mut bsonraw_builder, room: *mut u8, room_len: usize, tag: u32, key: *const u8, key_len: usize,
        level: *mut bsonraw_builder
    ) -> i32;
    fn bsonraw_append_cancel(builder: *mut bsonraw_builder, level: *mut bsonraw_builder) -> i32;
    fn bsonraw_append_end(
        builder: *mut bsonraw_builder, room: *mut u8, room_len: usize, level: *mut bsonraw_builder
    ) -> i32;
    fn bsonraw_append_iter(
        builder: *mut bsonraw_builder, room: *mut u8, room_len: usize, iter: *const bsonraw_iter, bytes: *const u8,
        len: usize
    ) -> i32;
    fn bsonraw_append(
        builder: *mut bsonraw_builder, room: *mut u8, room_len: usize, tag: u32, key: *const u8, key_len: usize,
        one: *const u8, one_len: usize, two: *const u8, two_len: usize
    ) -> i32;
    fn bsonraw_append_number(
        builder: *mut bsonraw_builder, room: *mut u8, room_len: usize, tag: u32, key: *const u8, key_len: usize, number: u64
    ) -> i32;
    fn bsonraw_reader_read(reader: *mut bsonraw_reader, bytes: *const u8, len: usize) -> i32;
    fn bsonraw_reader_resync(
        reader: *mut bsonraw_reader, bytes: *const u8, len: usize, max_bytes: usize, max_depth: usize,
        resync: *mut bsonraw_resync
    ) -> i32;
    fn bsonraw_flatten(
        bytes: *const u8, len: usize, max_bytes: usize, max_depth: usize, tokens: *mut bsonraw_token, room: usize,
        report: *mut bsonraw_report, path: *mut u64, path_room: usize
    ) -> i32;
    fn bsonraw_first_fault(
        bytes: *const u8, len: usize, max_bytes: usize, max_depth: usize, report: *mut bsonraw_report, path: *mut u64,
        path_room: usize
    ) -> i32;
    fn bsonraw_check(
        bytes: *const u8, len: usize, max_bytes: usize, max_depth: usize, report: *mut bsonraw_report, path: *mut u64,
        path_room: usize
    ) -> i32;
    fn bsonraw_canonical(
        bytes: *const u8, len: usize, max_bytes: usize, max_depth: usize, form: *mut u8, form_len: usize,
        report: *mut bsonraw_report, path: *mut u64, path_room: usize
    ) -> i32;
    fn bsonraw_compare(
        one: *const u8, one_len: usize, other: *const u8, other_len: usize, order: *mut i32
    ) -> i32;
    fn bsonraw_json(
        bytes: *const u8, len: usize, max_bytes: usize, max_depth: usize, canonical: u32, indented: u32, text: *mut u8,
        text_len: usize, report: *mut bsonraw_report, path: *mut u64, path_room: usize
    ) -> i32;
    fn bsonraw_from_json(
        text: *const u8, len: usize, max_bytes: usize, max_depth: usize, document: *mut u8, document_len: usize,
        report: *mut bsonraw_json_report
    ) -> i32;
    fn bsonraw_oid_to_hex(id: *const u8, hex: *mut c_char) -> i32;
    fn bsonraw_oid_from_hex(hex: *const u8, hex_len: usize, id: *mut u8) -> i32;
    fn bsonraw_oid_time(id: *const u8) -> u32;
    fn bsonraw_decimal128_to_text(decimal: *const u8, text: *mut c_char) -> i32;
    fn bsonraw_decimal128_from_text(text: *const u8, text_len: usize, decimal: *mut u8) -> i32;
    fn bsonraw_date_time_to_text(millis: i64, text: *mut c_char) -> i32;
    fn bsonraw_date_time_from_text(text: *const u8, text_len: usize, millis: *mut i64) -> i32;
    fn bsonraw_fault_text(error: *const bsonraw_error, text: *mut c_char, room: usize) -> usize;
    fn bsonraw_json_fault_text(report: *const bsonraw_json_report, text: *mut c_char, room: usize) -> usize;
    fn bsonraw_path_text(
        bytes: *const u8, len: usize, path: *const u64, path_len: usize, text: *mut c_char, room: usize
    ) -> usize;
}
