/* bsonraw.h: raw BSON documents, read as they lie in memory. The functions that are declared without a body, up to the part on
 * daily use, are proved against the contracts of the crate bsonraw_c, which say what each input gives. The inline functions, and
 * those of that part, are tested. The head of each part says which its calls are.
 *
 * What a caller has to keep:
 *   - A pointer with its length names memory that may be read, or where it isn't const written, for the whole call. NULL with a
 *     length of 0 is no bytes, or no room; NULL with a length, or in place of a struct, a number or a text that a call needs, gives
 *     BSONRAW_NULL. Pointers to structs and to numbers are aligned.
 *   - Memory that a call writes overlaps nothing else that is passed to it, and no other thread touches it meanwhile.
 *     Memory that is only read may be read by any number of calls at once, and changes by none.
 *   - malloc, realloc and free come from one allocator, as the C library's do, and align as they do, for up to 16 bytes. No
 *     call is made from a signal handler, nor from the forked child of a process with threads.
 *   - Depth takes memory, and no stack.
 *
 * None writes past what it was given. A call takes memory where its comment, or that of its part, says so. No call keeps memory, or a
 * pointer, after it returns, but those of a buffer and a stream, up to bsonraw_buffer_free and bsonraw_stream_free; a stream keeps its
 * file, and a buffer the function and the context of bsonraw_buffer_init_with. The calls named .._new give their memory to the caller.
 */
#ifndef BSONRAW_H
#define BSONRAW_H

#include <stddef.h>
#include <stdint.h>
#include <stdio.h>
#include <string.h>

#ifdef __cplusplus
extern "C" {
#endif

#define BSONRAW_VERSION 20000 /* what bsonraw_version returns: 2.0.0 */

/* How a call ended. The declaration of a call says which of these it returns, and in which order it looks for them. */
enum bsonraw_status {
    BSONRAW_OK = 0,             /* what was asked for is there */
    BSONRAW_NONE = 1,           /* no more elements, or documents; no element with the key */
    BSONRAW_FAULT = 2,          /* a fault: see struct bsonraw_error. Of a builder: a text that it refuses */
    BSONRAW_BREACH = 3,         /* the document isn't canonical */
    BSONRAW_NO_DOCUMENT = 4,    /* the bytes have no sound envelope: the reason is 1, 2 or 3 */
    BSONRAW_TOO_MANY_BYTES = 5, /* the document has more than max_bytes */
    BSONRAW_TOO_DEEP = 6,       /* more levels than max_depth, of which the document itself is one */
    BSONRAW_TOO_LONG = 7,       /* a document would have over 2147483647 bytes */
    BSONRAW_SMALL_BUFFER = 8,   /* the room is too small; how much is needed is said */
    BSONRAW_BAD_OFFSET = 9,     /* the fields that were given name no place in the bytes */
    BSONRAW_NO_MEMORY = 10,     /* memory was refused */
    BSONRAW_OTHER_KIND = 11,    /* the element is of another kind. Of a builder: the parts aren't those of the kind */
    BSONRAW_NULL = 12,          /* NULL with a length, or for what is needed */
    BSONRAW_MISUSE = 13,        /* a call out of turn. Of a builder: a level is open in it, or the level that is ended isn't the one that is
                                   open in it. Of a buffer: a level is open, or none is, the document is finished, or a key is given in an
                                   array; of changes, one that goes through another */
    BSONRAW_CUT = 14,           /* a file ends within a document */
    BSONRAW_NOT_READ = 15       /* a file couldn't be read, and errno says why */
};

/* The kinds of elements, and what the payload of each is, as BSON stores it: nothing is converted, numbers are
 * little-endian, and none is aligned. A string is its length in 4 bytes, then the text and a 0, which the length counts. */
enum bsonraw_tag {
    BSONRAW_TAG_DOUBLE = 1,                 /* 8 bytes, IEEE 754 */
    BSONRAW_TAG_STRING = 2,                 /* a string */
    BSONRAW_TAG_DOCUMENT = 3,               /* a document */
    BSONRAW_TAG_ARRAY = 4,                  /* a document, whose keys are 0, 1, 2 .. in a canonical one */
    BSONRAW_TAG_BINARY = 5,                 /* how many bytes it has in 4 bytes, the subtype in 1, the bytes */
    BSONRAW_TAG_UNDEFINED = 6,              /* no byte */
    BSONRAW_TAG_OBJECT_ID = 7,              /* 12 bytes */
    BSONRAW_TAG_BOOLEAN = 8,                /* 1 byte, 0 or 1 */
    BSONRAW_TAG_DATETIME = 9,               /* 8 bytes, signed: milliseconds from 1970 on */
    BSONRAW_TAG_NULL = 10,                  /* no byte */
    BSONRAW_TAG_REGEX = 11,                 /* the pattern and a 0, the options and a 0 */
    BSONRAW_TAG_DB_POINTER = 12,            /* a string, 12 bytes */
    BSONRAW_TAG_JAVASCRIPT = 13,            /* a string */
    BSONRAW_TAG_SYMBOL = 14,                /* a string */
    BSONRAW_TAG_JAVASCRIPT_WITH_SCOPE = 15, /* the payload's length in 4 bytes, a string, a document */
    BSONRAW_TAG_INT32 = 16,                 /* 4 bytes, signed */
    BSONRAW_TAG_TIMESTAMP = 17,             /* the increment in 4 bytes, the time in 4 bytes, unsigned */
    BSONRAW_TAG_INT64 = 18,                 /* 8 bytes, signed */
    BSONRAW_TAG_DECIMAL128 = 19,            /* 16 bytes */
    BSONRAW_TAG_MAX_KEY = 127,              /* no byte */
    BSONRAW_TAG_MIN_KEY = 255               /* no byte */
};

/* What kind of fault. */
enum bsonraw_kind { BSONRAW_MALFORMED = 1, BSONRAW_NOT_UTF8 = 2 };

/* Why bytes are malformed; the names in brackets are the fields of struct bsonraw_error that it fills. The first three are
 * why bytes are no document, and come as a fault too: of the scope of a code with scope. */
enum bsonraw_reason {
    BSONRAW_TOO_SHORT = 1,              /* under five bytes */
    BSONRAW_LENGTH_INCORRECT = 2,       /* the first four bytes aren't how many there are */
    BSONRAW_NOT_TERMINATED = 3,         /* the last byte isn't 0 */
    BSONRAW_OVERFLOWED = 4,             /* no byte is left where an element or the final 0 should be */
    BSONRAW_INVALID_TAG = 5,            /* no kind has this tag [number: the tag] */
    BSONRAW_STRING_HEAD_SHORT = 6,      /* under four bytes are left for a string's length [left] */
    BSONRAW_NEGATIVE_LENGTH = 7,        /* a length is under 0 */
    BSONRAW_STRING_TOO_SMALL = 8,       /* a string's length is 0, and it counts the string's 0 */
    BSONRAW_STRING_PAST_END = 9,        /* a string goes past the end [number, left] */
    BSONRAW_STRING_NOT_TERMINATED = 10, /* a string's last byte isn't 0 */
    BSONRAW_PAST_END = 11,              /* a payload goes past the end [number, left] */
    BSONRAW_DOCUMENT_TOO_SMALL = 12,    /* a nested document's length is under five [number: the length] */
    BSONRAW_NESTED_NOT_TERMINATED = 13, /* a nested document's last byte isn't 0 */
    BSONRAW_LENGTH_HEAD_SHORT = 14,     /* under four bytes are left for a length [left] */
    BSONRAW_NO_TERMINATOR = 15,         /* no 0 ends a pattern or options */
    BSONRAW_BAD_BOOLEAN = 16,           /* a boolean is neither 0 nor 1 [number: the byte] */
    BSONRAW_OLD_NO_INNER = 17,          /* a binary of subtype 2 has no four bytes for its inner length */
    BSONRAW_ADD_OVERFLOW = 18,          /* the inner length of one is from -4 to -1 */
    BSONRAW_OLD_WRONG_INNER = 19,       /* the inner length of one isn't that of its bytes */
    BSONRAW_CODE_TOO_SMALL = 20         /* a code with scope has under 14 bytes */
    /* 21 to 24 never come: they are taken by reasons of writing and of limits, of which the statuses tell */
};

/* Why a document isn't canonical. */
enum bsonraw_cause {
    BSONRAW_STOP = 1,         /* no element is there, and not the final 0 either */
    BSONRAW_VALUE = 2,        /* the payload is no value of its kind */
    BSONRAW_REPEATED_KEY = 3, /* an earlier element of the same document has this key */
    BSONRAW_ARRAY_KEY = 4,    /* the key isn't the decimal of the element's number in its array */
    BSONRAW_OPTIONS = 5       /* the options of a regular expression aren't in ascending order */
};

/* The compiler warns where what such a call returns isn't used. */
#if defined(__GNUC__)
#define BSONRAW_USE __attribute__((warn_unused_result))
#else
#define BSONRAW_USE
#endif

/* And GCC, where memory is shorter than the length that is passed with it: of these arguments by their numbers. */
#if defined(__GNUC__) && !defined(__clang__) && __GNUC__ >= 10
#define BSONRAW_READS(memory, len) __attribute__((access(read_only, memory, len)))
#define BSONRAW_WRITES(memory, len) __attribute__((access(write_only, memory, len)))
#define BSONRAW_CHANGES(memory, len) __attribute__((access(read_write, memory, len)))
#else
#define BSONRAW_READS(memory, len)
#define BSONRAW_WRITES(memory, len)
#define BSONRAW_CHANGES(memory, len)
#endif

/* What this points to overlaps nothing else that is passed. */
#if defined(__GNUC__)
#define BSONRAW_RESTRICT __restrict
#else
#define BSONRAW_RESTRICT
#endif

#if defined(__cplusplus) || (defined(__STDC_VERSION__) && __STDC_VERSION__ >= 199901L)
#define BSONRAW_LOCAL static inline
#elif defined(__GNUC__)
#define BSONRAW_LOCAL static __inline__
#else
#define BSONRAW_LOCAL static
#endif

#if defined(__cplusplus) && __cplusplus >= 201103L
#define BSONRAW_NIL nullptr
#else
#define BSONRAW_NIL NULL
#endif

/* The library exports the inline functions, too, for languages that see no bodies: with -DBSONRAW_INLINE=extern, as for bindgen,
 * they are functions like others. */
#ifndef BSONRAW_INLINE
#define BSONRAW_INLINE BSONRAW_LOCAL
#endif

#ifdef __cplusplus
#define BSONRAW_INT32(number) static_cast<int32_t>(number)
#define BSONRAW_BYTE(number) static_cast<uint8_t>(number)
#define BSONRAW_UINT32(number) static_cast<uint32_t>(number)
#define BSONRAW_UINT64(number) static_cast<uint64_t>(number)
#define BSONRAW_DOUBLE(number) static_cast<double>(number)
#define BSONRAW_BYTES(pointer) reinterpret_cast<const uint8_t *>(pointer)
#define BSONRAW_CHARS(pointer) reinterpret_cast<const char *>(pointer)
#define BSONRAW_ROOM(pointer) reinterpret_cast<uint8_t *>(pointer)
#define BSONRAW_TEXT(bytes, at, len) static_cast<int>(len), reinterpret_cast<const char *>(bytes) + (at)
#else
#define BSONRAW_INT32(number) (int32_t)(number)
#define BSONRAW_BYTE(number) (uint8_t)(number)
#define BSONRAW_UINT32(number) (uint32_t)(number)
#define BSONRAW_UINT64(number) (uint64_t)(number)
#define BSONRAW_DOUBLE(number) (double)(number)
#define BSONRAW_BYTES(pointer) (const uint8_t *)(pointer)
#define BSONRAW_CHARS(pointer) (const char *)(pointer)
#define BSONRAW_ROOM(pointer) (uint8_t *)(pointer)
#define BSONRAW_TEXT(bytes, at, len) (int)(len), (const char *)(bytes) + (at) /* a key or a text as two arguments of printf, for "%.*s" */
#endif

/* A literal as two arguments: a key, a path or a text, and its length. A pointer doesn't compile here: BSONRAW_STR has those. */
#define BSONRAW_KEY(literal) BSONRAW_BYTES("" literal ""), sizeof("" literal "") - 1

/* A text that a 0 ends as two arguments; it is looked at twice, and NULL is an empty text. */
#define BSONRAW_STR(text) bsonraw_str_bytes(text), bsonraw_str_len(text)

BSONRAW_LOCAL const uint8_t *bsonraw_str_bytes(const char *text) {
    return BSONRAW_BYTES(text ? text : "");
}

BSONRAW_LOCAL size_t bsonraw_str_len(const char *text) {
    return text ? strlen(text) : 0;
}

/* The version of the library: 20000 for 2.0.0. The last four digits are raised with what is added, the others with what is
 * changed: a program takes the library that it was compiled for, and later ones that differ in the last four.
 *
 *     if (bsonraw_version() < BSONRAW_VERSION || bsonraw_version() / 10000 != BSONRAW_VERSION / 10000) abort();
 */
uint32_t bsonraw_version(void);

/* The number of the layout of the structs. Another layout has another name: a program in a language that declares the structs itself
 * names this function, so that it doesn't link with a library whose structs are others. */
BSONRAW_INLINE uint32_t bsonraw_layout_2(void) {
    return 2;
}

/* A fault: what is wrong, and where. */
struct bsonraw_error {
    uint32_t kind;   /* enum bsonraw_kind; 0 no fault */
    uint32_t reason; /* enum bsonraw_reason; 0 none */
    uint64_t number; /* the tag or the byte at fault, the length, or how many bytes are needed */
    uint64_t left;   /* how many there are, up to the end of the document, its final 0 counted, or of a code with scope */
    uint64_t offset; /* where the element at fault begins, or where none does */
};

/* ---- a cursor over elements ------------------------------------------------------------------------------------------
 *
 * Proved, but bsonraw_iter_key, which is tested.
 * Each of these calls returns an int32_t of enum bsonraw_status, takes no memory, and may be given any bytes, and a cursor
 * with any fields: it reads nothing outside of the bytes. A call that goes on from a cursor whose fields name no document in
 * the bytes, or no place in it, returns BSONRAW_BAD_OFFSET. All offsets are from the first of the bytes, in nested documents
 * too. Where a cursor is at no element, its tag is 0, key_at and payload_at are the length of the bytes (4294967295 where they
 * are more), and key_len and payload_len are 0; but at a stop with a key, key_at and key_len are that key's. The other fields say
 * then where it goes on: document_at and document_len the document, next the place. After BSONRAW_NO_DOCUMENT and BSONRAW_OTHER_KIND
 * it is in no document: document_at, document_len and next are 0. After BSONRAW_BAD_OFFSET of a call that goes on they are as they
 * were.
 */

/* A cursor. It is at one element of a document, or at none. */
struct bsonraw_iter {
    uint32_t tag;          /* enum bsonraw_tag */
    uint32_t key_at;       /* the key; no 0 is in it, and one is after it */
    uint32_t key_len;
    uint32_t payload_at;   /* the payload, as BSON stores it */
    uint32_t payload_len;
    uint32_t next;         /* where the next element begins */
    uint32_t document_at;  /* the document */
    uint32_t document_len;
    struct bsonraw_error error; /* the last fault that was met in this document; all 0 before any */
};

/* Sets a cursor before the first element: BSONRAW_OK. Else BSONRAW_NO_DOCUMENT, and error says why.
 * BSONRAW_OK of bsonraw_iter_next says that the cursor is at the next element; BSONRAW_NONE, that there are no more;
 * BSONRAW_FAULT, that none is where the next should begin: error says why, and the key is that of the stop, if it has
 * one. The cursor then stays there. The key of an element is UTF-8, and so are the texts of a regular expression; the payload
 * lies within its document and has the length of its kind; a string and a nested document end with their 0. The rest of a
 * value is looked at by bsonraw_iter_value, and what is inside a nested document by a cursor of its own.
 *
 *     struct bsonraw_iter it;
 *     if (bsonraw_iter_init(&it, bytes, len) == BSONRAW_OK)
 *         while (bsonraw_iter_next(&it, bytes, len) == BSONRAW_OK)
 *             printf("%02x %.*s\n", it.tag, BSONRAW_TEXT(bytes, it.key_at, it.key_len));
 */
BSONRAW_USE int32_t bsonraw_iter_init(struct bsonraw_iter *iter, const uint8_t *bytes, size_t len);
BSONRAW_USE int32_t bsonraw_iter_next(struct bsonraw_iter *iter, const uint8_t *bytes, size_t len);

/* Sets a cursor before the first element of the document or the array that iter is at: BSONRAW_OK; BSONRAW_OTHER_KIND where
 * it is at neither; BSONRAW_NO_DOCUMENT where the fields of iter were changed, so that they name bytes that are none.
 *
 *     struct bsonraw_iter it, child;
 *     if (bsonraw_iter_init(&it, bytes, len) == BSONRAW_OK)
 *         while (bsonraw_iter_next(&it, bytes, len) == BSONRAW_OK)
 *             if (bsonraw_iter_recurse(&it, bytes, len, &child) == BSONRAW_OK)
 *                 while (bsonraw_iter_next(&child, bytes, len) == BSONRAW_OK)
 *                     printf("%02x\n", child.tag);
 *
 * bsonraw_iter_init_at sets one before the first element of the document of document_len bytes at document_at, such as a
 * scope: BSONRAW_BAD_OFFSET where fewer are there, or they end past 4294967295, otherwise BSONRAW_NO_DOCUMENT where they
 * are no document, and error says why.
 *
 *     struct bsonraw_iter it, scope;
 *     struct bsonraw_value v;
 *     if (bsonraw_iter_init_find(&it, bytes, len, BSONRAW_KEY("run")) == BSONRAW_OK &&
 *         bsonraw_iter_value(&it, bytes, len, &v) == BSONRAW_OK && v.tag == BSONRAW_TAG_JAVASCRIPT_WITH_SCOPE &&
 *         bsonraw_iter_init_at(&scope, bytes, len, v.more_at, v.more_len) == BSONRAW_OK)
 *         while (bsonraw_iter_next(&scope, bytes, len) == BSONRAW_OK)
 *             printf("%02x %.*s\n", scope.tag, BSONRAW_TEXT(bytes, scope.key_at, scope.key_len));
 */
BSONRAW_USE int32_t bsonraw_iter_recurse(const struct bsonraw_iter *iter, const uint8_t *bytes, size_t len,
                                         struct bsonraw_iter *BSONRAW_RESTRICT child);
BSONRAW_USE int32_t bsonraw_iter_init_at(struct bsonraw_iter *iter, const uint8_t *bytes, size_t len, uint32_t document_at,
                                         uint32_t document_len);

/* Goes on to the next element with this key, as bsonraw_iter_next does to the next of any: BSONRAW_OK; BSONRAW_NONE where
 * none has the key; BSONRAW_FAULT where none has it up to a stop. bsonraw_iter_init_find begins in a document.
 *
 *     struct bsonraw_iter it;
 *     int32_t status = bsonraw_iter_init_find(&it, bytes, len, BSONRAW_KEY("name"));
 *     while (status == BSONRAW_OK) {
 *         printf("%u bytes\n", it.payload_len);
 *         status = bsonraw_iter_find(&it, bytes, len, BSONRAW_KEY("name"));
 *     }
 */
BSONRAW_USE int32_t bsonraw_iter_find(struct bsonraw_iter *iter, const uint8_t *bytes, size_t len, const uint8_t *key,
                                      size_t key_len);
BSONRAW_USE int32_t bsonraw_iter_init_find(struct bsonraw_iter *iter, const uint8_t *bytes, size_t len, const uint8_t *key,
                                           size_t key_len);

/* Goes down a path, whose steps have the separator between them. The first step is a key: it goes to the cursor's next
 * element that has it. Each other step goes on in the document or the array that the step before went to: to the first
 * element with this key in a document, and to the element of this number, from 0, in an array. BSONRAW_OK, BSONRAW_NONE and
 * BSONRAW_FAULT as bsonraw_iter_find; BSONRAW_OTHER_KIND where a step should go on in an element that is neither a document
 * nor an array, and the cursor is then in no document. The separator 0 is in no key: "a.b\0c" goes to c in a.b.
 *
 *     struct bsonraw_iter it;
 *     if (bsonraw_iter_init(&it, bytes, len) == BSONRAW_OK &&
 *         bsonraw_iter_find_descendant(&it, bytes, len, BSONRAW_KEY("authors.0.name"), '.') == BSONRAW_OK)
 *         printf("%02x\n", it.tag);
 */
BSONRAW_USE int32_t bsonraw_iter_find_descendant(struct bsonraw_iter *iter, const uint8_t *bytes, size_t len,
                                                 const uint8_t *path, size_t path_len, uint8_t separator);

/* bsonraw_iter_init, and with BSONRAW_OK bsonraw_iter_find_descendant. */
BSONRAW_USE int32_t bsonraw_iter_init_find_descendant(struct bsonraw_iter *iter, const uint8_t *bytes, size_t len,
                                                      const uint8_t *path, size_t path_len, uint8_t separator);

struct bsonraw_entry {
    uint32_t tag; /* as in a cursor */
    uint32_t key_at;
    uint32_t key_len;
    uint32_t payload_at;
    uint32_t payload_len;
};

/* Goes on over as many elements as there is room for, and writes count entries: BSONRAW_OK where the room is full, and more
 * elements may follow; else BSONRAW_NONE or BSONRAW_FAULT, as bsonraw_iter_next. The cursor is then at no element, and goes
 * on after the last entry.
 *
 *     struct bsonraw_iter it;
 *     struct bsonraw_entry entries[64];
 *     uint64_t i, count;
 *     int32_t status = bsonraw_iter_init(&it, bytes, len);
 *     while (status == BSONRAW_OK) {
 *         status = bsonraw_iter_next_many(&it, bytes, len, entries, 64, &count);
 *         for (i = 0; i < count; i++) printf("%02x\n", entries[i].tag);
 *     }
 */
BSONRAW_USE int32_t bsonraw_iter_next_many(struct bsonraw_iter *iter, const uint8_t *bytes, size_t len,
                                           struct bsonraw_entry *BSONRAW_RESTRICT entries, size_t room, uint64_t *count);

/* ---- NULL ------------------------------------------------------------------------------------------------------------
 *
 * Tested.
 * Each call that the library exports has another one here, which goes by its name: it puts some memory in the place of NULL with a
 * length of 0, and returns BSONRAW_NULL for NULL with a length, or in place of a struct or a number, which is then as it was. With
 * BSONRAW_UNCHECKED defined, before the header is included, a name is that of the exported call, but where a text is given without its
 * length. With BSONRAW_DEBUG they read the first and the last byte of what they are given, so that a wrong length ends in the caller.
 */
#ifdef BSONRAW_DEBUG
#define BSONRAW_LACKS(pointer, len) ((pointer) ? bsonraw_touch(pointer, (len) * sizeof *(pointer)) : (len) != 0)

BSONRAW_LOCAL int bsonraw_touch(const void *memory, size_t len) {
    const volatile char *bytes = BSONRAW_CHARS(memory);
    return len > 0 && (bytes[0] & bytes[len - 1] & 0);
}
#else
#define BSONRAW_LACKS(pointer, len) (!(pointer) && (len) != 0)
#endif

BSONRAW_LOCAL const uint8_t *bsonraw_some_bytes(const uint8_t *bytes) {
    static const uint8_t none[1] = {0};
    return bytes ? bytes : none;
}

BSONRAW_LOCAL uint8_t *bsonraw_some_room(uint8_t *room) {
    static uint8_t none[1];
    return room ? room : none;
}

BSONRAW_LOCAL uint64_t *bsonraw_some_path(uint64_t *path) {
    static uint64_t none[1];
    return path ? path : none;
}

#ifndef BSONRAW_UNCHECKED
BSONRAW_READS(2, 3)
BSONRAW_USE BSONRAW_INLINE int32_t bsonraw_checked_iter_init(struct bsonraw_iter *iter, const uint8_t *bytes, size_t len) {
    if (!iter || BSONRAW_LACKS(bytes, len)) return BSONRAW_NULL;
    return bsonraw_iter_init(iter, bsonraw_some_bytes(bytes), len);
}
#define bsonraw_iter_init bsonraw_checked_iter_init

BSONRAW_READS(2, 3)
BSONRAW_USE BSONRAW_INLINE int32_t bsonraw_checked_iter_next(struct bsonraw_iter *iter, const uint8_t *bytes, size_t len) {
    if (!iter || BSONRAW_LACKS(bytes, len)) return BSONRAW_NULL;
    return bsonraw_iter_next(iter, bsonraw_some_bytes(bytes), len);
}
#define bsonraw_iter_next bsonraw_checked_iter_next

BSONRAW_READS(2, 3)
BSONRAW_USE BSONRAW_INLINE int32_t bsonraw_checked_iter_recurse(const struct bsonraw_iter *iter, const uint8_t *bytes, size_t len,
                                                                struct bsonraw_iter *BSONRAW_RESTRICT child) {
    if (!iter || BSONRAW_LACKS(bytes, len) || !child) return BSONRAW_NULL;
    return bsonraw_iter_recurse(iter, bsonraw_some_bytes(bytes), len, child);
}
#define bsonraw_iter_recurse bsonraw_checked_iter_recurse

BSONRAW_READS(2, 3)
BSONRAW_USE BSONRAW_INLINE int32_t bsonraw_checked_iter_init_at(struct bsonraw_iter *iter, const uint8_t *bytes, size_t len,
                                                                uint32_t document_at, uint32_t document_len) {
    if (!iter || BSONRAW_LACKS(bytes, len)) return BSONRAW_NULL;
    return bsonraw_iter_init_at(iter, bsonraw_some_bytes(bytes), len, document_at, document_len);
}
#define bsonraw_iter_init_at bsonraw_checked_iter_init_at

BSONRAW_READS(2, 3) BSONRAW_READS(4, 5)
BSONRAW_USE BSONRAW_INLINE int32_t bsonraw_checked_iter_find(struct bsonraw_iter *iter, const uint8_t *bytes, size_t len,
                                                             const uint8_t *key, size_t key_len) {
    if (!iter || BSONRAW_LACKS(bytes, len) || BSONRAW_LACKS(key, key_len)) return BSONRAW_NULL;
    return bsonraw_iter_find(iter, bsonraw_some_bytes(bytes), len, bsonraw_some_bytes(key), key_len);
}
#define bsonraw_iter_find bsonraw_checked_iter_find

BSONRAW_READS(2, 3) BSONRAW_READS(4, 5)
BSONRAW_USE BSONRAW_INLINE int32_t bsonraw_checked_iter_init_find(struct bsonraw_iter *iter, const uint8_t *bytes, size_t len,
                                                                  const uint8_t *key, size_t key_len) {
    if (!iter || BSONRAW_LACKS(bytes, len) || BSONRAW_LACKS(key, key_len)) return BSONRAW_NULL;
    return bsonraw_iter_init_find(iter, bsonraw_some_bytes(bytes), len, bsonraw_some_bytes(key), key_len);
}
#define bsonraw_iter_init_find bsonraw_checked_iter_init_find

BSONRAW_READS(2, 3) BSONRAW_READS(4, 5)
BSONRAW_USE BSONRAW_INLINE int32_t bsonraw_checked_iter_find_descendant(struct bsonraw_iter *iter, const uint8_t *bytes, size_t len,
                                                                        const uint8_t *path, size_t path_len, uint8_t separator) {
    if (!iter || BSONRAW_LACKS(bytes, len) || BSONRAW_LACKS(path, path_len)) return BSONRAW_NULL;
    return bsonraw_iter_find_descendant(iter, bsonraw_some_bytes(bytes), len, bsonraw_some_bytes(path), path_len, separator);
}
#define bsonraw_iter_find_descendant bsonraw_checked_iter_find_descendant

BSONRAW_READS(2, 3) BSONRAW_READS(4, 5)
BSONRAW_USE BSONRAW_INLINE int32_t bsonraw_checked_iter_init_find_descendant(struct bsonraw_iter *iter, const uint8_t *bytes, size_t len,
                                                                             const uint8_t *path, size_t path_len, uint8_t separator) {
    if (!iter || BSONRAW_LACKS(bytes, len) || BSONRAW_LACKS(path, path_len)) return BSONRAW_NULL;
    return bsonraw_iter_init_find_descendant(iter, bsonraw_some_bytes(bytes), len, bsonraw_some_bytes(path), path_len, separator);
}
#define bsonraw_iter_init_find_descendant bsonraw_checked_iter_init_find_descendant

BSONRAW_READS(2, 3) BSONRAW_WRITES(4, 5)
BSONRAW_USE BSONRAW_INLINE int32_t bsonraw_checked_iter_next_many(struct bsonraw_iter *iter, const uint8_t *bytes, size_t len,
                                                                  struct bsonraw_entry *BSONRAW_RESTRICT entries, size_t room, uint64_t *count) {
    static struct bsonraw_entry none;
    if (!iter || BSONRAW_LACKS(bytes, len) || BSONRAW_LACKS(entries, room) || !count) return BSONRAW_NULL;
    return bsonraw_iter_next_many(iter, bsonraw_some_bytes(bytes), len, entries ? entries : &none, room, count);
}
#define bsonraw_iter_next_many bsonraw_checked_iter_next_many
#endif

/* The key of the element that a cursor is at, or of a stop that has one: iter->key_len bytes, with a 0 after them. Where there is none, it
 * is an empty text, and never NULL.
 *
 *     struct bsonraw_iter it;
 *     if (bsonraw_iter_init(&it, bytes, len) == BSONRAW_OK)
 *         while (bsonraw_iter_next(&it, bytes, len) == BSONRAW_OK)
 *             if (strcmp(bsonraw_iter_key(&it, bytes, len), "_id") != 0) puts(bsonraw_iter_key(&it, bytes, len));
 */
BSONRAW_READS(2, 3)
BSONRAW_USE BSONRAW_INLINE const char *bsonraw_iter_key(const struct bsonraw_iter *iter, const uint8_t *bytes, size_t len) {
    const uint8_t *key;
    if (!iter || !bytes || BSONRAW_LACKS(bytes, len) || iter->key_at >= len || iter->key_len >= len - iter->key_at) return "";
    key = bytes + iter->key_at;
    return key[iter->key_len] == 0 ? BSONRAW_CHARS(key) : "";
}

/* ---- values ----------------------------------------------------------------------------------------------------------
 *
 * bsonraw_iter_value, bsonraw_value_at and bsonraw_overwrite are proved; the others, which call the first, are tested.
 * What a kind doesn't have is 0; of a part that it doesn't have, the offset is that of a cursor at no element. Texts are
 * UTF-8, and may hold a 0; of a regular expression they hold none.
 */
struct bsonraw_value {
    uint32_t tag;       /* enum bsonraw_tag; 0 no value */
    uint32_t subtype;   /* of a binary */
    int64_t integer;    /* int32, int64; of a datetime the milliseconds; of a boolean 0 or 1 */
    uint64_t bits;      /* of a double */
    uint32_t text_at;   /* the text of a string, a symbol or a code; a pattern; a namespace; the bytes of a binary (of subtype
                           2 without their inner length), an ObjectId, a Decimal128; a document or an array */
    uint32_t text_len;
    uint32_t more_at;   /* options; the scope of a code; the ObjectId after a namespace */
    uint32_t more_len;
    uint32_t time;      /* of a timestamp */
    uint32_t increment; /* of a timestamp */
    struct bsonraw_error error; /* why there is no value */
};

/* The value of the element that a cursor is at: BSONRAW_OK. BSONRAW_FAULT where the payload means none, as with a text that
 * isn't UTF-8 or a boolean's byte over 1, and error says why. BSONRAW_BAD_OFFSET where it is at no element. A nested document
 * or array is a value, whatever is inside.
 *
 *     struct bsonraw_iter it;
 *     struct bsonraw_value v;
 *     if (bsonraw_iter_init_find(&it, bytes, len, BSONRAW_KEY("name")) == BSONRAW_OK &&
 *         bsonraw_iter_value(&it, bytes, len, &v) == BSONRAW_OK && v.tag == BSONRAW_TAG_STRING)
 *         printf("%.*s\n", BSONRAW_TEXT(bytes, v.text_at, v.text_len));
 */
BSONRAW_USE int32_t bsonraw_iter_value(const struct bsonraw_iter *iter, const uint8_t *bytes, size_t len,
                                       struct bsonraw_value *value);

/* The value of the element at a path, whose steps have the separator between them: what bsonraw_iter_init_find_descendant returns, and
 * with BSONRAW_OK what bsonraw_iter_value does. With tags the element has to have one of these: BSONRAW_OTHER_KIND if it hasn't. Without
 * an element, or with another one, all that is written is 0, except for error, which has the fault.
 *
 *     static const uint32_t whole[] = {BSONRAW_TAG_INT32, BSONRAW_TAG_INT64};
 *     struct bsonraw_value v;
 *     if (bsonraw_value_at(bytes, len, BSONRAW_KEY("authors.0.born"), '.', whole, 2, &v) == BSONRAW_OK) printf("%ld\n", v.integer);
 */
BSONRAW_USE int32_t bsonraw_value_at(const uint8_t *bytes, size_t len, const uint8_t *path, size_t path_len, uint8_t separator,
                                     const uint32_t *tags, size_t count, struct bsonraw_value *value);

/* Overwrites the payload of the element at a path, if the element has this tag and a payload of this length; else BSONRAW_OTHER_KIND, or
 * what bsonraw_iter_init_find_descendant returns, and nothing is written. What the payload means isn't looked at.
 *
 *     static const uint8_t year[] = {91, 7, 0, 0};
 *     uint8_t copy[512];
 *     if (len > sizeof copy) return;
 *     memcpy(copy, bytes, len);
 *     if (bsonraw_overwrite(copy, len, BSONRAW_KEY("born"), '.', BSONRAW_TAG_INT32, year, sizeof year) == BSONRAW_OK) puts("1883");
 */
BSONRAW_USE int32_t bsonraw_overwrite(uint8_t *bytes, size_t len, const uint8_t *path, size_t path_len, uint8_t separator, uint32_t tag,
                                      const uint8_t *payload, size_t payload_len);

#ifndef BSONRAW_UNCHECKED
BSONRAW_READS(2, 3)
BSONRAW_USE BSONRAW_INLINE int32_t bsonraw_checked_iter_value(const struct bsonraw_iter *iter, const uint8_t *bytes, size_t len,
                                                              struct bsonraw_value *value) {
    if (!iter || BSONRAW_LACKS(bytes, len) || !value) return BSONRAW_NULL;
    return bsonraw_iter_value(iter, bsonraw_some_bytes(bytes), len, value);
}
#define bsonraw_iter_value bsonraw_checked_iter_value

BSONRAW_READS(1, 2) BSONRAW_READS(3, 4) BSONRAW_READS(6, 7)
BSONRAW_USE BSONRAW_INLINE int32_t bsonraw_checked_value_at(const uint8_t *bytes, size_t len, const uint8_t *path, size_t path_len,
                                                            uint8_t separator, const uint32_t *tags, size_t count,
                                                            struct bsonraw_value *value) {
    static const uint32_t none[1] = {0};
    if (BSONRAW_LACKS(bytes, len) || BSONRAW_LACKS(path, path_len) || BSONRAW_LACKS(tags, count) || !value) return BSONRAW_NULL;
    return bsonraw_value_at(bsonraw_some_bytes(bytes), len, bsonraw_some_bytes(path), path_len, separator, tags ? tags : none, count, value);
}
#define bsonraw_value_at bsonraw_checked_value_at

BSONRAW_CHANGES(1, 2) BSONRAW_READS(3, 4) BSONRAW_READS(7, 8)
BSONRAW_USE BSONRAW_INLINE int32_t bsonraw_checked_overwrite(uint8_t *bytes, size_t len, const uint8_t *path, size_t path_len,
                                                             uint8_t separator, uint32_t tag, const uint8_t *payload, size_t payload_len) {
    if (BSONRAW_LACKS(bytes, len) || BSONRAW_LACKS(path, path_len) || BSONRAW_LACKS(payload, payload_len)) return BSONRAW_NULL;
    return bsonraw_overwrite(bsonraw_some_room(bytes), len, bsonraw_some_bytes(path), path_len, separator, tag, bsonraw_some_bytes(payload),
                             payload_len);
}
#define bsonraw_overwrite bsonraw_checked_overwrite
#endif

/* The value where its kind is the one that is asked for, in place of all of struct bsonraw_value. BSONRAW_OTHER_KIND where
 * the cursor's tag or the value's kind is another, else BSONRAW_FAULT and BSONRAW_BAD_OFFSET as bsonraw_iter_value; what is
 * written then is 0, a pointer NULL, and an offset the length of the bytes.
 *
 *     struct bsonraw_iter it;
 *     int32_t born;
 *     if (bsonraw_iter_init_find(&it, bytes, len, BSONRAW_KEY("born")) == BSONRAW_OK &&
 *         bsonraw_iter_int32(&it, bytes, len, &born) == BSONRAW_OK)
 *         printf("%d\n", born);
 */
BSONRAW_READS(2, 3)
BSONRAW_USE BSONRAW_INLINE int32_t bsonraw_iter_value_of(const struct bsonraw_iter *iter, const uint8_t *bytes, size_t len,
                                                         uint32_t tag, struct bsonraw_value *value) {
    static const struct bsonraw_value nothing = {0, 0, 0, 0, 0, 0, 0, 0, 0, 0, {0, 0, 0, 0, 0}};
    struct bsonraw_iter none;
    if (!value) return BSONRAW_NULL;
    *value = nothing;
    if (!iter || BSONRAW_LACKS(bytes, len)) return BSONRAW_NULL;
    if (iter->tag == tag) {
        int32_t status = bsonraw_iter_value(iter, bytes, len, value);
        if (status != BSONRAW_OK || value->tag == tag) return status;
    }
    none = *iter;
    none.key_at = 0; /* the cursor is at no element, so that value is none */
    (void)!bsonraw_iter_value(&none, bytes, len, value);
    return BSONRAW_OTHER_KIND;
}

BSONRAW_READS(2, 3)
BSONRAW_USE BSONRAW_INLINE int32_t bsonraw_iter_int32(const struct bsonraw_iter *iter, const uint8_t *bytes, size_t len,
                                                      int32_t *number) {
    struct bsonraw_value value;
    int32_t status = bsonraw_iter_value_of(iter, bytes, len, BSONRAW_TAG_INT32, &value);
    if (!number) return BSONRAW_NULL;
    *number = BSONRAW_INT32(value.integer);
    return status;
}

BSONRAW_READS(2, 3)
BSONRAW_USE BSONRAW_INLINE int32_t bsonraw_iter_int64(const struct bsonraw_iter *iter, const uint8_t *bytes, size_t len,
                                                      int64_t *number) {
    struct bsonraw_value value;
    int32_t status = bsonraw_iter_value_of(iter, bytes, len, BSONRAW_TAG_INT64, &value);
    if (!number) return BSONRAW_NULL;
    *number = value.integer;
    return status;
}

/* Milliseconds from 1970 on. */
BSONRAW_READS(2, 3)
BSONRAW_USE BSONRAW_INLINE int32_t bsonraw_iter_date_time(const struct bsonraw_iter *iter, const uint8_t *bytes, size_t len,
                                                          int64_t *millis) {
    struct bsonraw_value value;
    int32_t status = bsonraw_iter_value_of(iter, bytes, len, BSONRAW_TAG_DATETIME, &value);
    if (!millis) return BSONRAW_NULL;
    *millis = value.integer;
    return status;
}

/* 0 or 1. */
BSONRAW_READS(2, 3)
BSONRAW_USE BSONRAW_INLINE int32_t bsonraw_iter_bool(const struct bsonraw_iter *iter, const uint8_t *bytes, size_t len,
                                                     int32_t *is_true) {
    struct bsonraw_value value;
    int32_t status = bsonraw_iter_value_of(iter, bytes, len, BSONRAW_TAG_BOOLEAN, &value);
    if (!is_true) return BSONRAW_NULL;
    *is_true = BSONRAW_INT32(value.integer);
    return status;
}

BSONRAW_READS(2, 3)
BSONRAW_USE BSONRAW_INLINE int32_t bsonraw_iter_double(const struct bsonraw_iter *iter, const uint8_t *bytes, size_t len,
                                                       double *number) {
    struct bsonraw_value value;
    union {
        uint64_t bits;
        double number;
    } same;
    int32_t status = bsonraw_iter_value_of(iter, bytes, len, BSONRAW_TAG_DOUBLE, &value);
    if (!number) return BSONRAW_NULL;
    same.bits = value.bits;
    *number = same.number;
    return status;
}

BSONRAW_READS(2, 3)
BSONRAW_USE BSONRAW_INLINE int32_t bsonraw_iter_timestamp(const struct bsonraw_iter *iter, const uint8_t *bytes, size_t len,
                                                          uint32_t *time, uint32_t *increment) {
    struct bsonraw_value value;
    int32_t status = bsonraw_iter_value_of(iter, bytes, len, BSONRAW_TAG_TIMESTAMP, &value);
    if (!time || !increment) return BSONRAW_NULL;
    *time = value.time;
    *increment = value.increment;
    return status;
}

/* An int32 or an int64, but no double: the caller has to see whether that is whole. */
BSONRAW_READS(2, 3)
BSONRAW_USE BSONRAW_INLINE int32_t bsonraw_iter_as_int64(const struct bsonraw_iter *iter, const uint8_t *bytes, size_t len,
                                                         int64_t *number) {
    struct bsonraw_value value;
    int32_t status = bsonraw_iter_value_of(
        iter, bytes, len, iter && iter->tag == BSONRAW_TAG_INT32 ? BSONRAW_TAG_INT32 : BSONRAW_TAG_INT64, &value);
    if (!number) return BSONRAW_NULL;
    *number = value.integer;
    return status;
}

/* A double, an int32 or an int64, which is the nearest double. */
BSONRAW_READS(2, 3)
BSONRAW_USE BSONRAW_INLINE int32_t bsonraw_iter_as_double(const struct bsonraw_iter *iter, const uint8_t *bytes, size_t len,
                                                          double *number) {
    int64_t whole;
    int32_t status = bsonraw_iter_as_int64(iter, bytes, len, &whole);
    if (status == BSONRAW_OTHER_KIND) return bsonraw_iter_double(iter, bytes, len, number);
    if (!number) return BSONRAW_NULL;
    *number = BSONRAW_DOUBLE(whole);
    return status;
}

/* The text or the bytes of a value of this kind, as text_at and text_len have them. */
BSONRAW_READS(2, 3)
BSONRAW_USE BSONRAW_INLINE int32_t bsonraw_iter_text_of(const struct bsonraw_iter *iter, const uint8_t *bytes, size_t len,
                                                        uint32_t tag, uint32_t *text_at, uint32_t *text_len) {
    struct bsonraw_value value;
    int32_t status = bsonraw_iter_value_of(iter, bytes, len, tag, &value);
    if (!text_at || !text_len) return BSONRAW_NULL;
    *text_at = value.text_at;
    *text_len = value.text_len;
    return status;
}

/* The same as a pointer into the bytes, and a length; with any status but BSONRAW_OK NULL and 0. */
BSONRAW_READS(2, 3)
BSONRAW_USE BSONRAW_INLINE int32_t bsonraw_iter_bytes_of(const struct bsonraw_iter *iter, const uint8_t *bytes, size_t len,
                                                         uint32_t tag, const uint8_t **part, size_t *part_len) {
    struct bsonraw_value value;
    int32_t status = bsonraw_iter_value_of(iter, bytes, len, tag, &value);
    if (!part || !part_len) return BSONRAW_NULL;
    *part = status == BSONRAW_OK ? bytes + value.text_at : BSONRAW_NIL;
    *part_len = value.text_len;
    return status;
}

/* A 0 follows the text, and may be in it. */
BSONRAW_READS(2, 3)
BSONRAW_USE BSONRAW_INLINE int32_t bsonraw_iter_utf8(const struct bsonraw_iter *iter, const uint8_t *bytes, size_t len,
                                                     const char **text, size_t *text_len) {
    const uint8_t *part = BSONRAW_NIL;
    int32_t status = bsonraw_iter_bytes_of(iter, bytes, len, BSONRAW_TAG_STRING, &part, text_len);
    if (!text) return BSONRAW_NULL;
    *text = BSONRAW_CHARS(part);
    return status;
}

BSONRAW_READS(2, 3)
BSONRAW_USE BSONRAW_INLINE int32_t bsonraw_iter_code(const struct bsonraw_iter *iter, const uint8_t *bytes, size_t len,
                                                     const char **code, size_t *code_len) {
    const uint8_t *part = BSONRAW_NIL;
    int32_t status = bsonraw_iter_bytes_of(iter, bytes, len, BSONRAW_TAG_JAVASCRIPT, &part, code_len);
    if (!code) return BSONRAW_NULL;
    *code = BSONRAW_CHARS(part);
    return status;
}

BSONRAW_READS(2, 3)
BSONRAW_USE BSONRAW_INLINE int32_t bsonraw_iter_symbol(const struct bsonraw_iter *iter, const uint8_t *bytes, size_t len,
                                                       const char **symbol, size_t *symbol_len) {
    const uint8_t *part = BSONRAW_NIL;
    int32_t status = bsonraw_iter_bytes_of(iter, bytes, len, BSONRAW_TAG_SYMBOL, &part, symbol_len);
    if (!symbol) return BSONRAW_NULL;
    *symbol = BSONRAW_CHARS(part);
    return status;
}

BSONRAW_READS(2, 3)
BSONRAW_USE BSONRAW_INLINE int32_t bsonraw_iter_document(const struct bsonraw_iter *iter, const uint8_t *bytes, size_t len,
                                                         const uint8_t **document, size_t *document_len) {
    return bsonraw_iter_bytes_of(iter, bytes, len, BSONRAW_TAG_DOCUMENT, document, document_len);
}

BSONRAW_READS(2, 3)
BSONRAW_USE BSONRAW_INLINE int32_t bsonraw_iter_array(const struct bsonraw_iter *iter, const uint8_t *bytes, size_t len,
                                                      const uint8_t **array, size_t *array_len) {
    return bsonraw_iter_bytes_of(iter, bytes, len, BSONRAW_TAG_ARRAY, array, array_len);
}

/* The twelve bytes of an ObjectId. */
BSONRAW_READS(2, 3)
BSONRAW_USE BSONRAW_INLINE int32_t bsonraw_iter_oid(const struct bsonraw_iter *iter, const uint8_t *bytes, size_t len,
                                                    const uint8_t **id) {
    size_t id_len;
    return bsonraw_iter_bytes_of(iter, bytes, len, BSONRAW_TAG_OBJECT_ID, id, &id_len);
}

/* The sixteen bytes of a Decimal128. */
BSONRAW_READS(2, 3)
BSONRAW_USE BSONRAW_INLINE int32_t bsonraw_iter_decimal128(const struct bsonraw_iter *iter, const uint8_t *bytes, size_t len,
                                                           const uint8_t **decimal) {
    size_t decimal_len;
    return bsonraw_iter_bytes_of(iter, bytes, len, BSONRAW_TAG_DECIMAL128, decimal, &decimal_len);
}

BSONRAW_READS(2, 3)
BSONRAW_USE BSONRAW_INLINE int32_t bsonraw_iter_binary(const struct bsonraw_iter *iter, const uint8_t *bytes, size_t len,
                                                       uint32_t *subtype, const uint8_t **data, size_t *data_len) {
    struct bsonraw_value value;
    int32_t status = bsonraw_iter_value_of(iter, bytes, len, BSONRAW_TAG_BINARY, &value);
    if (!subtype || !data || !data_len) return BSONRAW_NULL;
    *subtype = value.subtype;
    *data = status == BSONRAW_OK ? bytes + value.text_at : BSONRAW_NIL;
    *data_len = value.text_len;
    return status;
}

/* A 0 follows each, and is in none. */
BSONRAW_READS(2, 3)
BSONRAW_USE BSONRAW_INLINE int32_t bsonraw_iter_regex(const struct bsonraw_iter *iter, const uint8_t *bytes, size_t len,
                                                      const char **pattern, const char **options) {
    struct bsonraw_value value;
    int32_t status = bsonraw_iter_value_of(iter, bytes, len, BSONRAW_TAG_REGEX, &value);
    if (!pattern || !options) return BSONRAW_NULL;
    *pattern = status == BSONRAW_OK ? BSONRAW_CHARS(bytes + value.text_at) : BSONRAW_NIL;
    *options = status == BSONRAW_OK ? BSONRAW_CHARS(bytes + value.more_at) : BSONRAW_NIL;
    return status;
}

/* ---- building --------------------------------------------------------------------------------------------------------
 *
 * bsonraw_builder_begin, _end, bsonraw_append, _number, _iter, _begin, _end and _cancel are proved; the others, which call these for a kind
 * each, are tested.
 * A builder puts a document into memory of the caller, which is its room. It keeps no pointer: each call is given the room
 * anew, and whatever the builder holds, nothing outside of the room is written. Up to the end of the document only its builder and its
 * levels may write to the room: a level that an earlier document left open is of no other use. struct bsonraw_buffer has a room of its
 * own, which grows. A call returns builder->status, and bsonraw_append_begin level->status, which the builder takes over:
 *   - BSONRAW_OK: what was appended so far is in the room.
 *   - BSONRAW_SMALL_BUFFER: the room is too small. Later calls go on to count, so that in the end len says how many bytes
 *     are needed. They do so with no room at all, too, and where a later call is given a larger room, as bytes are lacking by then.
 *     What bsonraw_append_cancel takes back isn't needed: it returns what the builder had before the level.
 *   - Anything else: the first call that was refused, and why. Later calls change nothing, and count is the number of the element
 *     that was refused, from 0, in its level.
 * So one look at the end is enough. What is refused, in this order: NULL with a length (BSONRAW_NULL); an append to a builder in which a
 * level is open, its end, and the end of a level that isn't the one that is open in it, as one that was ended before (BSONRAW_MISUSE);
 * a builder that was ended, or whose len is under begins + 4, as where it is all 0
 * since no call has begun it, and a cursor that is at no element (BSONRAW_BAD_OFFSET); a tag of no kind, and parts that aren't
 * those of the kind, as another length, or a boolean's byte over 1 (BSONRAW_OTHER_KIND), a text that isn't UTF-8, or a pattern
 * or options with a 0 (BSONRAW_FAULT), or bytes that are no document (BSONRAW_NO_DOCUMENT); a key with a 0, or that isn't UTF-8
 * (BSONRAW_FAULT); an element after which its level couldn't be ended within 2147483647 bytes, or a count that is as much, as
 * where it was changed (BSONRAW_TOO_LONG). As a level is ended, the final 0s of those around it aren't counted yet. In an array
 * the keys are made, 0, 1, 2 and so on, and the key that is given isn't looked at. Whether a key is there already isn't looked
 * at either.
 */
struct bsonraw_builder {
    uint32_t len;    /* how many bytes are taken so far, or needed; in the end, how many the document has */
    uint32_t begins; /* where the document or the array begins whose elements are appended */
    uint32_t count;  /* how many it has so far */
    uint32_t tag;    /* BSONRAW_TAG_DOCUMENT or BSONRAW_TAG_ARRAY; and 256 more while a level is open in it that found the room too small */
    int32_t status;  /* enum bsonraw_status; under 0 while a level is open in it: where that begins, negated */
};

/* What is given for a key in an array. */
#define BSONRAW_NO_KEY BSONRAW_KEY("")

/* Begins a document at the front of the room, and ends it: with BSONRAW_OK it is then there, builder->len bytes of it.
 *
 *     uint8_t room[64];
 *     struct bsonraw_builder b;
 *     bsonraw_builder_begin(&b, room, sizeof room);
 *     bsonraw_append_utf8(&b, room, sizeof room, BSONRAW_KEY("name"), BSONRAW_KEY("Emmy"));
 *     bsonraw_append_int32(&b, room, sizeof room, BSONRAW_KEY("born"), 1882);
 *     if (bsonraw_builder_end(&b, room, sizeof room) == BSONRAW_OK) fwrite(room, 1, b.len, stdout);
 */
int32_t bsonraw_builder_begin(struct bsonraw_builder *builder, uint8_t *BSONRAW_RESTRICT room, size_t room_len);
BSONRAW_USE int32_t bsonraw_builder_end(struct bsonraw_builder *builder, uint8_t *BSONRAW_RESTRICT room, size_t room_len);

/* Begins a document or an array in another one, and ends it. Between the two its elements are appended to a builder of its
 * own, and none to the builder around it. bsonraw_append_cancel takes back a level that is open, with all that is in it: the builder
 * around it goes on as if it had never been begun, with BSONRAW_SMALL_BUFFER if it had that before, unless the level was refused
 * something else, which the builder takes over. With BSONRAW_UNCHECKED no level is open in a builder: one is forgotten, not taken back.
 * bsonraw_append_document_begin and bsonraw_append_array_begin give the tag. Each of these calls writes to both builders.
 *
 *     uint8_t room[64];
 *     struct bsonraw_builder b, list;
 *     bsonraw_builder_begin(&b, room, sizeof room);
 *     bsonraw_append_array_begin(&b, room, sizeof room, BSONRAW_KEY("primes"), &list);
 *     bsonraw_append_int32(&list, room, sizeof room, BSONRAW_NO_KEY, 2);
 *     bsonraw_append_int32(&list, room, sizeof room, BSONRAW_NO_KEY, 3);
 *     bsonraw_append_end(&b, room, sizeof room, &list);
 *     if (bsonraw_builder_end(&b, room, sizeof room) == BSONRAW_OK) fwrite(room, 1, b.len, stdout);
 */
int32_t bsonraw_append_begin(struct bsonraw_builder *builder, uint8_t *BSONRAW_RESTRICT room, size_t room_len, uint32_t tag,
                             const uint8_t *key, size_t key_len, struct bsonraw_builder *BSONRAW_RESTRICT level);
int32_t bsonraw_append_end(struct bsonraw_builder *builder, uint8_t *BSONRAW_RESTRICT room, size_t room_len,
                           struct bsonraw_builder *BSONRAW_RESTRICT level);
int32_t bsonraw_append_cancel(struct bsonraw_builder *builder, struct bsonraw_builder *BSONRAW_RESTRICT level);

/* Appends the element that a cursor is at, as it is: its value isn't looked at. So a code with scope that says it has under
 * 4 bytes is copied, too: it takes in bytes of what is appended after it, and may be read as something else there.
 *
 *     uint8_t room[64];
 *     struct bsonraw_builder b;
 *     struct bsonraw_iter it;
 *     bsonraw_builder_begin(&b, room, sizeof room);
 *     if (bsonraw_iter_init_find(&it, bytes, len, BSONRAW_KEY("name")) == BSONRAW_OK)
 *         bsonraw_append_iter(&b, room, sizeof room, &it, bytes, len);
 *     if (bsonraw_builder_end(&b, room, sizeof room) == BSONRAW_OK) fwrite(room, 1, b.len, stdout);
 */
int32_t bsonraw_append_iter(struct bsonraw_builder *builder, uint8_t *BSONRAW_RESTRICT room, size_t room_len, const struct bsonraw_iter *iter,
                            const uint8_t *bytes, size_t len);

/* Appends an element of any kind, by its parts. One is the text of a string, a code or a symbol; a document or an array; the
 * bytes of a binary; a pattern, a namespace, or a code before its scope; and of any other kind the payload as BSON stores it.
 * Two is the subtype of a binary, in a byte; options; the twelve bytes after a namespace; a scope; and of any other kind it
 * isn't looked at. Lengths and 0s are put around them, and the inner length of a binary of subtype 2. The calls that follow
 * are this one, for a kind each.
 *
 *     uint8_t room[64];
 *     struct bsonraw_builder b;
 *     bsonraw_builder_begin(&b, room, sizeof room);
 *     bsonraw_append(&b, room, sizeof room, BSONRAW_TAG_SYMBOL, BSONRAW_KEY("sign"), BSONRAW_KEY("pi"),
 *                    BSONRAW_KEY(""));
 *     if (bsonraw_builder_end(&b, room, sizeof room) == BSONRAW_OK) fwrite(room, 1, b.len, stdout);
 */
int32_t bsonraw_append(struct bsonraw_builder *builder, uint8_t *BSONRAW_RESTRICT room, size_t room_len, uint32_t tag, const uint8_t *key,
                       size_t key_len, const uint8_t *one, size_t one_len, const uint8_t *two, size_t two_len);

/* Appends an element whose payload is the lowest bytes of a number, least first, as many as its kind has: eight of a double, which are its
 * bits, of a datetime, of an int64 and of a timestamp, whose time is in the upper four; four of an int32; one of a boolean, 0 or 1; and none
 * of the kinds without a payload. The higher bytes aren't looked at. Other tags, and a boolean whose lowest byte is over 1, are
 * BSONRAW_OTHER_KIND.
 *
 *     uint8_t room[64];
 *     struct bsonraw_builder b;
 *     bsonraw_builder_begin(&b, room, sizeof room);
 *     bsonraw_append_number(&b, room, sizeof room, BSONRAW_TAG_INT64, BSONRAW_KEY("born"), 1882);
 *     if (bsonraw_builder_end(&b, room, sizeof room) == BSONRAW_OK) fwrite(room, 1, b.len, stdout);
 */
int32_t bsonraw_append_number(struct bsonraw_builder *builder, uint8_t *BSONRAW_RESTRICT room, size_t room_len, uint32_t tag,
                              const uint8_t *key, size_t key_len, uint64_t number);

/* The builder takes no more, for this reason, where it took more before. */
BSONRAW_LOCAL int32_t bsonraw_refuse(struct bsonraw_builder *builder, int32_t status) {
    if (builder->status <= BSONRAW_OK || builder->status == BSONRAW_SMALL_BUFFER) builder->status = status;
    return builder->status;
}

/* Whether this level is the one that is open in the builder; one that was ended begins where it ends. */
BSONRAW_LOCAL int bsonraw_is_open(const struct bsonraw_builder *builder, const struct bsonraw_builder *level) {
    return builder->status < 0 && BSONRAW_UINT32(builder->status) == 0u - level->begins && level->begins < level->len;
}

#ifndef BSONRAW_UNCHECKED
BSONRAW_WRITES(2, 3)
BSONRAW_INLINE int32_t bsonraw_checked_builder_begin(struct bsonraw_builder *builder, uint8_t *BSONRAW_RESTRICT room, size_t room_len) {
    if (!builder) return BSONRAW_NULL;
    (void)bsonraw_builder_begin(builder, bsonraw_some_room(room), room ? room_len : 0);
    return BSONRAW_LACKS(room, room_len) ? bsonraw_refuse(builder, BSONRAW_NULL) : builder->status;
}
#define bsonraw_builder_begin bsonraw_checked_builder_begin

/* A builder that is ended has no four bytes for its length, so that each later call is refused. */
BSONRAW_WRITES(2, 3)
BSONRAW_USE BSONRAW_INLINE int32_t bsonraw_checked_builder_end(struct bsonraw_builder *builder, uint8_t *BSONRAW_RESTRICT room, size_t room_len) {
    int32_t status;
    if (!builder) return BSONRAW_NULL;
    if (BSONRAW_LACKS(room, room_len)) return bsonraw_refuse(builder, BSONRAW_NULL);
    if (builder->status < 0) return bsonraw_refuse(builder, BSONRAW_MISUSE);
    status = bsonraw_builder_end(builder, bsonraw_some_room(room), room_len);
    if (status == BSONRAW_OK || status == BSONRAW_SMALL_BUFFER) builder->begins = builder->len;
    return status;
}
#define bsonraw_builder_end bsonraw_checked_builder_end

BSONRAW_WRITES(2, 3) BSONRAW_READS(5, 6)
BSONRAW_INLINE int32_t bsonraw_checked_append_begin(struct bsonraw_builder *builder, uint8_t *BSONRAW_RESTRICT room, size_t room_len, uint32_t tag,
                                                    const uint8_t *key, size_t key_len, struct bsonraw_builder *BSONRAW_RESTRICT level) {
    int32_t status;
    if (!builder) return BSONRAW_NULL;
    if (!level) return bsonraw_refuse(builder, BSONRAW_NULL);
    if (BSONRAW_LACKS(room, room_len) || BSONRAW_LACKS(key, key_len)) (void)bsonraw_refuse(builder, BSONRAW_NULL);
    else if (builder->status < 0) (void)bsonraw_refuse(builder, BSONRAW_MISUSE);
    status = bsonraw_append_begin(builder, bsonraw_some_room(room), room ? room_len : 0, tag, bsonraw_some_bytes(key), key ? key_len : 0, level);
    if (status == BSONRAW_OK || status == BSONRAW_SMALL_BUFFER) {
        if (builder->status == BSONRAW_SMALL_BUFFER) builder->tag |= 256;
        builder->status = BSONRAW_INT32(0u - level->begins);
    } else {
        builder->status = status;
    }
    return status;
}
#define bsonraw_append_begin bsonraw_checked_append_begin

/* A level that is open in another one has no open level of its own. What it refused, its own builder says, too. */
BSONRAW_WRITES(2, 3)
BSONRAW_INLINE int32_t bsonraw_checked_append_end(struct bsonraw_builder *builder, uint8_t *BSONRAW_RESTRICT room, size_t room_len,
                                                  struct bsonraw_builder *BSONRAW_RESTRICT level) {
    int32_t status;
    if (!builder) return BSONRAW_NULL;
    if (!level || BSONRAW_LACKS(room, room_len)) return bsonraw_refuse(builder, BSONRAW_NULL);
    if (level->status < 0 || !bsonraw_is_open(builder, level)) return bsonraw_refuse(builder, BSONRAW_MISUSE);
    builder->status = BSONRAW_OK;
    builder->tag &= 255;
    status = bsonraw_append_end(builder, bsonraw_some_room(room), room_len, level);
    level->begins = level->len;
    return status;
}
#define bsonraw_append_end bsonraw_checked_append_end

BSONRAW_INLINE int32_t bsonraw_checked_append_cancel(struct bsonraw_builder *builder, struct bsonraw_builder *BSONRAW_RESTRICT level) {
    if (!builder) return BSONRAW_NULL;
    return level ? bsonraw_append_cancel(builder, level) : bsonraw_refuse(builder, BSONRAW_NULL);
}
#define bsonraw_append_cancel bsonraw_checked_append_cancel

BSONRAW_WRITES(2, 3) BSONRAW_READS(5, 6)
BSONRAW_INLINE int32_t bsonraw_checked_append_iter(struct bsonraw_builder *builder, uint8_t *BSONRAW_RESTRICT room, size_t room_len,
                                                   const struct bsonraw_iter *iter, const uint8_t *bytes, size_t len) {
    if (!builder) return BSONRAW_NULL;
    if (!iter || BSONRAW_LACKS(room, room_len) || BSONRAW_LACKS(bytes, len)) return bsonraw_refuse(builder, BSONRAW_NULL);
    if (builder->status < 0) return bsonraw_refuse(builder, BSONRAW_MISUSE);
    return bsonraw_append_iter(builder, bsonraw_some_room(room), room_len, iter, bsonraw_some_bytes(bytes), len);
}
#define bsonraw_append_iter bsonraw_checked_append_iter

BSONRAW_WRITES(2, 3) BSONRAW_READS(5, 6) BSONRAW_READS(7, 8) BSONRAW_READS(9, 10)
BSONRAW_INLINE int32_t bsonraw_checked_append(struct bsonraw_builder *builder, uint8_t *BSONRAW_RESTRICT room, size_t room_len, uint32_t tag,
                                              const uint8_t *key, size_t key_len, const uint8_t *one, size_t one_len,
                                              const uint8_t *two, size_t two_len) {
    if (!builder) return BSONRAW_NULL;
    if (BSONRAW_LACKS(room, room_len) || BSONRAW_LACKS(key, key_len) || BSONRAW_LACKS(one, one_len) || BSONRAW_LACKS(two, two_len))
        return bsonraw_refuse(builder, BSONRAW_NULL);
    if (builder->status < 0) return bsonraw_refuse(builder, BSONRAW_MISUSE);
    return bsonraw_append(builder, bsonraw_some_room(room), room_len, tag, bsonraw_some_bytes(key), key_len, bsonraw_some_bytes(one),
                          one_len, bsonraw_some_bytes(two), two_len);
}
#define bsonraw_append bsonraw_checked_append

BSONRAW_WRITES(2, 3) BSONRAW_READS(5, 6)
BSONRAW_INLINE int32_t bsonraw_checked_append_number(struct bsonraw_builder *builder, uint8_t *BSONRAW_RESTRICT room, size_t room_len,
                                                     uint32_t tag, const uint8_t *key, size_t key_len, uint64_t number) {
    if (!builder) return BSONRAW_NULL;
    if (BSONRAW_LACKS(room, room_len) || BSONRAW_LACKS(key, key_len)) return bsonraw_refuse(builder, BSONRAW_NULL);
    if (builder->status < 0) return bsonraw_refuse(builder, BSONRAW_MISUSE);
    return bsonraw_append_number(builder, bsonraw_some_room(room), room_len, tag, bsonraw_some_bytes(key), key_len, number);
}
#define bsonraw_append_number bsonraw_checked_append_number
#endif

/* The bytes of a number, least first. */
struct bsonraw_number {
    uint8_t bytes[8];
};

BSONRAW_LOCAL struct bsonraw_number bsonraw_number_of(uint64_t number) {
    struct bsonraw_number n;
    n.bytes[0] = BSONRAW_BYTE(number & 255);
    n.bytes[1] = BSONRAW_BYTE(number >> 8 & 255);
    n.bytes[2] = BSONRAW_BYTE(number >> 16 & 255);
    n.bytes[3] = BSONRAW_BYTE(number >> 24 & 255);
    n.bytes[4] = BSONRAW_BYTE(number >> 32 & 255);
    n.bytes[5] = BSONRAW_BYTE(number >> 40 & 255);
    n.bytes[6] = BSONRAW_BYTE(number >> 48 & 255);
    n.bytes[7] = BSONRAW_BYTE(number >> 56);
    return n;
}

BSONRAW_WRITES(2, 3) BSONRAW_READS(4, 5)
BSONRAW_INLINE int32_t bsonraw_append_int32(struct bsonraw_builder *builder, uint8_t *BSONRAW_RESTRICT room, size_t room_len,
                                            const uint8_t *key, size_t key_len, int32_t number) {
    return bsonraw_append_number(builder, room, room_len, BSONRAW_TAG_INT32, key, key_len, BSONRAW_UINT32(number));
}

BSONRAW_WRITES(2, 3) BSONRAW_READS(4, 5)
BSONRAW_INLINE int32_t bsonraw_append_int64(struct bsonraw_builder *builder, uint8_t *BSONRAW_RESTRICT room, size_t room_len,
                                            const uint8_t *key, size_t key_len, int64_t number) {
    return bsonraw_append_number(builder, room, room_len, BSONRAW_TAG_INT64, key, key_len, BSONRAW_UINT64(number));
}

/* Milliseconds from 1970 on. */
BSONRAW_WRITES(2, 3) BSONRAW_READS(4, 5)
BSONRAW_INLINE int32_t bsonraw_append_date_time(struct bsonraw_builder *builder, uint8_t *BSONRAW_RESTRICT room, size_t room_len,
                                                const uint8_t *key, size_t key_len, int64_t millis) {
    return bsonraw_append_number(builder, room, room_len, BSONRAW_TAG_DATETIME, key, key_len, BSONRAW_UINT64(millis));
}

BSONRAW_WRITES(2, 3) BSONRAW_READS(4, 5)
BSONRAW_INLINE int32_t bsonraw_append_double(struct bsonraw_builder *builder, uint8_t *BSONRAW_RESTRICT room, size_t room_len,
                                             const uint8_t *key, size_t key_len, double number) {
    union {
        double number;
        uint64_t bits;
    } same;
    same.number = number;
    return bsonraw_append_number(builder, room, room_len, BSONRAW_TAG_DOUBLE, key, key_len, same.bits);
}

BSONRAW_WRITES(2, 3) BSONRAW_READS(4, 5)
BSONRAW_INLINE int32_t bsonraw_append_timestamp(struct bsonraw_builder *builder, uint8_t *BSONRAW_RESTRICT room, size_t room_len,
                                                const uint8_t *key, size_t key_len, uint32_t time, uint32_t increment) {
    return bsonraw_append_number(builder, room, room_len, BSONRAW_TAG_TIMESTAMP, key, key_len, BSONRAW_UINT64(time) << 32 | increment);
}

/* True unless it is 0. */
BSONRAW_WRITES(2, 3) BSONRAW_READS(4, 5)
BSONRAW_INLINE int32_t bsonraw_append_bool(struct bsonraw_builder *builder, uint8_t *BSONRAW_RESTRICT room, size_t room_len,
                                           const uint8_t *key, size_t key_len, int32_t is_true) {
    return bsonraw_append_number(builder, room, room_len, BSONRAW_TAG_BOOLEAN, key, key_len, is_true != 0);
}

BSONRAW_WRITES(2, 3) BSONRAW_READS(4, 5)
BSONRAW_INLINE int32_t bsonraw_append_null(struct bsonraw_builder *builder, uint8_t *BSONRAW_RESTRICT room, size_t room_len,
                                           const uint8_t *key, size_t key_len) {
    return bsonraw_append_number(builder, room, room_len, BSONRAW_TAG_NULL, key, key_len, 0);
}

BSONRAW_WRITES(2, 3) BSONRAW_READS(4, 5)
BSONRAW_INLINE int32_t bsonraw_append_undefined(struct bsonraw_builder *builder, uint8_t *BSONRAW_RESTRICT room, size_t room_len,
                                                const uint8_t *key, size_t key_len) {
    return bsonraw_append_number(builder, room, room_len, BSONRAW_TAG_UNDEFINED, key, key_len, 0);
}

BSONRAW_WRITES(2, 3) BSONRAW_READS(4, 5)
BSONRAW_INLINE int32_t bsonraw_append_minkey(struct bsonraw_builder *builder, uint8_t *BSONRAW_RESTRICT room, size_t room_len,
                                             const uint8_t *key, size_t key_len) {
    return bsonraw_append_number(builder, room, room_len, BSONRAW_TAG_MIN_KEY, key, key_len, 0);
}

BSONRAW_WRITES(2, 3) BSONRAW_READS(4, 5)
BSONRAW_INLINE int32_t bsonraw_append_maxkey(struct bsonraw_builder *builder, uint8_t *BSONRAW_RESTRICT room, size_t room_len,
                                             const uint8_t *key, size_t key_len) {
    return bsonraw_append_number(builder, room, room_len, BSONRAW_TAG_MAX_KEY, key, key_len, 0);
}

BSONRAW_WRITES(2, 3) BSONRAW_READS(4, 5) BSONRAW_READS(6, 7)
BSONRAW_INLINE int32_t bsonraw_append_utf8(struct bsonraw_builder *builder, uint8_t *BSONRAW_RESTRICT room, size_t room_len,
                                           const uint8_t *key, size_t key_len, const uint8_t *text, size_t text_len) {
    return bsonraw_append(builder, room, room_len, BSONRAW_TAG_STRING, key, key_len, text, text_len, key, 0);
}

BSONRAW_WRITES(2, 3) BSONRAW_READS(4, 5) BSONRAW_READS(6, 7)
BSONRAW_INLINE int32_t bsonraw_append_code(struct bsonraw_builder *builder, uint8_t *BSONRAW_RESTRICT room, size_t room_len,
                                           const uint8_t *key, size_t key_len, const uint8_t *code, size_t code_len) {
    return bsonraw_append(builder, room, room_len, BSONRAW_TAG_JAVASCRIPT, key, key_len, code, code_len, key, 0);
}

BSONRAW_WRITES(2, 3) BSONRAW_READS(4, 5) BSONRAW_READS(6, 7)
BSONRAW_INLINE int32_t bsonraw_append_symbol(struct bsonraw_builder *builder, uint8_t *BSONRAW_RESTRICT room, size_t room_len,
                                             const uint8_t *key, size_t key_len, const uint8_t *text, size_t text_len) {
    return bsonraw_append(builder, room, room_len, BSONRAW_TAG_SYMBOL, key, key_len, text, text_len, key, 0);
}

BSONRAW_WRITES(2, 3) BSONRAW_READS(4, 5) BSONRAW_READS(6, 7)
BSONRAW_INLINE int32_t bsonraw_append_document(struct bsonraw_builder *builder, uint8_t *BSONRAW_RESTRICT room, size_t room_len,
                                               const uint8_t *key, size_t key_len, const uint8_t *document,
                                               size_t document_len) {
    return bsonraw_append(builder, room, room_len, BSONRAW_TAG_DOCUMENT, key, key_len, document, document_len, key, 0);
}

BSONRAW_WRITES(2, 3) BSONRAW_READS(4, 5) BSONRAW_READS(6, 7)
BSONRAW_INLINE int32_t bsonraw_append_array(struct bsonraw_builder *builder, uint8_t *BSONRAW_RESTRICT room, size_t room_len,
                                            const uint8_t *key, size_t key_len, const uint8_t *array, size_t array_len) {
    return bsonraw_append(builder, room, room_len, BSONRAW_TAG_ARRAY, key, key_len, array, array_len, key, 0);
}

/* The twelve bytes of an ObjectId. */
BSONRAW_WRITES(2, 3) BSONRAW_READS(4, 5)
BSONRAW_INLINE int32_t bsonraw_append_oid(struct bsonraw_builder *builder, uint8_t *BSONRAW_RESTRICT room, size_t room_len,
                                          const uint8_t *key, size_t key_len, const uint8_t id[12]) {
    return bsonraw_append(builder, room, room_len, BSONRAW_TAG_OBJECT_ID, key, key_len, id, 12, key, 0);
}

/* The sixteen bytes of a Decimal128. */
BSONRAW_WRITES(2, 3) BSONRAW_READS(4, 5)
BSONRAW_INLINE int32_t bsonraw_append_decimal128(struct bsonraw_builder *builder, uint8_t *BSONRAW_RESTRICT room, size_t room_len,
                                                 const uint8_t *key, size_t key_len, const uint8_t decimal[16]) {
    return bsonraw_append(builder, room, room_len, BSONRAW_TAG_DECIMAL128, key, key_len, decimal, 16, key, 0);
}

BSONRAW_WRITES(2, 3) BSONRAW_READS(4, 5) BSONRAW_READS(7, 8)
BSONRAW_INLINE int32_t bsonraw_append_binary(struct bsonraw_builder *builder, uint8_t *BSONRAW_RESTRICT room, size_t room_len,
                                             const uint8_t *key, size_t key_len, uint8_t subtype, const uint8_t *data,
                                             size_t data_len) {
    return bsonraw_append(builder, room, room_len, BSONRAW_TAG_BINARY, key, key_len, data, data_len, &subtype, 1);
}

BSONRAW_WRITES(2, 3) BSONRAW_READS(4, 5) BSONRAW_READS(6, 7) BSONRAW_READS(8, 9)
BSONRAW_INLINE int32_t bsonraw_append_regex(struct bsonraw_builder *builder, uint8_t *BSONRAW_RESTRICT room, size_t room_len,
                                            const uint8_t *key, size_t key_len, const uint8_t *pattern, size_t pattern_len,
                                            const uint8_t *options, size_t options_len) {
    return bsonraw_append(builder, room, room_len, BSONRAW_TAG_REGEX, key, key_len,
                          pattern, pattern_len, options, options_len);
}

BSONRAW_WRITES(2, 3) BSONRAW_READS(4, 5) BSONRAW_READS(6, 7)
BSONRAW_INLINE int32_t bsonraw_append_dbpointer(struct bsonraw_builder *builder, uint8_t *BSONRAW_RESTRICT room, size_t room_len,
                                                const uint8_t *key, size_t key_len, const uint8_t *name, size_t name_len,
                                                const uint8_t id[12]) {
    return bsonraw_append(builder, room, room_len, BSONRAW_TAG_DB_POINTER, key, key_len, name, name_len, id, 12);
}

BSONRAW_WRITES(2, 3) BSONRAW_READS(4, 5) BSONRAW_READS(6, 7) BSONRAW_READS(8, 9)
BSONRAW_INLINE int32_t bsonraw_append_code_with_scope(struct bsonraw_builder *builder, uint8_t *BSONRAW_RESTRICT room, size_t room_len,
                                                      const uint8_t *key, size_t key_len, const uint8_t *code,
                                                      size_t code_len, const uint8_t *scope, size_t scope_len) {
    return bsonraw_append(builder, room, room_len, BSONRAW_TAG_JAVASCRIPT_WITH_SCOPE, key, key_len,
                          code, code_len, scope, scope_len);
}

BSONRAW_WRITES(2, 3) BSONRAW_READS(4, 5)
BSONRAW_INLINE int32_t bsonraw_append_document_begin(struct bsonraw_builder *builder, uint8_t *BSONRAW_RESTRICT room, size_t room_len,
                                                     const uint8_t *key, size_t key_len, struct bsonraw_builder *BSONRAW_RESTRICT level) {
    return bsonraw_append_begin(builder, room, room_len, BSONRAW_TAG_DOCUMENT, key, key_len, level);
}

BSONRAW_WRITES(2, 3) BSONRAW_READS(4, 5)
BSONRAW_INLINE int32_t bsonraw_append_array_begin(struct bsonraw_builder *builder, uint8_t *BSONRAW_RESTRICT room, size_t room_len,
                                                  const uint8_t *key, size_t key_len, struct bsonraw_builder *BSONRAW_RESTRICT level) {
    return bsonraw_append_begin(builder, room, room_len, BSONRAW_TAG_ARRAY, key, key_len, level);
}

/* ---- documents one after the other: proved -------------------------------------------------------------------------- */

/* A reader of a buffer of documents, which may be longer than 32 bits say: other calls are given a document as
 * bytes + document_at and document_len. All 0 is one that begins. */
struct bsonraw_reader {
    uint64_t document_at;
    uint64_t document_len;
    uint64_t next; /* where the next document begins */
    struct bsonraw_error error; /* the last fault that was met */
};

/* Goes on to the next document: BSONRAW_OK; BSONRAW_NONE at the end of the bytes. Else BSONRAW_NO_DOCUMENT, and error says
 * why: where the length is sound and the last byte isn't 0 (BSONRAW_NOT_TERMINATED), the next call goes on after it; otherwise
 * nothing says where the next document begins, and the next call returns BSONRAW_NONE. BSONRAW_BAD_OFFSET where next is over
 * len.
 *
 *     struct bsonraw_reader reader = {0, 0, 0, {0, 0, 0, 0, 0}};
 *     int32_t status = BSONRAW_OK;
 *     while (status == BSONRAW_OK || status == BSONRAW_NO_DOCUMENT) {
 *         status = bsonraw_reader_read(&reader, bytes, len);
 *         if (status == BSONRAW_OK) fwrite(bytes + reader.document_at, 1, reader.document_len, stdout);
 *     }
 */
BSONRAW_USE int32_t bsonraw_reader_read(struct bsonraw_reader *reader, const uint8_t *bytes, size_t len);

#ifndef BSONRAW_UNCHECKED
BSONRAW_READS(2, 3)
BSONRAW_USE BSONRAW_INLINE int32_t bsonraw_checked_reader_read(struct bsonraw_reader *reader, const uint8_t *bytes, size_t len) {
    if (!reader || BSONRAW_LACKS(bytes, len)) return BSONRAW_NULL;
    return bsonraw_reader_read(reader, bsonraw_some_bytes(bytes), len);
}
#define bsonraw_reader_read bsonraw_checked_reader_read
#endif

/* What the searches in a buffer cost so far, and what the last one found. All 0 is one that begins. */
struct bsonraw_resync {
    uint64_t spent;    /* how many bytes they were charged, at most eight for each byte up to reach */
    uint64_t reach;    /* the furthest end of what they looked into */
    uint32_t believed; /* 1 where the length of the damaged document is believed */
    uint32_t left_out; /* 1 where a place wasn't looked at, which would have taken spent over that */
};

/* Goes on after damage, which is the document that the reader is at, or the place of its last fault where it is at none:
 * BSONRAW_OK, and next is where reading goes on. Documents go on at the end, and where one counts: one without damage, of over 8 bytes, and
 * of at most max_bytes bytes and max_depth levels, unless the bytes before it, from the damage on, end with the tag of a document, an array
 * or an int32 and a key with its 0, since it may be nested there, or its length a number. Such a key is UTF-8 of 1 to 64 bytes, none
 * under 32.
 * Where the damaged document says a length that it may have, and that many bytes are there, next is after these if its elements follow one
 * another up to a final 0 there, whatever their values mean, or if documents go on at no place inside, and right after them, whatever is
 * before. Otherwise next is the first place after the damage's first byte where documents go on. Where left_out is 1, that is so of the
 * places that were looked at. Nothing else in reader is changed.
 * It takes memory as bsonraw_first_fault does of a document that it looks into.
 * Nothing at all is changed with BSONRAW_BAD_OFFSET, where the damage would be at len or after it, or the searches can't have cost that
 * much in these bytes; BSONRAW_TOO_MANY_BYTES, where len is over 2 to the power of 60; and BSONRAW_NO_MEMORY.
 *
 *     struct bsonraw_reader reader = {0, 0, 0, {0, 0, 0, 0, 0}};
 *     struct bsonraw_resync resync = {0, 0, 0, 0};
 *     struct bsonraw_report r;
 *     uint64_t path[1];
 *     int32_t status = BSONRAW_OK;
 *     while (status == BSONRAW_OK) {
 *         status = bsonraw_reader_read(&reader, bytes, len);
 *         const uint8_t *document = bytes + reader.document_at;
 *         if (status == BSONRAW_OK &&
 *             bsonraw_first_fault(document, reader.document_len, 1 << 24, 500, &r, path, 1) == BSONRAW_OK)
 *             fwrite(document, 1, reader.document_len, stdout);
 *         else if (status == BSONRAW_OK || status == BSONRAW_NO_DOCUMENT)
 *             status = bsonraw_reader_resync(&reader, bytes, len, 1 << 24, 500, &resync);
 *     }
 */
BSONRAW_USE int32_t bsonraw_reader_resync(struct bsonraw_reader *reader, const uint8_t *bytes, size_t len, size_t max_bytes,
                                          size_t max_depth, struct bsonraw_resync *resync);

#ifndef BSONRAW_UNCHECKED
BSONRAW_READS(2, 3)
BSONRAW_USE BSONRAW_INLINE int32_t bsonraw_checked_reader_resync(struct bsonraw_reader *reader, const uint8_t *bytes, size_t len,
                                                                 size_t max_bytes, size_t max_depth, struct bsonraw_resync *resync) {
    if (!reader || !resync || BSONRAW_LACKS(bytes, len)) return BSONRAW_NULL;
    return bsonraw_reader_resync(reader, bsonraw_some_bytes(bytes), len, max_bytes, max_depth, resync);
}
#define bsonraw_reader_resync bsonraw_checked_reader_resync
#endif

/* ---- whole documents -------------------------------------------------------------------------------------------------
 *
 * Proved, but bsonraw_json_text, which is tested.
 * These calls look at all levels: the document is one, and each document, array and scope in it is another. A call returns
 * the first of these: BSONRAW_NO_DOCUMENT, and error says why; BSONRAW_TOO_MANY_BYTES, and no element is read; then what comes
 * first, depth first in byte order, of BSONRAW_FAULT (bsonraw_check: BSONRAW_BREACH) and of BSONRAW_TOO_DEEP, where a level is
 * deeper than max_depth, and nothing inside it is read; then what each call says. Where memory is refused, BSONRAW_NO_MEMORY
 * comes in place of any but the first two, and with a max_depth of 0 in place of none. Memory is taken for the levels that are
 * open, under 100 bytes for each, and besides as each call says.
 *
 * Each call fills a report, and what isn't said here is 0. Of a fault, a breach, and a level that is too deep, it says the
 * place: error.offset is where the element begins that is at fault or holds the level, or of a stop where the next element
 * should begin. The path has for each level, from the outermost on, the number of the element, from 0; of a stop how many
 * elements are before it. As many of its path_len numbers as there is room for are written to the front of path, and with any
 * other status none. The key is that of the element; of a stop the one that the stop has, if any, but with bsonraw_check none.
 */
struct bsonraw_report {
    uint64_t count;    /* with BSONRAW_OK and BSONRAW_SMALL_BUFFER: how many tokens there are, or how many bytes the form has */
    uint64_t path_len; /* how many numbers the path has */
    uint32_t cause;    /* of a breach: enum bsonraw_cause */
    uint32_t has_key;  /* 1 where the place has a key */
    uint64_t key_at;   /* the key; without one the length of the bytes */
    uint64_t key_len;
    struct bsonraw_error error; /* what is wrong, and where; of a breach only where */
};

struct bsonraw_token {
    uint32_t tag;   /* as in a cursor */
    uint32_t depth; /* 0 in the document itself, and one more in each level inside */
    uint32_t key_at;
    uint32_t key_len;
    uint32_t payload_at;
    uint32_t payload_len;
    uint32_t inside; /* how many tokens are inside; the next element of the same level is 1 + inside tokens further on */
};

/* The elements of all levels, depth first in byte order: BSONRAW_OK, and count tokens are at the front of the room. A code with
 * scope has the elements of its scope inside, one level deeper. What a token says needs no second look: texts are UTF-8,
 * numbers have their bytes, a boolean is 0 or 1, the inner length of a binary of subtype 2 is right, a scope is a document.
 * BSONRAW_SMALL_BUFFER where the document has count tokens and the room only the first of them. With BSONRAW_FAULT,
 * BSONRAW_TOO_DEEP, BSONRAW_TOO_MANY_BYTES and BSONRAW_NO_MEMORY what is in the room isn't said.
 *
 *     struct bsonraw_token tokens[256];
 *     struct bsonraw_report r;
 *     uint64_t path[16], i;
 *     if (bsonraw_flatten(bytes, len, 1 << 20, 100, tokens, 256, &r, path, 16) == BSONRAW_OK)
 *         for (i = 0; i < r.count; i++)
 *             printf("%*s%.*s\n", BSONRAW_INT32(tokens[i].depth), "", BSONRAW_TEXT(bytes, tokens[i].key_at, tokens[i].key_len));
 */
BSONRAW_USE int32_t bsonraw_flatten(const uint8_t *bytes, size_t len, size_t max_bytes, size_t max_depth,
                                    struct bsonraw_token *BSONRAW_RESTRICT tokens, size_t room, struct bsonraw_report *report, uint64_t *path,
                                    size_t path_room);

/* The first fault at any level, and its place: BSONRAW_FAULT; or BSONRAW_OK where there is none.
 *
 *     struct bsonraw_report r;
 *     uint64_t path[16];
 *     if (bsonraw_first_fault(bytes, len, 1 << 20, 100, &r, path, 16) == BSONRAW_FAULT)
 *         printf("reason %u at %lu\n", r.error.reason, r.error.offset);
 */
BSONRAW_USE int32_t bsonraw_first_fault(const uint8_t *bytes, size_t len, size_t max_bytes, size_t max_depth,
                                        struct bsonraw_report *report, uint64_t *path, size_t path_room);

/* Whether the document is canonical: BSONRAW_OK; or BSONRAW_BREACH, with the cause of its first breach and its place. An
 * element's key is looked at first, then its value, then what is inside. bsonraw_first_fault says why a value or a stop is a
 * breach. It takes memory for the keys of the documents that are open: mostly under 100 bytes for each, up to
 * 200 where documents have few more than 128 or 1024 keys.
 *
 *     struct bsonraw_report r;
 *     uint64_t path[16], level;
 *     if (bsonraw_check(bytes, len, 1 << 20, 16, &r, path, 16) == BSONRAW_BREACH)
 *         for (level = 0; level < r.path_len; level++) printf("%lu ", path[level]);
 */
BSONRAW_USE int32_t bsonraw_check(const uint8_t *bytes, size_t len, size_t max_bytes, size_t max_depth,
                                  struct bsonraw_report *report, uint64_t *path, size_t path_room);

/* The canonical form, of count bytes: BSONRAW_OK, and it is at the front of form; BSONRAW_SMALL_BUFFER where form_len is less;
 * before these BSONRAW_TOO_LONG. With any status but BSONRAW_OK nothing is written to form. It takes memory as bsonraw_check, and for
 * the form; but not for that of a canonical document where form_len is less than its length.
 *
 *     uint8_t form[4096];
 *     struct bsonraw_report r;
 *     uint64_t path[16];
 *     if (bsonraw_canonical(bytes, len, 1 << 20, 100, form, sizeof form, &r, path, 16) == BSONRAW_OK)
 *         fwrite(form, 1, r.count, stdout);
 *
 * A document has at most 2147483647 bytes, so SIZE_MAX for max_bytes is no limit; 0 refuses every document. Into memory of the
 * right size, in two calls, where the first one asks for the length:
 *
 *     uint8_t *form = NULL;
 *     struct bsonraw_report r;
 *     if (bsonraw_canonical(bytes, len, SIZE_MAX, 100, NULL, 0, &r, NULL, 0) == BSONRAW_SMALL_BUFFER)
 *         form = malloc(r.count);
 *     if (form && bsonraw_canonical(bytes, len, SIZE_MAX, 100, form, r.count, &r, NULL, 0) == BSONRAW_OK)
 *         fwrite(form, 1, r.count, stdout);
 *     free(form);
 */
BSONRAW_USE int32_t bsonraw_canonical(const uint8_t *bytes, size_t len, size_t max_bytes, size_t max_depth, uint8_t *BSONRAW_RESTRICT form,
                                      size_t form_len, struct bsonraw_report *report, uint64_t *path, size_t path_room);

/* The order of two documents by the bytes of their canonical forms, as memcmp has it: -1, 0 or 1. It is 0 where both have one form,
 * whatever their bytes are. BSONRAW_OK; else the status of bsonraw_canonical with the first one that has no form, with as many levels as
 * there are, and order is 0. It takes memory for both forms.
 *
 *     int32_t order;
 *     if (bsonraw_compare(bytes, len, bytes, len, &order) == BSONRAW_OK && order == 0) puts("one form");
 */
BSONRAW_USE int32_t bsonraw_compare(const uint8_t *one, size_t one_len, const uint8_t *other, size_t other_len, int32_t *order);

/* The document as MongoDB's Extended JSON v2, relaxed or, where canonical isn't 0, canonical; on one line or, where indented isn't 0,
 * with a line for each member, indented by two spaces a level, but none within a wrapper, as {"$oid": ..}. Each element is printed as it
 * is: repeated keys in order, an array without its keys. BSONRAW_OK, and the text is at the front of text, with a 0 after it; count is
 * its bytes without that 0. BSONRAW_SMALL_BUFFER where text_len is less than 1 + count. With any status but BSONRAW_OK nothing is
 * written to text. It takes memory for the text of the largest value that isn't a document or an array, and for as much of the whole
 * text as fits into text_len bytes, which is none where that is 0; of each at most twice as much. Indented, each line has two bytes for
 * each level that it is in, so that max_depth bounds the text as well. bsonraw_json_write prints in little memory. A canonical text says
 * all of a canonical document except for the bits of a NaN, a Decimal128 that isn't canonical, and a nested document with a key as $oid or
 * $date, which is printed as such a value is.
 *
 *     uint8_t text[4096];
 *     struct bsonraw_report r;
 *     uint64_t path[16];
 *     if (bsonraw_json(bytes, len, 1 << 20, 100, 0, 0, text, sizeof text, &r, path, 16) == BSONRAW_OK)
 *         fwrite(text, 1, r.count, stdout);
 */
BSONRAW_USE int32_t bsonraw_json(const uint8_t *bytes, size_t len, size_t max_bytes, size_t max_depth, uint32_t canonical,
                                 uint32_t indented, uint8_t *BSONRAW_RESTRICT text, size_t text_len, struct bsonraw_report *report,
                                 uint64_t *path, size_t path_room);

#ifndef BSONRAW_UNCHECKED
BSONRAW_READS(1, 2) BSONRAW_WRITES(5, 6) BSONRAW_WRITES(8, 9)
BSONRAW_USE BSONRAW_INLINE int32_t bsonraw_checked_flatten(const uint8_t *bytes, size_t len, size_t max_bytes, size_t max_depth,
                                                           struct bsonraw_token *BSONRAW_RESTRICT tokens, size_t room, struct bsonraw_report *report,
                                                           uint64_t *path, size_t path_room) {
    static struct bsonraw_token none;
    if (BSONRAW_LACKS(bytes, len) || BSONRAW_LACKS(tokens, room) || !report || BSONRAW_LACKS(path, path_room)) return BSONRAW_NULL;
    return bsonraw_flatten(bsonraw_some_bytes(bytes), len, max_bytes, max_depth, tokens ? tokens : &none, room, report,
                           bsonraw_some_path(path), path_room);
}
#define bsonraw_flatten bsonraw_checked_flatten

BSONRAW_READS(1, 2) BSONRAW_WRITES(6, 7)
BSONRAW_USE BSONRAW_INLINE int32_t bsonraw_checked_first_fault(const uint8_t *bytes, size_t len, size_t max_bytes, size_t max_depth,
                                                               struct bsonraw_report *report, uint64_t *path, size_t path_room) {
    if (BSONRAW_LACKS(bytes, len) || !report || BSONRAW_LACKS(path, path_room)) return BSONRAW_NULL;
    return bsonraw_first_fault(bsonraw_some_bytes(bytes), len, max_bytes, max_depth, report, bsonraw_some_path(path), path_room);
}
#define bsonraw_first_fault bsonraw_checked_first_fault

BSONRAW_READS(1, 2) BSONRAW_WRITES(6, 7)
BSONRAW_USE BSONRAW_INLINE int32_t bsonraw_checked_check(const uint8_t *bytes, size_t len, size_t max_bytes, size_t max_depth,
                                                         struct bsonraw_report *report, uint64_t *path, size_t path_room) {
    if (BSONRAW_LACKS(bytes, len) || !report || BSONRAW_LACKS(path, path_room)) return BSONRAW_NULL;
    return bsonraw_check(bsonraw_some_bytes(bytes), len, max_bytes, max_depth, report, bsonraw_some_path(path), path_room);
}
#define bsonraw_check bsonraw_checked_check

BSONRAW_READS(1, 2) BSONRAW_WRITES(5, 6) BSONRAW_WRITES(8, 9)
BSONRAW_USE BSONRAW_INLINE int32_t bsonraw_checked_canonical(const uint8_t *bytes, size_t len, size_t max_bytes, size_t max_depth,
                                                             uint8_t *BSONRAW_RESTRICT form, size_t form_len, struct bsonraw_report *report,
                                                             uint64_t *path, size_t path_room) {
    if (BSONRAW_LACKS(bytes, len) || BSONRAW_LACKS(form, form_len) || !report || BSONRAW_LACKS(path, path_room)) return BSONRAW_NULL;
    return bsonraw_canonical(bsonraw_some_bytes(bytes), len, max_bytes, max_depth, bsonraw_some_room(form), form_len, report,
                             bsonraw_some_path(path), path_room);
}
#define bsonraw_canonical bsonraw_checked_canonical

BSONRAW_READS(1, 2) BSONRAW_READS(3, 4)
BSONRAW_USE BSONRAW_INLINE int32_t bsonraw_checked_compare(const uint8_t *one, size_t one_len, const uint8_t *other, size_t other_len,
                                                           int32_t *order) {
    if (BSONRAW_LACKS(one, one_len) || BSONRAW_LACKS(other, other_len) || !order) return BSONRAW_NULL;
    return bsonraw_compare(bsonraw_some_bytes(one), one_len, bsonraw_some_bytes(other), other_len, order);
}
#define bsonraw_compare bsonraw_checked_compare

BSONRAW_READS(1, 2) BSONRAW_WRITES(7, 8) BSONRAW_WRITES(10, 11)
BSONRAW_USE BSONRAW_INLINE int32_t bsonraw_checked_json(const uint8_t *bytes, size_t len, size_t max_bytes, size_t max_depth,
                                                        uint32_t canonical, uint32_t indented, uint8_t *BSONRAW_RESTRICT text, size_t text_len,
                                                        struct bsonraw_report *report, uint64_t *path, size_t path_room) {
    if (BSONRAW_LACKS(bytes, len) || BSONRAW_LACKS(text, text_len) || !report || BSONRAW_LACKS(path, path_room)) return BSONRAW_NULL;
    return bsonraw_json(bsonraw_some_bytes(bytes), len, max_bytes, max_depth, canonical, indented, bsonraw_some_room(text), text_len,
                        report, bsonraw_some_path(path), path_room);
}
#define bsonraw_json bsonraw_checked_json
#endif

/* What of Extended JSON is printed, in the calls that follow: 0 is relaxed, on one line. The bytes of an array that stands alone, as
 * bsonraw_get_array gives them, are printed as one, and not as a document, with BSONRAW_JSON_ARRAY; bsonraw_json_text doesn't take it. */
enum bsonraw_json_flags { BSONRAW_JSON_CANONICAL = 1, BSONRAW_JSON_INDENTED = 2, BSONRAW_JSON_ARRAY = 4 };

/* bsonraw_json for a room of char, with flags: puts(text) takes it without a cast. bsonraw_json_new takes memory for it. */
BSONRAW_READS(1, 2) BSONRAW_WRITES(6, 7) BSONRAW_WRITES(9, 10)
BSONRAW_USE BSONRAW_INLINE int32_t bsonraw_json_text(const uint8_t *bytes, size_t len, size_t max_bytes, size_t max_depth, uint32_t flags,
                                                     char *BSONRAW_RESTRICT text, size_t text_len, struct bsonraw_report *report,
                                                     uint64_t *path, size_t path_room) {
    return bsonraw_json(bytes, len, max_bytes, max_depth, flags & BSONRAW_JSON_CANONICAL, flags & BSONRAW_JSON_INDENTED, BSONRAW_ROOM(text),
                        text_len, report, path, path_room);
}

/* ---- documents from text: proved, but where and why a text is refused, which is tested ------------------------------- */

/* Why a text isn't read. */
enum bsonraw_json_reason {
    BSONRAW_JSON_END_OF_TEXT = 1,       /* the text ends inside the document */
    BSONRAW_JSON_BYTE_ORDER_MARK = 2,   /* a byte order mark is at the front */
    BSONRAW_JSON_EXPECTED_DOCUMENT = 3, /* another value than a document */
    BSONRAW_JSON_EXPECTED_KEY = 4,      /* no key in quotes is where one has to be */
    BSONRAW_JSON_EXPECTED_COLON = 5,
    BSONRAW_JSON_EXPECTED_COMMA = 6,    /* no comma, nor the end of the object or array */
    BSONRAW_JSON_EXPECTED_VALUE = 7,
    BSONRAW_JSON_TEXT_BEHIND = 8,       /* the text goes on after the document */
    BSONRAW_JSON_BAD_NUMBER = 9,        /* no number as JSON writes them */
    BSONRAW_JSON_INTEGER_TOO_LARGE = 10,/* an integer of more than 64 bits */
    BSONRAW_JSON_NUMBER_TOO_LARGE = 11, /* a number beyond the greatest double */
    BSONRAW_JSON_CONTROL_CHARACTER = 12,/* a control character in a string, which has to be escaped */
    BSONRAW_JSON_BAD_ESCAPE = 13,       /* no escape of JSON */
    BSONRAW_JSON_LONE_SURROGATE = 14,   /* half a surrogate pair */
    BSONRAW_JSON_INTERIOR_NUL = 15,     /* U+0000 in a key, a pattern or options */
    BSONRAW_JSON_MALFORMED = 16,        /* a wrapper's key, and no value of that wrapper */
    BSONRAW_JSON_INEXACT_DECIMAL = 17,  /* no Decimal128 is exactly this decimal */
    BSONRAW_JSON_NOT_UTF8 = 18,         /* the text isn't UTF-8 */
    BSONRAW_JSON_UNSOUND = 19           /* reserved: no text gives this */
};

/* The objects that write a value that JSON has no words for, by their keys. */
enum bsonraw_json_wrapper {
    BSONRAW_JSON_OID = 1,                /* $oid */
    BSONRAW_JSON_NUMBER_INT = 2,         /* $numberInt */
    BSONRAW_JSON_NUMBER_LONG = 3,        /* $numberLong */
    BSONRAW_JSON_NUMBER_DOUBLE = 4,      /* $numberDouble */
    BSONRAW_JSON_NUMBER_DECIMAL = 5,     /* $numberDecimal */
    BSONRAW_JSON_BINARY = 6,             /* $binary */
    BSONRAW_JSON_UUID = 7,               /* $uuid */
    BSONRAW_JSON_DATE = 8,               /* $date */
    BSONRAW_JSON_REGULAR_EXPRESSION = 9, /* $regularExpression */
    BSONRAW_JSON_TIMESTAMP = 10,         /* $timestamp */
    BSONRAW_JSON_CODE = 11,              /* $code */
    BSONRAW_JSON_SCOPE = 12,             /* $scope, before $code */
    BSONRAW_JSON_DB_POINTER = 13,        /* $dbPointer */
    BSONRAW_JSON_SYMBOL = 14,            /* $symbol */
    BSONRAW_JSON_UNDEFINED = 15,         /* $undefined */
    BSONRAW_JSON_MIN_KEY = 16,           /* $minKey */
    BSONRAW_JSON_MAX_KEY = 17            /* $maxKey */
};

struct bsonraw_json_report {
    uint64_t count;       /* with BSONRAW_OK and BSONRAW_SMALL_BUFFER: how many bytes the document has */
    uint64_t offset;      /* with any other: how many bytes of the text are before the place of the error, */
    uint64_t line;        /* the number of its line, from 1, */
    uint64_t column;      /* and that of its character in the line, from 1 */
    uint32_t json_reason; /* with BSONRAW_FAULT: enum bsonraw_json_reason. bsonraw_json_fault_text has its words */
    uint32_t wrapper;     /* with BSONRAW_JSON_MALFORMED: enum bsonraw_json_wrapper */
};

/* The document that a text of MongoDB's Extended JSON v2 writes, canonical or relaxed: BSONRAW_OK, and its count bytes are at the
 * front of document; BSONRAW_SMALL_BUFFER where document_len is less. Else BSONRAW_FAULT, BSONRAW_TOO_MANY_BYTES, BSONRAW_TOO_DEEP
 * or BSONRAW_NO_MEMORY, and the report says where the text isn't read. With any status but BSONRAW_OK nothing is written to
 * document. What isn't said of the report is 0. The text is UTF-8, and needs no 0 after it.
 * A number without a wrapper is an int32 or else an int64 where it is an integer, and else the nearest double. An object with a
 * wrapper's key is its value, or an error, and $binary may be beside $type, as in version 1; only the whole text and a scope are
 * documents whatever their keys. Keys that repeat are kept, in order. It takes memory for the levels, under 100 bytes for each; for the
 * document, which has at most max_bytes, and up to three times as much while it grows; and for as many bytes as the text has.
 *
 *     uint8_t document[4096];
 *     struct bsonraw_json_report r;
 *     int32_t status = bsonraw_from_json(BSONRAW_KEY("{\"a\": [1, true],\n \"b\": tru}"), 1 << 20, 100, document, sizeof document, &r);
 *     if (status == BSONRAW_OK)
 *         fwrite(document, 1, r.count, stdout);
 *     else if (status == BSONRAW_FAULT)
 *         printf("line %lu, column %lu: reason %u\n", r.line, r.column, r.json_reason);
 */
BSONRAW_USE int32_t bsonraw_from_json(const uint8_t *text, size_t len, size_t max_bytes, size_t max_depth, uint8_t *BSONRAW_RESTRICT document,
                                      size_t document_len, struct bsonraw_json_report *report);

#ifndef BSONRAW_UNCHECKED
BSONRAW_READS(1, 2) BSONRAW_WRITES(5, 6)
BSONRAW_USE BSONRAW_INLINE int32_t bsonraw_checked_from_json(const uint8_t *text, size_t len, size_t max_bytes, size_t max_depth,
                                                             uint8_t *BSONRAW_RESTRICT document, size_t document_len,
                                                             struct bsonraw_json_report *report) {
    if (BSONRAW_LACKS(text, len) || BSONRAW_LACKS(document, document_len) || !report) return BSONRAW_NULL;
    return bsonraw_from_json(bsonraw_some_bytes(text), len, max_bytes, max_depth, bsonraw_some_room(document), document_len, report);
}
#define bsonraw_from_json bsonraw_checked_from_json
#endif

/* How many bytes an array has; a pointer doesn't compile here. */
#if defined(__cplusplus)
extern "C++" {
template <size_t len>
char (&bsonraw_array(uint8_t (&array)[len]))[len];
}
#define BSONRAW_ARRAY_LEN(array) sizeof(bsonraw_array(array))
#elif defined(__GNUC__)
#define BSONRAW_ARRAY_LEN(array) \
    (sizeof(array) + 0 * sizeof(char[1 - 2 * __builtin_types_compatible_p(__typeof__(array), __typeof__(&(array)[0]))]))
#else
#define BSONRAW_ARRAY_LEN(array) sizeof(array)
#endif

/* Of a literal, into an array: BSONRAW_FROM_JSON("{\"a\": 1}", document, &r). */
#define BSONRAW_FROM_JSON(literal, array, report) \
    bsonraw_from_json(BSONRAW_KEY(literal), 2147483647, 500, array, BSONRAW_ARRAY_LEN(array), report)

/* ---- values as text --------------------------------------------------------------------------------------------------
 *
 * Proved.
 * The library's calls take a text with its length, as declared; by their names a program gives one that a 0 ends. Where a text isn't read,
 * what was to be written is as it was.
 */

#define BSONRAW_OID_TEXT 25 /* bytes of an ObjectId as text, with its 0 */

/* The twelve bytes of an ObjectId as 24 hex digits and a 0, BSONRAW_OK; from 24 hex digits, else BSONRAW_FAULT; and the seconds from
 * 1970 on that it says. */
int32_t bsonraw_oid_to_hex(const uint8_t id[12], char hex[BSONRAW_OID_TEXT]);
BSONRAW_USE int32_t bsonraw_oid_from_hex(const uint8_t *hex, size_t hex_len, uint8_t id[12]);
uint32_t bsonraw_oid_time(const uint8_t id[12]);

/* The sixteen bytes of a Decimal128 as text, as 1.50, 1.5E+20, NaN or -Infinity, and a 0; and the bytes that such a text writes:
 * BSONRAW_FAULT where it is none, or where no Decimal128 is exactly that number. Milliseconds from 1970 on as ISO 8601 has them, as
 * 2012-12-24T12:15:30.501Z, without a fraction where it is 0, and a 0: BSONRAW_FAULT before the year 0 and from 10000 on; and from such a
 * text, in UTC or with a zone as +01:00 or +0100, T and Z in either case. The texts are those of Extended JSON. These calls take no
 * memory; with any status but BSONRAW_OK nothing is written.
 *
 *     char text[BSONRAW_DATE_TIME_TEXT];
 *     if (bsonraw_date_time_to_text(-2769984000000, text) == BSONRAW_OK) puts(text);
 */
#define BSONRAW_DECIMAL128_TEXT 43 /* bytes of the longest one, with its 0 */
#define BSONRAW_DATE_TIME_TEXT 25

BSONRAW_USE int32_t bsonraw_decimal128_to_text(const uint8_t decimal[16], char text[BSONRAW_DECIMAL128_TEXT]);
BSONRAW_USE int32_t bsonraw_decimal128_from_text(const uint8_t *text, size_t text_len, uint8_t decimal[16]);
BSONRAW_USE int32_t bsonraw_date_time_to_text(int64_t millis, char text[BSONRAW_DATE_TIME_TEXT]);
BSONRAW_USE int32_t bsonraw_date_time_from_text(const uint8_t *text, size_t text_len, int64_t *millis);

BSONRAW_USE BSONRAW_INLINE int32_t bsonraw_checked_oid_from_hex(const char *hex, uint8_t id[12]) {
    return hex && id ? bsonraw_oid_from_hex(BSONRAW_STR(hex), id) : BSONRAW_NULL;
}
#define bsonraw_oid_from_hex bsonraw_checked_oid_from_hex

BSONRAW_USE BSONRAW_INLINE int32_t bsonraw_checked_decimal128_from_text(const char *text, uint8_t decimal[16]) {
    return text && decimal ? bsonraw_decimal128_from_text(BSONRAW_STR(text), decimal) : BSONRAW_NULL;
}
#define bsonraw_decimal128_from_text bsonraw_checked_decimal128_from_text

BSONRAW_USE BSONRAW_INLINE int32_t bsonraw_checked_date_time_from_text(const char *text, int64_t *millis) {
    return text && millis ? bsonraw_date_time_from_text(BSONRAW_STR(text), millis) : BSONRAW_NULL;
}
#define bsonraw_date_time_from_text bsonraw_checked_date_time_from_text

#ifndef BSONRAW_UNCHECKED
BSONRAW_INLINE int32_t bsonraw_checked_oid_to_hex(const uint8_t id[12], char hex[BSONRAW_OID_TEXT]) {
    return id && hex ? bsonraw_oid_to_hex(id, hex) : BSONRAW_NULL;
}
#define bsonraw_oid_to_hex bsonraw_checked_oid_to_hex

BSONRAW_INLINE uint32_t bsonraw_checked_oid_time(const uint8_t id[12]) {
    return id ? bsonraw_oid_time(id) : 0;
}
#define bsonraw_oid_time bsonraw_checked_oid_time

BSONRAW_USE BSONRAW_INLINE int32_t bsonraw_checked_decimal128_to_text(const uint8_t decimal[16], char text[BSONRAW_DECIMAL128_TEXT]) {
    return decimal && text ? bsonraw_decimal128_to_text(decimal, text) : BSONRAW_NULL;
}
#define bsonraw_decimal128_to_text bsonraw_checked_decimal128_to_text

BSONRAW_USE BSONRAW_INLINE int32_t bsonraw_checked_date_time_to_text(int64_t millis, char text[BSONRAW_DATE_TIME_TEXT]) {
    return text ? bsonraw_date_time_to_text(millis, text) : BSONRAW_NULL;
}
#define bsonraw_date_time_to_text bsonraw_checked_date_time_to_text
#endif

/* ---- faults and places as text ---------------------------------------------------------------------------------------
 *
 * Proved.
 * As snprintf each call puts as much of its text as there is room for, and a 0 after it, and returns how many bytes the text has without
 * that 0. NULL for a room is no room, for bytes or a path none, and for an error or a report no fault.
 */

/* What is wrong by an error, with its numbers, as "a value is longer than what is left: 4157 where 62 are left"; 150 bytes are always
 * enough. */
size_t bsonraw_fault_text(const struct bsonraw_error *error, char *BSONRAW_RESTRICT text, size_t room);

/* What is wrong with a text of JSON, as "expected a value", and of a wrapper what it has to be, as "this is not {"$oid": 24 hex digits}": of
 * a report of bsonraw_from_json with BSONRAW_FAULT. 100 bytes are always enough.
 *
 *     uint8_t document[64];
 *     struct bsonraw_json_report r;
 *     char why[100];
 *     if (BSONRAW_FROM_JSON("{\"id\": {\"$oid\": \"12\"}}", document, &r) == BSONRAW_FAULT) {
 *         bsonraw_json_fault_text(&r, why, sizeof why);
 *         printf("line %lu, column %lu: %s\n", r.line, r.column, why);
 *     }
 */
size_t bsonraw_json_fault_text(const struct bsonraw_json_report *report, char *BSONRAW_RESTRICT text, size_t room);

/* The path of a report as a text, as bsonraw-dump prints it: for each level a slash, the number, and where there is a key a colon and
 * the key in quotes, as in JSON, with all control characters escaped: /1:"authors"/0:"0". Of more than 20 levels the first ten and the last
 * ten are there, with /.. between. The text of bytes that are no document is empty. A path that leads nowhere ends where it does.
 *
 *     struct bsonraw_report r;
 *     uint64_t path[16];
 *     char text[256], why[150];
 *     if (bsonraw_first_fault(bytes, len, 1 << 20, 16, &r, path, 16) == BSONRAW_FAULT) {
 *         bsonraw_path_text(bytes, len, path, r.path_len, text, sizeof text);
 *         bsonraw_fault_text(&r.error, why, sizeof why);
 *         printf("at %s, byte %lu: %s\n", text, r.error.offset, why);
 *     }
 */
size_t bsonraw_path_text(const uint8_t *bytes, size_t len, const uint64_t *path, size_t path_len, char *BSONRAW_RESTRICT text, size_t room);

BSONRAW_LOCAL char *bsonraw_some_text(char *text) {
    static char none[1];
    return text ? text : none;
}

#ifndef BSONRAW_UNCHECKED
BSONRAW_WRITES(2, 3)
BSONRAW_INLINE size_t bsonraw_checked_fault_text(const struct bsonraw_error *error, char *BSONRAW_RESTRICT text, size_t room) {
    static const struct bsonraw_error none = {0, 0, 0, 0, 0};
    return bsonraw_fault_text(error ? error : &none, bsonraw_some_text(text), BSONRAW_LACKS(text, room) ? 0 : room);
}
#define bsonraw_fault_text bsonraw_checked_fault_text

BSONRAW_WRITES(2, 3)
BSONRAW_INLINE size_t bsonraw_checked_json_fault_text(const struct bsonraw_json_report *report, char *BSONRAW_RESTRICT text, size_t room) {
    static const struct bsonraw_json_report none = {0, 0, 0, 0, 0, 0};
    return bsonraw_json_fault_text(report ? report : &none, bsonraw_some_text(text), BSONRAW_LACKS(text, room) ? 0 : room);
}
#define bsonraw_json_fault_text bsonraw_checked_json_fault_text

BSONRAW_READS(1, 2) BSONRAW_READS(3, 4) BSONRAW_WRITES(5, 6)
BSONRAW_INLINE size_t bsonraw_checked_path_text(const uint8_t *bytes, size_t len, const uint64_t *path, size_t path_len,
                                                char *BSONRAW_RESTRICT text, size_t room) {
    static const uint64_t none[1] = {0};
    return bsonraw_path_text(bsonraw_some_bytes(bytes), BSONRAW_LACKS(bytes, len) ? 0 : len, path ? path : none,
                             BSONRAW_LACKS(path, path_len) ? 0 : path_len, bsonraw_some_text(text), BSONRAW_LACKS(text, room) ? 0 : room);
}
#define bsonraw_path_text bsonraw_checked_path_text
#endif

/* ---- daily use -------------------------------------------------------------------------------------------------------
 *
 * What follows is written in C over the calls above, and tested, not proved; elements of the usual kinds with ASCII keys and texts are
 * looked through by bsonraw_find_many without these calls. Keys, paths and texts are const char *, which a 0 ends; the steps of a path
 * have a dot between them, as "authors.0.name" (see bsonraw_iter_find_descendant).
 *
 * A key that has a dot is no step of such a path. bsonraw_iter_find_descendant goes there with another separator, as 0, which is in no key.
 * Where a digit follows it, the literal is split, as "authors\0" "0\0name".
 *
 *     struct bsonraw_iter it;
 *     int32_t hits;
 *     if (bsonraw_iter_init(&it, bytes, len) == BSONRAW_OK &&
 *         bsonraw_iter_find_descendant(&it, bytes, len, BSONRAW_KEY("sites\0example.org\0hits"), 0) == BSONRAW_OK &&
 *         bsonraw_iter_int32(&it, bytes, len, &hits) == BSONRAW_OK)
 *         printf("%d\n", hits);
 */

/* Texts: what a status, a reason, a cause or a tag says. They are never freed, and never NULL. */
const char *bsonraw_status_text(int32_t status);
const char *bsonraw_reason_text(uint32_t reason);
const char *bsonraw_cause_text(uint32_t cause);
const char *bsonraw_tag_text(uint32_t tag);

/* What is wrong by an error: the text of its reason, or that a text isn't UTF-8. */
const char *bsonraw_error_text(const struct bsonraw_error *error);

/* The element at a path, and its value where it is of the kind that is asked for: BSONRAW_OK; BSONRAW_NO_DOCUMENT, BSONRAW_NONE,
 * BSONRAW_FAULT and BSONRAW_OTHER_KIND as the calls of a cursor. What is written is then 0, and a pointer NULL. Pointers are into the
 * bytes; a 0 follows a text. Other kinds are read by bsonraw_get and bsonraw_iter_regex and its kin. Each is one call that is proved,
 * bsonraw_iter_init_find_descendant or bsonraw_value_at, with a dot for the separator; C looks for NULL, and hands out a field or a pointer.
 *
 *     int32_t born;
 *     const char *name;
 *     size_t name_len;
 *     if (bsonraw_get_int32(bytes, len, "born", &born) == BSONRAW_OK) printf("%d\n", born);
 *     if (bsonraw_get_utf8(bytes, len, "authors.0.name", &name, &name_len) == BSONRAW_OK) puts(name);
 */
BSONRAW_USE int32_t bsonraw_get(const uint8_t *bytes, size_t len, const char *path, struct bsonraw_iter *iter) BSONRAW_READS(1, 2);
BSONRAW_USE int32_t bsonraw_get_value(const uint8_t *bytes, size_t len, const char *path, struct bsonraw_value *value) BSONRAW_READS(1, 2);
BSONRAW_USE int32_t bsonraw_get_int32(const uint8_t *bytes, size_t len, const char *path, int32_t *number) BSONRAW_READS(1, 2);
BSONRAW_USE int32_t bsonraw_get_int64(const uint8_t *bytes, size_t len, const char *path, int64_t *number) BSONRAW_READS(1, 2);
BSONRAW_USE int32_t bsonraw_get_double(const uint8_t *bytes, size_t len, const char *path, double *number) BSONRAW_READS(1, 2);
BSONRAW_USE int32_t bsonraw_get_as_int64(const uint8_t *bytes, size_t len, const char *path, int64_t *number) BSONRAW_READS(1, 2);
BSONRAW_USE int32_t bsonraw_get_as_double(const uint8_t *bytes, size_t len, const char *path, double *number) BSONRAW_READS(1, 2);
BSONRAW_USE int32_t bsonraw_get_bool(const uint8_t *bytes, size_t len, const char *path, int32_t *is_true) BSONRAW_READS(1, 2);
BSONRAW_USE int32_t bsonraw_get_date_time(const uint8_t *bytes, size_t len, const char *path, int64_t *millis) BSONRAW_READS(1, 2);
BSONRAW_USE int32_t bsonraw_get_timestamp(const uint8_t *bytes, size_t len, const char *path, uint32_t *time, uint32_t *increment)
                                          BSONRAW_READS(1, 2);
BSONRAW_USE int32_t bsonraw_get_utf8(const uint8_t *bytes, size_t len, const char *path, const char **text, size_t *text_len)
                                     BSONRAW_READS(1, 2);
BSONRAW_USE int32_t bsonraw_get_oid(const uint8_t *bytes, size_t len, const char *path, const uint8_t **id) BSONRAW_READS(1, 2);
BSONRAW_USE int32_t bsonraw_get_decimal128(const uint8_t *bytes, size_t len, const char *path, const uint8_t **decimal) BSONRAW_READS(1, 2);
BSONRAW_USE int32_t bsonraw_get_binary(const uint8_t *bytes, size_t len, const char *path, uint32_t *subtype, const uint8_t **data,
                                       size_t *data_len) BSONRAW_READS(1, 2);
BSONRAW_USE int32_t bsonraw_get_document(const uint8_t *bytes, size_t len, const char *path, const uint8_t **document,
                                         size_t *document_len) BSONRAW_READS(1, 2);
BSONRAW_USE int32_t bsonraw_get_array(const uint8_t *bytes, size_t len, const char *path, const uint8_t **array, size_t *array_len)
                                      BSONRAW_READS(1, 2);

/* Several paths in one walk: each field gets the value and the status that bsonraw_get_value gives of its path. BSONRAW_OK where each
 * has a value; else the status of the first that has none. With NULL for the bytes each gets BSONRAW_NULL. BSONRAW_FIELD makes a field
 * of a path; the same fields do for each document. A walk takes 16 fields.
 *
 *     struct bsonraw_field f[] = {BSONRAW_FIELD("name"), BSONRAW_FIELD("born")};
 *     if (bsonraw_find_many(bytes, len, f, 2) == BSONRAW_OK)
 *         printf("%.*s %ld\n", BSONRAW_TEXT(bytes, f[0].value.text_at, f[0].value.text_len), f[1].value.integer);
 */
struct bsonraw_field {
    const char *path;
    struct bsonraw_value value;
    int32_t status;    /* enum bsonraw_status */
    uint32_t level;    /* of the search, as the others: which level the step is looked for in */
    uint32_t step;     /* where in the path the step begins */
    uint32_t step_len;
    uint64_t mark;     /* its first eight bytes */
};

#define BSONRAW_FIELD(path) {path, {0, 0, 0, 0, 0, 0, 0, 0, 0, 0, {0, 0, 0, 0, 0}}, BSONRAW_NONE, 0, 0, 0, 0}

BSONRAW_USE int32_t bsonraw_find_many(const uint8_t *bytes, size_t len, struct bsonraw_field *fields, size_t count)
                                      BSONRAW_READS(1, 2) BSONRAW_CHANGES(3, 4);

/* Whether a path leads to an element: 1, or 0. bsonraw_get says why it doesn't. */
BSONRAW_USE int32_t bsonraw_has_key(const uint8_t *bytes, size_t len, const char *path) BSONRAW_READS(1, 2);

/* How many elements a document has at its own level; with BSONRAW_FAULT those before the stop. */
BSONRAW_USE int32_t bsonraw_count(const uint8_t *bytes, size_t len, uint64_t *count) BSONRAW_READS(1, 2);

/* Whether a server takes the keys at all levels: flags say what is asked of them. The keys of arrays aren't looked at. */
enum bsonraw_key_flags {
    BSONRAW_KEYS_DOLLAR = 1, /* none begins with a $, those of a reference, as $id, neither */
    BSONRAW_KEYS_DOTS = 2,   /* none has a dot */
    BSONRAW_KEYS_EMPTY = 4   /* none is empty */
};

/* The cause of a breach then. */
enum bsonraw_key_cause { BSONRAW_DOLLAR_KEY = 6, BSONRAW_DOTTED_KEY = 7, BSONRAW_EMPTY_KEY = 8 };

/* BSONRAW_OK; or BSONRAW_BREACH, with the cause and the place of the first key that isn't, depth first; before these the statuses and the
 * reports of bsonraw_first_fault, but count is 0. It takes memory for the tokens of bsonraw_flatten, and 16 bytes more for each.
 *
 *     struct bsonraw_report r;
 *     uint64_t path[16];
 *     if (bsonraw_check_keys(bytes, len, 1 << 20, 100, BSONRAW_KEYS_DOLLAR | BSONRAW_KEYS_DOTS, &r, path, 16) == BSONRAW_BREACH)
 *         printf("%s at %lu\n", bsonraw_cause_text(r.cause), r.error.offset);
 */
BSONRAW_USE int32_t bsonraw_check_keys(const uint8_t *bytes, size_t len, size_t max_bytes, size_t max_depth, uint32_t flags,
                                       struct bsonraw_report *report, uint64_t *path, size_t path_room)
                                       BSONRAW_READS(1, 2) BSONRAW_WRITES(7, 8);

/* Whether two documents have one canonical form: BSONRAW_OK, and is_equal is 1 or 0; else as bsonraw_compare. */
BSONRAW_USE int32_t bsonraw_equal(const uint8_t *one, size_t one_len, const uint8_t *other, size_t other_len, int32_t *is_equal)
                                  BSONRAW_READS(1, 2) BSONRAW_READS(3, 4);

/* Overwrites a value of fixed size at a path, where it is of this kind already: the document keeps its length. The others as
 * bsonraw_get, and nothing is written. Each is bsonraw_overwrite, which is proved. */
BSONRAW_USE int32_t bsonraw_set_int32(uint8_t *bytes, size_t len, const char *path, int32_t number) BSONRAW_CHANGES(1, 2);
BSONRAW_USE int32_t bsonraw_set_int64(uint8_t *bytes, size_t len, const char *path, int64_t number) BSONRAW_CHANGES(1, 2);
BSONRAW_USE int32_t bsonraw_set_double(uint8_t *bytes, size_t len, const char *path, double number) BSONRAW_CHANGES(1, 2);
BSONRAW_USE int32_t bsonraw_set_bool(uint8_t *bytes, size_t len, const char *path, int32_t is_true) BSONRAW_CHANGES(1, 2);
BSONRAW_USE int32_t bsonraw_set_date_time(uint8_t *bytes, size_t len, const char *path, int64_t millis) BSONRAW_CHANGES(1, 2);
BSONRAW_USE int32_t bsonraw_set_timestamp(uint8_t *bytes, size_t len, const char *path, uint32_t time, uint32_t increment)
                                          BSONRAW_CHANGES(1, 2);
BSONRAW_USE int32_t bsonraw_set_oid(uint8_t *bytes, size_t len, const char *path, const uint8_t id[12]) BSONRAW_CHANGES(1, 2);
BSONRAW_USE int32_t bsonraw_set_decimal128(uint8_t *bytes, size_t len, const char *path, const uint8_t decimal[16]) BSONRAW_CHANGES(1, 2);

/* ---- Extended JSON in pieces ---- */

/* What bsonraw_json prints, without its 0, given to a function piece by piece, each of at most 65536 bytes; with NULL for the function it
 * is only counted. The function returns BSONRAW_OK to go on; what else it returns ends the call, which returns it. With any other status
 * than these, BSONRAW_OK and BSONRAW_NO_MEMORY the function wasn't called. It takes memory for the levels, for two pieces, and for the
 * largest value that isn't a document or an array, with its text. */
BSONRAW_USE int32_t bsonraw_json_write(const uint8_t *bytes, size_t len, size_t max_bytes, size_t max_depth, uint32_t flags,
                                       int32_t (*write)(void *context, const char *text, size_t text_len), void *context,
                                       struct bsonraw_report *report, uint64_t *path, size_t path_room)
                                       BSONRAW_READS(1, 2) BSONRAW_WRITES(9, 10);

/* The front of what bsonraw_json prints, as far as there is room, for a text that is shown or logged: BSONRAW_OK where that is all of it;
 * BSONRAW_SMALL_BUFFER where it ends earlier, after a whole character. With both a 0 follows it, unless room is 0, and count is its bytes
 * without that 0. No more is printed than there is room for. Else as bsonraw_json_write; with BSONRAW_NO_MEMORY what is in text isn't said.
 *
 *     char text[41];
 *     struct bsonraw_report r;
 *     uint64_t path[16];
 *     if (bsonraw_json_front(bytes, len, 1 << 20, 100, 0, text, sizeof text, &r, path, 16) == BSONRAW_SMALL_BUFFER)
 *         printf("%s..\n", text);
 */
BSONRAW_USE int32_t bsonraw_json_front(const uint8_t *bytes, size_t len, size_t max_bytes, size_t max_depth, uint32_t flags,
                                       char *BSONRAW_RESTRICT text, size_t room, struct bsonraw_report *report, uint64_t *path,
                                       size_t path_room)
                                       BSONRAW_READS(1, 2) BSONRAW_WRITES(6, 7) BSONRAW_WRITES(9, 10);

/* The value of the element that a cursor is at as bsonraw_json prints it; its document or array is the first of max_depth levels.
 * BSONRAW_OK, and the text is at the front of text, with a 0 after it; report->count is its bytes without that 0. BSONRAW_SMALL_BUFFER
 * where room is less than 1 + count, and what is in text isn't said; BSONRAW_FAULT, BSONRAW_TOO_DEEP and BSONRAW_NO_MEMORY as
 * bsonraw_json, and BSONRAW_BAD_OFFSET where it is at no element. The report has no path. It takes memory as bsonraw_json_write.
 *
 *     struct bsonraw_iter it;
 *     struct bsonraw_report r;
 *     char text[256];
 *     if (bsonraw_get(bytes, len, "authors", &it) == BSONRAW_OK &&
 *         bsonraw_iter_json(&it, bytes, len, 100, 0, text, sizeof text, &r) == BSONRAW_OK)
 *         puts(text);
 */
BSONRAW_USE int32_t bsonraw_iter_json(const struct bsonraw_iter *iter, const uint8_t *bytes, size_t len, size_t max_depth,
                                      uint32_t flags, char *BSONRAW_RESTRICT text, size_t room, struct bsonraw_report *report)
                                      BSONRAW_READS(2, 3) BSONRAW_WRITES(6, 7);

/* ---- in new memory ---- */

/* What bsonraw_json prints, with its 0; what bsonraw_canonical writes; and the document that bsonraw_from_json reads: in memory that the
 * call takes by malloc. The caller gives it back by free, as the library, static or shared, has no allocator but the program's. With
 * BSONRAW_OK report->count is how many bytes it has, without the 0 of a text; report may be NULL. Else the pointer is NULL, and the status
 * and the report are those of these calls, but never BSONRAW_SMALL_BUFFER; bsonraw_first_fault says the path. A call takes memory as these
 * do, and up to four times len bytes before it knows how many there are.
 *
 *     char *text;
 *     if (bsonraw_json_new(bytes, len, 1 << 24, 100, BSONRAW_JSON_INDENTED, &text, NULL) == BSONRAW_OK) puts(text);
 *     free(text);
 */
BSONRAW_USE int32_t bsonraw_json_new(const uint8_t *bytes, size_t len, size_t max_bytes, size_t max_depth, uint32_t flags, char **text,
                                     struct bsonraw_report *report) BSONRAW_READS(1, 2);
BSONRAW_USE int32_t bsonraw_canonical_new(const uint8_t *bytes, size_t len, size_t max_bytes, size_t max_depth, uint8_t **form,
                                          struct bsonraw_report *report) BSONRAW_READS(1, 2);
BSONRAW_USE int32_t bsonraw_from_json_new(const char *text, size_t len, size_t max_bytes, size_t max_depth, uint8_t **document,
                                          struct bsonraw_json_report *report) BSONRAW_READS(1, 2);

/* The next document of a text that has some, one after the other, with blanks and new lines between them, or nothing: as
 * bsonraw_from_json_new, from the byte *at on, which is 0 at first. With BSONRAW_OK *at is then after the document, otherwise as it was;
 * BSONRAW_NONE where only blanks are left, and *at is len; BSONRAW_BAD_OFFSET where it is over len. Places in the report are of the whole
 * text.
 *
 *     static const char text[] = "{\"a\": 1}\n{\"a\": 2} {\"a\": tru}";
 *     struct bsonraw_json_report r;
 *     uint8_t *document;
 *     size_t at = 0;
 *     int32_t status;
 *     while ((status = bsonraw_from_json_next(text, sizeof text - 1, &at, 1 << 24, 100, &document, &r)) == BSONRAW_OK) {
 *         fwrite(document, 1, r.count, stdout);
 *         free(document);
 *     }
 *     if (status != BSONRAW_NONE) printf("line %lu, column %lu\n", r.line, r.column);
 */
BSONRAW_USE int32_t bsonraw_from_json_next(const char *text, size_t len, size_t *at, size_t max_bytes, size_t max_depth, uint8_t **document,
                                           struct bsonraw_json_report *report) BSONRAW_READS(1, 2);

/* ---- a builder that grows ---- */

/* Memory for a document that is built, which grows. Each call returns buffer->status, which stays, as that of a builder does:
 * BSONRAW_NO_MEMORY, too; level.count is then the number of the element that was refused, from 0, in its level. A key is NULL in an array,
 * else BSONRAW_MISUSE, and a text in a document, else BSONRAW_NULL. So a level whose end was forgotten is seen: by the next key, or by
 * bsonraw_buffer_finish, which finishes the document, and returns BSONRAW_MISUSE while a level is open. With BSONRAW_OK the document is
 * buffer->len bytes at buffer->bytes, up to the next call; len is 0 before. BSONRAW_MISUSE, too, where the document is finished.
 * What a call puts there is put by calls of a builder that are proved: bsonraw_append, _number, _iter, _begin and _end, and
 * bsonraw_builder_end. C takes the memory, looks for NULL, and keeps the builders of the levels.
 *
 *     struct bsonraw_buffer b;
 *     bsonraw_buffer_init(&b);
 *     bsonraw_buffer_utf8(&b, "name", "Emmy");
 *     bsonraw_buffer_begin_array(&b, "primes");
 *     bsonraw_buffer_int32(&b, NULL, 2);
 *     bsonraw_buffer_int32(&b, NULL, 3);
 *     bsonraw_buffer_end(&b);
 *     if (bsonraw_buffer_finish(&b) == BSONRAW_OK) fwrite(b.bytes, 1, b.len, stdout);
 *     bsonraw_buffer_free(&b);
 */
struct bsonraw_buffer {
    uint8_t *bytes;
    size_t len;    /* of the document, once it is finished */
    int32_t status; /* enum bsonraw_status */
    uint32_t is_ended;
    size_t room;   /* of the memory */
    struct bsonraw_builder level; /* the innermost one that is open */
    uint32_t depth;               /* how many are open around it */
    struct bsonraw_builder *levels;
    size_t levels_room;
    void *(*resize)(void *context, void *memory, size_t size); /* as realloc; with a size of 0 it frees, and returns NULL */
    void *context;
    uint64_t begun;               /* what tells a buffer from memory that no call has begun */
};

/* Begins a document, in memory of malloc, or of the caller's function; or once more in the memory that the buffer has. Free gives the
 * memory back, and leaves a buffer that is all 0. Other calls refuse that with BSONRAW_BAD_OFFSET, and any memory that isn't a buffer that
 * one of the first two has begun, as one that was never set; free does nothing with it. */
int32_t bsonraw_buffer_init(struct bsonraw_buffer *buffer);
int32_t bsonraw_buffer_init_with(struct bsonraw_buffer *buffer, void *(*resize)(void *context, void *memory, size_t size), void *context);
int32_t bsonraw_buffer_reset(struct bsonraw_buffer *buffer);
void bsonraw_buffer_free(struct bsonraw_buffer *buffer);

/* Begins a document or an array in the level that is open; ends the innermost level, and where none is open returns BSONRAW_MISUSE; and
 * finishes the document. */
int32_t bsonraw_buffer_begin_document(struct bsonraw_buffer *buffer, const char *key);
int32_t bsonraw_buffer_begin_array(struct bsonraw_buffer *buffer, const char *key);
int32_t bsonraw_buffer_end(struct bsonraw_buffer *buffer);
BSONRAW_USE int32_t bsonraw_buffer_finish(struct bsonraw_buffer *buffer);

/* Append an element, as the calls of a builder do; bsonraw_buffer_append takes its parts, as bsonraw_append, and so appends the kinds that
 * have no call of their own. Options are NULL where there are none. */
int32_t bsonraw_buffer_append(struct bsonraw_buffer *buffer, uint32_t tag, const char *key, const void *one, size_t one_len,
                              const void *two, size_t two_len) BSONRAW_READS(4, 5) BSONRAW_READS(6, 7);
int32_t bsonraw_buffer_int32(struct bsonraw_buffer *buffer, const char *key, int32_t number);
int32_t bsonraw_buffer_int64(struct bsonraw_buffer *buffer, const char *key, int64_t number);
int32_t bsonraw_buffer_double(struct bsonraw_buffer *buffer, const char *key, double number);
int32_t bsonraw_buffer_bool(struct bsonraw_buffer *buffer, const char *key, int32_t is_true);
int32_t bsonraw_buffer_date_time(struct bsonraw_buffer *buffer, const char *key, int64_t millis);
int32_t bsonraw_buffer_timestamp(struct bsonraw_buffer *buffer, const char *key, uint32_t time, uint32_t increment);
int32_t bsonraw_buffer_null(struct bsonraw_buffer *buffer, const char *key);
int32_t bsonraw_buffer_utf8(struct bsonraw_buffer *buffer, const char *key, const char *text);
int32_t bsonraw_buffer_text(struct bsonraw_buffer *buffer, const char *key, const char *text, size_t text_len) BSONRAW_READS(3, 4);
int32_t bsonraw_buffer_oid(struct bsonraw_buffer *buffer, const char *key, const uint8_t id[12]);
int32_t bsonraw_buffer_decimal128(struct bsonraw_buffer *buffer, const char *key, const uint8_t decimal[16]);
int32_t bsonraw_buffer_binary(struct bsonraw_buffer *buffer, const char *key, uint8_t subtype, const void *data, size_t data_len)
                              BSONRAW_READS(4, 5);
int32_t bsonraw_buffer_regex(struct bsonraw_buffer *buffer, const char *key, const char *pattern, const char *options);
int32_t bsonraw_buffer_document(struct bsonraw_buffer *buffer, const char *key, const uint8_t *document, size_t document_len)
                                BSONRAW_READS(3, 4);
int32_t bsonraw_buffer_array(struct bsonraw_buffer *buffer, const char *key, const uint8_t *array, size_t array_len) BSONRAW_READS(3, 4);
int32_t bsonraw_buffer_iter(struct bsonraw_buffer *buffer, const struct bsonraw_iter *iter, const uint8_t *bytes, size_t len)
                            BSONRAW_READS(3, 4);

/* Append the elements of a document, as they are. A stop, or bytes that are no document, are BSONRAW_FAULT or BSONRAW_NO_DOCUMENT, and
 * stay. */
int32_t bsonraw_buffer_concat(struct bsonraw_buffer *buffer, const uint8_t *bytes, size_t len) BSONRAW_READS(2, 3);

/* What becomes of the elements at a path, which is as that of bsonraw_get. */
enum bsonraw_change_kind {
    BSONRAW_CHANGE_SET = 1,    /* they get this value */
    BSONRAW_CHANGE_REMOVE = 2, /* they are left out */
    BSONRAW_CHANGE_RENAME = 3  /* they get this key, and keep their place */
};

struct bsonraw_change {
    const char *path;
    uint32_t kind;     /* enum bsonraw_change_kind */
    uint32_t tag;      /* of a value, whose parts are those of bsonraw_append */
    const void *one;   /* NULL for those in number */
    size_t one_len;
    const void *two;
    size_t two_len;
    const char *key;   /* of a rename */
    uint64_t count;    /* what bsonraw_buffer_edit says: how many elements it changed or appended; 0 where the path leads to none */
    int32_t status;    /* why there is no value to be set: BSONRAW_NULL, or that of bsonraw_iter_value */
    uint8_t number[8];
};

/* Appends the elements of a document with changes, in one walk: O(n log m) steps for n elements of the levels that paths go through, and
 * m changes. All else is copied as it is, but that the elements of such an array are numbered anew.
 *   - Each element of a key that repeats in a level is changed, and each document under it is gone into.
 *   - A path that leads to no element changes nothing, but that a value to be set is appended there: after the others, in the order of the
 *     changes, with documents for the steps that are lacking; in an array as the next element, else BSONRAW_BAD_OFFSET. A value
 *     isn't set through an element that is neither a document nor an array: BSONRAW_OTHER_KIND.
 *   - What is removed from an array leaves no gap. Its elements aren't renamed: BSONRAW_MISUSE.
 *   - Whether the new key of a rename is there already isn't looked at. A value that has a fault isn't renamed: BSONRAW_FAULT.
 *   - No change is at the path of another one, or goes on after it: BSONRAW_MISUSE.
 * These stay, as what a buffer refuses does: a stop of a level that is gone into (BSONRAW_FAULT), bytes that are no document
 * (BSONRAW_NO_DOCUMENT), a kind that is none (BSONRAW_OTHER_KIND), and a path or a new key of NULL (BSONRAW_NULL). It takes memory for the
 * steps of all paths, under 300 bytes for each.
 *
 *     struct bsonraw_change changes[3];
 *     struct bsonraw_buffer b;
 *     changes[0] = bsonraw_change_remove("run");
 *     changes[1] = bsonraw_change_rename("authors.0.name", "first");
 *     changes[2] = bsonraw_change_utf8("authors.0.last", "Lovelace");
 *     bsonraw_buffer_init(&b);
 *     bsonraw_buffer_edit(&b, bytes, len, changes, 3);
 *     if (bsonraw_buffer_finish(&b) == BSONRAW_OK) fwrite(b.bytes, 1, b.len, stdout);
 *     bsonraw_buffer_free(&b);
 */
int32_t bsonraw_buffer_edit(struct bsonraw_buffer *buffer, const uint8_t *bytes, size_t len, struct bsonraw_change *changes, size_t count)
                            BSONRAW_READS(2, 3) BSONRAW_CHANGES(4, 5);

/* Changes. The path, the key and the value are pointed to, and are there up to the call that takes the change; numbers are kept in it.
 * bsonraw_change_value takes the parts of a value of any kind, as bsonraw_append, and bsonraw_change_iter the value that a cursor is at. */
struct bsonraw_change bsonraw_change_remove(const char *path);
struct bsonraw_change bsonraw_change_rename(const char *path, const char *key);
struct bsonraw_change bsonraw_change_value(const char *path, uint32_t tag, const void *one, size_t one_len, const void *two, size_t two_len)
                                           BSONRAW_READS(3, 4) BSONRAW_READS(5, 6);
struct bsonraw_change bsonraw_change_iter(const char *path, const struct bsonraw_iter *iter, const uint8_t *bytes, size_t len)
                                          BSONRAW_READS(3, 4);
struct bsonraw_change bsonraw_change_int32(const char *path, int32_t number);
struct bsonraw_change bsonraw_change_int64(const char *path, int64_t number);
struct bsonraw_change bsonraw_change_double(const char *path, double number);
struct bsonraw_change bsonraw_change_bool(const char *path, int32_t is_true);
struct bsonraw_change bsonraw_change_date_time(const char *path, int64_t millis);
struct bsonraw_change bsonraw_change_null(const char *path);
struct bsonraw_change bsonraw_change_utf8(const char *path, const char *text);

/* Two names for changes by key, where a key may have dots: all elements but those with these keys, of which none is NULL; or all with
 * another document laid over them: a key that is there gets the other's first value for it, and the other's new keys follow. They stay for
 * this version; bsonraw_buffer_edit does what they do, by path. */
int32_t bsonraw_buffer_copy_without(struct bsonraw_buffer *buffer, const uint8_t *bytes, size_t len, const char *const *keys,
                                    size_t count) BSONRAW_READS(2, 3) BSONRAW_READS(4, 5);
int32_t bsonraw_buffer_copy_with(struct bsonraw_buffer *buffer, const uint8_t *bytes, size_t len, const uint8_t *over, size_t over_len)
                                 BSONRAW_READS(2, 3) BSONRAW_READS(4, 5);

/* ---- documents from a file ---- */

/* Documents one after the other from a file descriptor or a FILE, of which one is in memory at a time. With BSONRAW_OK it is len bytes
 * at bytes, up to the next call; offset is where it begins, as error.offset from where the stream began to read, which needn't be the
 * file's first byte. BSONRAW_NONE at the end. BSONRAW_NO_DOCUMENT, and error says why: where the last byte isn't 0
 * (BSONRAW_NOT_TERMINATED), the bytes are there, and the next call goes on after them; where the length is under 5 or negative
 * (BSONRAW_LENGTH_INCORRECT), nothing says where the next one begins. BSONRAW_CUT where the file ends within a document, of which len
 * bytes are there; BSONRAW_TOO_MANY_BYTES where the length is over max_bytes, which is 2147483647 unless it is set; BSONRAW_NO_MEMORY;
 * BSONRAW_NOT_READ. The next call goes on after BSONRAW_OK and BSONRAW_NOT_TERMINATED. After BSONRAW_NOT_READ it reads on from where
 * that stopped, as where errno was EAGAIN; of a FILE once clearerr was called. After any other status it returns the same. Others who
 * read the file don't see what was read ahead of a document. The file isn't closed.
 *
 *     struct bsonraw_stream s;
 *     int32_t status = bsonraw_stream_from_file(&s, stdin);
 *     while (status == BSONRAW_OK || (status == BSONRAW_NO_DOCUMENT && s.error.reason == BSONRAW_NOT_TERMINATED))
 *         if ((status = bsonraw_stream_read(&s)) == BSONRAW_OK) printf("%lu bytes\n", s.len);
 *     bsonraw_stream_free(&s);
 */
struct bsonraw_stream {
    const uint8_t *bytes;
    size_t len;
    uint64_t offset;
    struct bsonraw_error error;
    size_t max_bytes;
    struct bsonraw_resync resync; /* what bsonraw_stream_resync found last, and what it cost so far */
    uint8_t *memory; /* of its own, as the others */
    size_t room, begins, ends;
    FILE *file;
    int fd;
    int32_t status;
};

int32_t bsonraw_stream_from_fd(struct bsonraw_stream *stream, int fd);
int32_t bsonraw_stream_from_file(struct bsonraw_stream *stream, FILE *file);
BSONRAW_USE int32_t bsonraw_stream_read(struct bsonraw_stream *stream);
void bsonraw_stream_free(struct bsonraw_stream *stream);

/* Goes on after damage, as bsonraw_reader_resync does in memory: BSONRAW_OK, and the next bsonraw_stream_read is where reading goes on, or
 * at the end. The damage is the document that the last one gave, as where bsonraw_first_fault finds one, or what it returned
 * BSONRAW_NO_DOCUMENT, BSONRAW_TOO_MANY_BYTES or BSONRAW_CUT for. BSONRAW_BAD_OFFSET where there is none: no document was read, or this
 * call went on after it already. BSONRAW_NOT_READ and BSONRAW_NO_MEMORY, after which it may be called once more; any other status of the
 * stream it returns as it is. It reads up to four times max_bytes ahead, of at most 2147483647, and has up to twice that in memory;
 * so max_bytes of the stream and this one are best those of the largest document.
 *
 *     struct bsonraw_stream s;
 *     struct bsonraw_report r;
 *     int32_t status = bsonraw_stream_from_file(&s, stdin);
 *     s.max_bytes = 1 << 24;
 *     while (status == BSONRAW_OK && (status = bsonraw_stream_read(&s)) != BSONRAW_NONE)
 *         if (status == BSONRAW_OK && bsonraw_first_fault(s.bytes, s.len, 1 << 24, 500, &r, NULL, 0) == BSONRAW_OK)
 *             fwrite(s.bytes, 1, s.len, stdout);
 *         else
 *             status = bsonraw_stream_resync(&s, 1 << 24, 500);
 *     bsonraw_stream_free(&s);
 */
BSONRAW_USE int32_t bsonraw_stream_resync(struct bsonraw_stream *stream, size_t max_bytes, size_t max_depth);

/* Whether a reader that returned BSONRAW_NO_DOCUMENT found a document that is cut off, rather than a length that can't be: the bytes end
 * before the four of its length, or before the length that they say. */
BSONRAW_USE int32_t bsonraw_reader_is_cut(const struct bsonraw_reader *reader, const uint8_t *bytes, size_t len) BSONRAW_READS(2, 3);

/* ---- with BSONRAW_DEBUG ----
 *
 * The calls for daily use, too, read the first and the last byte of what they are given, in a function of the caller's.
 */
#if defined(BSONRAW_DEBUG) && !defined(BSONRAW_UNCHECKED)
#define BSONRAW_TOUCHING(returns, name, parameters, touches, arguments) \
    BSONRAW_LOCAL returns bsonraw_touching_##name parameters { \
        (void)(touches); \
        return bsonraw_##name arguments; \
    }

BSONRAW_TOUCHING(BSONRAW_USE int32_t, get, (const uint8_t *bytes, size_t len, const char *path, struct bsonraw_iter *iter),
                 BSONRAW_LACKS(bytes, len), (bytes, len, path, iter))
#define bsonraw_get bsonraw_touching_get
BSONRAW_TOUCHING(BSONRAW_USE int32_t, get_value, (const uint8_t *bytes, size_t len, const char *path, struct bsonraw_value *value),
                 BSONRAW_LACKS(bytes, len), (bytes, len, path, value))
#define bsonraw_get_value bsonraw_touching_get_value
BSONRAW_TOUCHING(BSONRAW_USE int32_t, get_int32, (const uint8_t *bytes, size_t len, const char *path, int32_t *number),
                 BSONRAW_LACKS(bytes, len), (bytes, len, path, number))
#define bsonraw_get_int32 bsonraw_touching_get_int32
BSONRAW_TOUCHING(BSONRAW_USE int32_t, get_int64, (const uint8_t *bytes, size_t len, const char *path, int64_t *number),
                 BSONRAW_LACKS(bytes, len), (bytes, len, path, number))
#define bsonraw_get_int64 bsonraw_touching_get_int64
BSONRAW_TOUCHING(BSONRAW_USE int32_t, get_double, (const uint8_t *bytes, size_t len, const char *path, double *number),
                 BSONRAW_LACKS(bytes, len), (bytes, len, path, number))
#define bsonraw_get_double bsonraw_touching_get_double
BSONRAW_TOUCHING(BSONRAW_USE int32_t, get_as_int64, (const uint8_t *bytes, size_t len, const char *path, int64_t *number),
                 BSONRAW_LACKS(bytes, len), (bytes, len, path, number))
#define bsonraw_get_as_int64 bsonraw_touching_get_as_int64
BSONRAW_TOUCHING(BSONRAW_USE int32_t, get_as_double, (const uint8_t *bytes, size_t len, const char *path, double *number),
                 BSONRAW_LACKS(bytes, len), (bytes, len, path, number))
#define bsonraw_get_as_double bsonraw_touching_get_as_double
BSONRAW_TOUCHING(BSONRAW_USE int32_t, get_bool, (const uint8_t *bytes, size_t len, const char *path, int32_t *is_true),
                 BSONRAW_LACKS(bytes, len), (bytes, len, path, is_true))
#define bsonraw_get_bool bsonraw_touching_get_bool
BSONRAW_TOUCHING(BSONRAW_USE int32_t, get_date_time, (const uint8_t *bytes, size_t len, const char *path, int64_t *millis),
                 BSONRAW_LACKS(bytes, len), (bytes, len, path, millis))
#define bsonraw_get_date_time bsonraw_touching_get_date_time
BSONRAW_TOUCHING(BSONRAW_USE int32_t, get_timestamp, (const uint8_t *bytes, size_t len, const char *path, uint32_t *time,
                  uint32_t *increment),
                 BSONRAW_LACKS(bytes, len), (bytes, len, path, time, increment))
#define bsonraw_get_timestamp bsonraw_touching_get_timestamp
BSONRAW_TOUCHING(BSONRAW_USE int32_t, get_utf8, (const uint8_t *bytes, size_t len, const char *path, const char **text, size_t *text_len),
                 BSONRAW_LACKS(bytes, len), (bytes, len, path, text, text_len))
#define bsonraw_get_utf8 bsonraw_touching_get_utf8
BSONRAW_TOUCHING(BSONRAW_USE int32_t, get_oid, (const uint8_t *bytes, size_t len, const char *path, const uint8_t **id),
                 BSONRAW_LACKS(bytes, len), (bytes, len, path, id))
#define bsonraw_get_oid bsonraw_touching_get_oid
BSONRAW_TOUCHING(BSONRAW_USE int32_t, get_decimal128, (const uint8_t *bytes, size_t len, const char *path, const uint8_t **decimal),
                 BSONRAW_LACKS(bytes, len), (bytes, len, path, decimal))
#define bsonraw_get_decimal128 bsonraw_touching_get_decimal128
BSONRAW_TOUCHING(BSONRAW_USE int32_t, get_binary, (const uint8_t *bytes, size_t len, const char *path, uint32_t *subtype,
                  const uint8_t **data, size_t *data_len),
                 BSONRAW_LACKS(bytes, len), (bytes, len, path, subtype, data, data_len))
#define bsonraw_get_binary bsonraw_touching_get_binary
BSONRAW_TOUCHING(BSONRAW_USE int32_t, get_document, (const uint8_t *bytes, size_t len, const char *path, const uint8_t **document,
                  size_t *document_len),
                 BSONRAW_LACKS(bytes, len), (bytes, len, path, document, document_len))
#define bsonraw_get_document bsonraw_touching_get_document
BSONRAW_TOUCHING(BSONRAW_USE int32_t, get_array, (const uint8_t *bytes, size_t len, const char *path, const uint8_t **array,
                  size_t *array_len),
                 BSONRAW_LACKS(bytes, len), (bytes, len, path, array, array_len))
#define bsonraw_get_array bsonraw_touching_get_array
BSONRAW_TOUCHING(BSONRAW_USE int32_t, find_many, (const uint8_t *bytes, size_t len, struct bsonraw_field *fields, size_t count),
                 BSONRAW_LACKS(bytes, len) + BSONRAW_LACKS(fields, count), (bytes, len, fields, count))
#define bsonraw_find_many bsonraw_touching_find_many
BSONRAW_TOUCHING(BSONRAW_USE int32_t, has_key, (const uint8_t *bytes, size_t len, const char *path),
                 BSONRAW_LACKS(bytes, len), (bytes, len, path))
#define bsonraw_has_key bsonraw_touching_has_key
BSONRAW_TOUCHING(BSONRAW_USE int32_t, count, (const uint8_t *bytes, size_t len, uint64_t *count),
                 BSONRAW_LACKS(bytes, len), (bytes, len, count))
#define bsonraw_count bsonraw_touching_count
BSONRAW_TOUCHING(BSONRAW_USE int32_t, check_keys, (const uint8_t *bytes, size_t len, size_t max_bytes, size_t max_depth, uint32_t flags,
                  struct bsonraw_report *report, uint64_t *path, size_t path_room),
                 BSONRAW_LACKS(bytes, len) + BSONRAW_LACKS(path, path_room),
                 (bytes, len, max_bytes, max_depth, flags, report, path, path_room))
#define bsonraw_check_keys bsonraw_touching_check_keys
BSONRAW_TOUCHING(BSONRAW_USE int32_t, equal, (const uint8_t *one, size_t one_len, const uint8_t *other, size_t other_len,
                  int32_t *is_equal),
                 BSONRAW_LACKS(one, one_len) + BSONRAW_LACKS(other, other_len), (one, one_len, other, other_len, is_equal))
#define bsonraw_equal bsonraw_touching_equal
BSONRAW_TOUCHING(BSONRAW_USE int32_t, set_int32, (uint8_t *bytes, size_t len, const char *path, int32_t number),
                 BSONRAW_LACKS(bytes, len), (bytes, len, path, number))
#define bsonraw_set_int32 bsonraw_touching_set_int32
BSONRAW_TOUCHING(BSONRAW_USE int32_t, set_int64, (uint8_t *bytes, size_t len, const char *path, int64_t number),
                 BSONRAW_LACKS(bytes, len), (bytes, len, path, number))
#define bsonraw_set_int64 bsonraw_touching_set_int64
BSONRAW_TOUCHING(BSONRAW_USE int32_t, set_double, (uint8_t *bytes, size_t len, const char *path, double number),
                 BSONRAW_LACKS(bytes, len), (bytes, len, path, number))
#define bsonraw_set_double bsonraw_touching_set_double
BSONRAW_TOUCHING(BSONRAW_USE int32_t, set_bool, (uint8_t *bytes, size_t len, const char *path, int32_t is_true),
                 BSONRAW_LACKS(bytes, len), (bytes, len, path, is_true))
#define bsonraw_set_bool bsonraw_touching_set_bool
BSONRAW_TOUCHING(BSONRAW_USE int32_t, set_date_time, (uint8_t *bytes, size_t len, const char *path, int64_t millis),
                 BSONRAW_LACKS(bytes, len), (bytes, len, path, millis))
#define bsonraw_set_date_time bsonraw_touching_set_date_time
BSONRAW_TOUCHING(BSONRAW_USE int32_t, set_timestamp, (uint8_t *bytes, size_t len, const char *path, uint32_t time, uint32_t increment),
                 BSONRAW_LACKS(bytes, len), (bytes, len, path, time, increment))
#define bsonraw_set_timestamp bsonraw_touching_set_timestamp
BSONRAW_TOUCHING(BSONRAW_USE int32_t, set_oid, (uint8_t *bytes, size_t len, const char *path, const uint8_t id[12]),
                 BSONRAW_LACKS(bytes, len) + BSONRAW_LACKS(id, 12), (bytes, len, path, id))
#define bsonraw_set_oid bsonraw_touching_set_oid
BSONRAW_TOUCHING(BSONRAW_USE int32_t, set_decimal128, (uint8_t *bytes, size_t len, const char *path, const uint8_t decimal[16]),
                 BSONRAW_LACKS(bytes, len) + BSONRAW_LACKS(decimal, 16), (bytes, len, path, decimal))
#define bsonraw_set_decimal128 bsonraw_touching_set_decimal128
BSONRAW_TOUCHING(BSONRAW_USE int32_t, json_write, (const uint8_t *bytes, size_t len, size_t max_bytes, size_t max_depth,
                  uint32_t flags, int32_t (*write)(void *context, const char *text, size_t text_len), void *context,
                  struct bsonraw_report *report, uint64_t *path, size_t path_room),
                 BSONRAW_LACKS(bytes, len) + BSONRAW_LACKS(path, path_room),
                 (bytes, len, max_bytes, max_depth, flags, write, context, report, path, path_room))
#define bsonraw_json_write bsonraw_touching_json_write
BSONRAW_TOUCHING(BSONRAW_USE int32_t, json_front, (const uint8_t *bytes, size_t len, size_t max_bytes, size_t max_depth,
                  uint32_t flags, char *BSONRAW_RESTRICT text, size_t room, struct bsonraw_report *report, uint64_t *path,
                  size_t path_room),
                 BSONRAW_LACKS(bytes, len) + BSONRAW_LACKS(text, room) + BSONRAW_LACKS(path, path_room),
                 (bytes, len, max_bytes, max_depth, flags, text, room, report, path, path_room))
#define bsonraw_json_front bsonraw_touching_json_front
BSONRAW_TOUCHING(BSONRAW_USE int32_t, iter_json, (const struct bsonraw_iter *iter, const uint8_t *bytes, size_t len, size_t max_depth,
                  uint32_t flags, char *BSONRAW_RESTRICT text, size_t room, struct bsonraw_report *report),
                 BSONRAW_LACKS(bytes, len) + BSONRAW_LACKS(text, room),
                 (iter, bytes, len, max_depth, flags, text, room, report))
#define bsonraw_iter_json bsonraw_touching_iter_json
BSONRAW_TOUCHING(BSONRAW_USE int32_t, json_new, (const uint8_t *bytes, size_t len, size_t max_bytes, size_t max_depth, uint32_t flags,
                  char **text, struct bsonraw_report *report),
                 BSONRAW_LACKS(bytes, len), (bytes, len, max_bytes, max_depth, flags, text, report))
#define bsonraw_json_new bsonraw_touching_json_new
BSONRAW_TOUCHING(BSONRAW_USE int32_t, canonical_new, (const uint8_t *bytes, size_t len, size_t max_bytes, size_t max_depth, uint8_t **form,
                  struct bsonraw_report *report),
                 BSONRAW_LACKS(bytes, len), (bytes, len, max_bytes, max_depth, form, report))
#define bsonraw_canonical_new bsonraw_touching_canonical_new
BSONRAW_TOUCHING(BSONRAW_USE int32_t, from_json_new, (const char *text, size_t len, size_t max_bytes, size_t max_depth, uint8_t **document,
                  struct bsonraw_json_report *report),
                 BSONRAW_LACKS(text, len), (text, len, max_bytes, max_depth, document, report))
#define bsonraw_from_json_new bsonraw_touching_from_json_new
BSONRAW_TOUCHING(BSONRAW_USE int32_t, from_json_next, (const char *text, size_t len, size_t *at, size_t max_bytes, size_t max_depth,
                  uint8_t **document, struct bsonraw_json_report *report),
                 BSONRAW_LACKS(text, len), (text, len, at, max_bytes, max_depth, document, report))
#define bsonraw_from_json_next bsonraw_touching_from_json_next
BSONRAW_TOUCHING(int32_t, buffer_append, (struct bsonraw_buffer *buffer, uint32_t tag, const char *key, const void *one, size_t one_len,
                  const void *two, size_t two_len),
                 BSONRAW_LACKS(BSONRAW_BYTES(one), one_len) + BSONRAW_LACKS(BSONRAW_BYTES(two), two_len),
                 (buffer, tag, key, one, one_len, two, two_len))
#define bsonraw_buffer_append bsonraw_touching_buffer_append
BSONRAW_TOUCHING(int32_t, buffer_text, (struct bsonraw_buffer *buffer, const char *key, const char *text, size_t text_len),
                 BSONRAW_LACKS(text, text_len), (buffer, key, text, text_len))
#define bsonraw_buffer_text bsonraw_touching_buffer_text
BSONRAW_TOUCHING(int32_t, buffer_oid, (struct bsonraw_buffer *buffer, const char *key, const uint8_t id[12]),
                 BSONRAW_LACKS(id, 12), (buffer, key, id))
#define bsonraw_buffer_oid bsonraw_touching_buffer_oid
BSONRAW_TOUCHING(int32_t, buffer_decimal128, (struct bsonraw_buffer *buffer, const char *key, const uint8_t decimal[16]),
                 BSONRAW_LACKS(decimal, 16), (buffer, key, decimal))
#define bsonraw_buffer_decimal128 bsonraw_touching_buffer_decimal128
BSONRAW_TOUCHING(int32_t, buffer_binary, (struct bsonraw_buffer *buffer, const char *key, uint8_t subtype, const void *data,
                  size_t data_len),
                 BSONRAW_LACKS(BSONRAW_BYTES(data), data_len), (buffer, key, subtype, data, data_len))
#define bsonraw_buffer_binary bsonraw_touching_buffer_binary
BSONRAW_TOUCHING(int32_t, buffer_document, (struct bsonraw_buffer *buffer, const char *key, const uint8_t *document, size_t document_len),
                 BSONRAW_LACKS(document, document_len), (buffer, key, document, document_len))
#define bsonraw_buffer_document bsonraw_touching_buffer_document
BSONRAW_TOUCHING(int32_t, buffer_array, (struct bsonraw_buffer *buffer, const char *key, const uint8_t *array, size_t array_len),
                 BSONRAW_LACKS(array, array_len), (buffer, key, array, array_len))
#define bsonraw_buffer_array bsonraw_touching_buffer_array
BSONRAW_TOUCHING(int32_t, buffer_iter, (struct bsonraw_buffer *buffer, const struct bsonraw_iter *iter, const uint8_t *bytes, size_t len),
                 BSONRAW_LACKS(bytes, len), (buffer, iter, bytes, len))
#define bsonraw_buffer_iter bsonraw_touching_buffer_iter
BSONRAW_TOUCHING(int32_t, buffer_concat, (struct bsonraw_buffer *buffer, const uint8_t *bytes, size_t len),
                 BSONRAW_LACKS(bytes, len), (buffer, bytes, len))
#define bsonraw_buffer_concat bsonraw_touching_buffer_concat
BSONRAW_TOUCHING(int32_t, buffer_edit, (struct bsonraw_buffer *buffer, const uint8_t *bytes, size_t len, struct bsonraw_change *changes,
                  size_t count),
                 BSONRAW_LACKS(bytes, len) + BSONRAW_LACKS(changes, count), (buffer, bytes, len, changes, count))
#define bsonraw_buffer_edit bsonraw_touching_buffer_edit
BSONRAW_TOUCHING(struct bsonraw_change, change_value, (const char *path, uint32_t tag, const void *one, size_t one_len, const void *two,
                  size_t two_len),
                 BSONRAW_LACKS(BSONRAW_BYTES(one), one_len) + BSONRAW_LACKS(BSONRAW_BYTES(two), two_len),
                 (path, tag, one, one_len, two, two_len))
#define bsonraw_change_value bsonraw_touching_change_value
BSONRAW_TOUCHING(struct bsonraw_change, change_iter, (const char *path, const struct bsonraw_iter *iter, const uint8_t *bytes, size_t len),
                 BSONRAW_LACKS(bytes, len), (path, iter, bytes, len))
#define bsonraw_change_iter bsonraw_touching_change_iter
BSONRAW_TOUCHING(int32_t, buffer_copy_without, (struct bsonraw_buffer *buffer, const uint8_t *bytes, size_t len, const char *const *keys,
                  size_t count),
                 BSONRAW_LACKS(bytes, len) + BSONRAW_LACKS(keys, count), (buffer, bytes, len, keys, count))
#define bsonraw_buffer_copy_without bsonraw_touching_buffer_copy_without
BSONRAW_TOUCHING(int32_t, buffer_copy_with, (struct bsonraw_buffer *buffer, const uint8_t *bytes, size_t len, const uint8_t *over,
                  size_t over_len),
                 BSONRAW_LACKS(bytes, len) + BSONRAW_LACKS(over, over_len), (buffer, bytes, len, over, over_len))
#define bsonraw_buffer_copy_with bsonraw_touching_buffer_copy_with
BSONRAW_TOUCHING(BSONRAW_USE int32_t, reader_is_cut, (const struct bsonraw_reader *reader, const uint8_t *bytes, size_t len),
                 BSONRAW_LACKS(bytes, len), (reader, bytes, len))
#define bsonraw_reader_is_cut bsonraw_touching_reader_is_cut
#endif

#ifdef __cplusplus
}
#endif

#endif
