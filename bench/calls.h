/* The calls that each implementation has, so that one driver (driver.c) measures all of them on the same documents, and
 * checks that they did the same work. Each reads doc[0 .. doc_len), keeps no pointer, and returns through *out.
 * `bb_` + NAME is the operation NAME of driver.c. */
#ifndef BENCH_CALLS_H
#define BENCH_CALLS_H

#include <stddef.h>
#include <stdint.h>

#ifdef __cplusplus
extern "C" {
#endif

#define BB_OK 0
#define BB_MALFORMED (-1) /* the walk or a value is MalformedValue */
#define BB_UTF8 (-2)      /* the walk or a value is Utf8EncodingError */
#define BB_REFUSED (-3)   /* the envelope (BB_MALFORMED will do), a limit, or buf is too short */
#define BB_MEMORY (-4)
#define BB_ABSENT (-5)        /* a look-up found nothing, or another type */
#define BB_UNSUPPORTED (-100) /* this implementation has no such operation */

typedef struct {
    int64_t status; /* BB_OK or one of the above */
    uint64_t count; /* elements met before the end or the fault; for bb_round .. bb_push, bytes made */
    uint64_t sum;   /* the checksum below, or 0 where an operation has none */
} bb_answer;

/* The checksum: the wrapping sum, over the elements met, of
 *
 *     tag + 3 * key_len + word(value)
 *
 *     Double            its 64 bits                  Boolean            0 or 1
 *     String, Code,     text bytes, without          DateTime           the 64 bits
 *       Symbol            length and final 0         RegularExpression  pattern + options bytes, without the 0s
 *     Document, Array   all its bytes                DbPointer          text bytes + oid word
 *     Binary            data bytes + subtype byte    CodeWithScope      code bytes + scope bytes
 *       (for subtype 2 without the inner length)     Int32              sign-extended to 64 bits
 *     ObjectId          its first 4 bytes, LE        Int64              the 64 bits
 *     Timestamp         time + increment             Decimal128         its first 8 bytes, LE
 *     Undefined, Null, MinKey, MaxKey   0
 *
 * So each element's value is made, and an implementation that skips one is noticed. */

/* ---- reading ---------------------------------------------------------------------------------------------- */

/* Frames of the top level: RawDocument::from_bytes, then iter_elements to its end. sum: tag + 3 * key_len + payload
 * bytes of each element (RawElement::len). No value is made. */
void bb_frames(const uint8_t *doc, size_t doc_len, bb_answer *out);

/* Keys and values of the top level: RawDocument::from_bytes, then iter. */
void bb_values(const uint8_t *doc, size_t doc_len, bb_answer *out);

/* Keys and values of all levels, arrays by RawArray::iter (key_len counts as 0 there for every implementation),
 * scopes too. The container's own element counts and comes before what is inside it. */
void bb_visit(const uint8_t *doc, size_t doc_len, bb_answer *out);

/* The same two without a check of UTF-8, for libraries that have such a way (libbson's bson_iter_next). */
void bb_values_noutf8(const uint8_t *doc, size_t doc_len, bb_answer *out);
void bb_visit_noutf8(const uint8_t *doc, size_t doc_len, bb_answer *out);

/* RawDocument::from_bytes, then get(key). count: 1. sum: word(value). */
void bb_get(const uint8_t *doc, size_t doc_len, const uint8_t *key, size_t key_len, bb_answer *out);

/* RawDocument::from_bytes, then get_str(key). count: 1. sum: text bytes. */
void bb_get_str(const uint8_t *doc, size_t doc_len, const uint8_t *key, size_t key_len, bb_answer *out);

/* A whole check: libbson's bson_validate with BSON_VALIDATE_UTF8, `validate` of this library. What they
 * check differs, so count and sum are 0. */
void bb_validate(const uint8_t *doc, size_t doc_len, bb_answer *out);

/* The operations below write what they made to buf, and count is its length. Where buf_len is 0 nothing is copied and count is
 * the length all the same: so the driver measures, after one call with room whose bytes it checks. */

/* ---- conversion ------------------------------------------------------------------------------------------- */

/* The owned tree (document_from_raw, Document::try_from), then its drop. count: pairs of the top level. */
void bb_tree(const uint8_t *doc, size_t doc_len, bb_answer *out);

/* canonical_bytes: the owned tree, its encoding, and the drops. The documents of documents.py are canonical, so the driver
 * checks that buf is equal to doc. */
void bb_round(const uint8_t *doc, size_t doc_len, uint8_t *buf, size_t buf_len, bb_answer *out);

/* The same bytes through the buffers alone: each element is appended to a new buffer (append_ref), a nested document or
 * array after it was rebuilt so itself. No tree. */
void bb_rebuild(const uint8_t *doc, size_t doc_len, uint8_t *buf, size_t buf_len, bb_answer *out);

/* ---- writing ---------------------------------------------------------------------------------------------- */

/* A new buffer, then one append of an Int32 for each 8 bytes of keys (ASCII, no 0): the value is its number from 0.
 */
void bb_append(const uint8_t *keys, size_t keys_len, uint8_t *buf, size_t buf_len, bb_answer *out);

/* A new RawArrayBuf, then n pushes of Int32(0), Int32(1), .. */
void bb_push(uint64_t n, uint8_t *buf, size_t buf_len, bb_answer *out);

#ifdef __cplusplus
}
#endif
#endif
