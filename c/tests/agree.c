/* A reader written from the format alone, which knows nothing of the library: made and damaged documents, and what each
 * call of the library says of them. */
#include "made.h"

#include <bsonraw.h>

#include <stdio.h>
#include <stdlib.h>
#include <string.h>

/* ---- the format ---------------------------------------------------------------------------------------------------- */

/* An element, or why there is none: kind and reason of a fault, as the header numbers them. */
struct element {
    int is_end;
    uint32_t kind, reason;
    uint64_t number, left;
    uint32_t tag;
    int has_key;
    size_t key, key_len, payload, payload_len;
};

static const uint8_t *b;

static int32_t signed_at(size_t at) {
    uint32_t n = (uint32_t)b[at] | (uint32_t)b[at + 1] << 8 | (uint32_t)b[at + 2] << 16 | (uint32_t)b[at + 3] << 24;
    int32_t z;
    memcpy(&z, &n, 4);
    return z;
}

static int is_utf8(size_t at, size_t end) {
    while (at < end) {
        uint32_t lead = b[at++], more, code;
        if (lead < 0x80) continue;
        if (lead < 0xc2 || lead > 0xf4) return 0;
        more = lead < 0xe0 ? 1 : lead < 0xf0 ? 2 : 3;
        code = lead & (0x3fu >> more);
        if (end - at < more) return 0;
        for (; more > 0; more--, at++) {
            if ((b[at] & 0xc0) != 0x80) return 0;
            code = code << 6 | (b[at] & 0x3fu);
            if (lead == 0xe0 && more == 2 && code < 0x20) return 0;
            if (lead == 0xf0 && more == 3 && code < 0x10) return 0;
        }
        if ((code >= 0xd800 && code < 0xe000) || code > 0x10ffff) return 0;
    }
    return 1;
}

/* Where the 0 is of a text that begins here; or the end. */
static size_t zero(size_t at, size_t end) {
    while (at < end && b[at] != 0) at++;
    return at;
}

static void fault(struct element *e, uint32_t reason, uint64_t number, uint64_t left) {
    e->kind = BSONRAW_MALFORMED;
    e->reason = reason;
    e->number = number;
    e->left = left;
}

/* Whether a string is here; its length with all its bytes. */
static int string(struct element *e, size_t at, size_t end, size_t *size) {
    size_t left = end - at;
    if (left < 4) return fault(e, BSONRAW_STRING_HEAD_SHORT, 0, left), 0;
    if (signed_at(at) < 0) return fault(e, BSONRAW_NEGATIVE_LENGTH, 0, 0), 0;
    if (signed_at(at) == 0) return fault(e, BSONRAW_STRING_TOO_SMALL, 0, 0), 0;
    *size = (size_t)signed_at(at) + 4;
    if (left < *size) return fault(e, BSONRAW_STRING_PAST_END, *size, left), 0;
    if (b[at + *size - 1] != 0) return fault(e, BSONRAW_STRING_NOT_TERMINATED, 0, 0), 0;
    return 1;
}

/* Whether this many bytes are here. */
static int fits(struct element *e, size_t at, size_t end, size_t size) {
    if (end - at >= size) return 1;
    fault(e, BSONRAW_PAST_END, size, end - at);
    return 0;
}

/* Whether a payload of this kind is here; its length. */
static int payload(struct element *e, size_t at, size_t end, size_t *size) {
    static const uint8_t sizes[] = {0, 8, 0, 0, 0, 0, 0, 12, 1, 8, 0, 0, 0, 0, 0, 0, 4, 8, 8, 16};
    size_t left = end - at, to;
    switch (e->tag) {
    case 2: case 13: case 14: return string(e, at, end, size);
    case 3: case 4:
        if (!fits(e, at, end, 5)) return 0;
        if (signed_at(at) < 0) return fault(e, BSONRAW_NEGATIVE_LENGTH, 0, 0), 0;
        *size = (size_t)signed_at(at);
        if (*size < 5) return fault(e, BSONRAW_DOCUMENT_TOO_SMALL, *size, 0), 0;
        if (!fits(e, at, end, *size)) return 0;
        if (b[at + *size - 1] != 0) return fault(e, BSONRAW_NESTED_NOT_TERMINATED, 0, 0), 0;
        return 1;
    case 5: case 15:
        if (left < 4) return fault(e, BSONRAW_LENGTH_HEAD_SHORT, 0, left), 0;
        if (signed_at(at) < 0) return fault(e, BSONRAW_NEGATIVE_LENGTH, 0, 0), 0;
        *size = (size_t)signed_at(at) + (e->tag == 5 ? 5 : 0);
        return fits(e, at, end, *size);
    case 11:
        to = zero(at, end);
        if (to == end) return fault(e, BSONRAW_NO_TERMINATOR, 0, 0), 0;
        if (!is_utf8(at, to)) return e->kind = BSONRAW_NOT_UTF8, 0;
        *size = zero(to + 1, end) + 1 - at;
        if (at + *size > end) return fault(e, BSONRAW_NO_TERMINATOR, 0, 0), 0;
        if (!is_utf8(to + 1, at + *size - 1)) return e->kind = BSONRAW_NOT_UTF8, 0;
        return 1;
    case 12:
        if (!string(e, at, end, size)) return 0;
        *size += 12;
        return fits(e, at, end, *size);
    case 6: case 10: case 127: case 255: *size = 0; return 1;
    default:
        if (e->tag == 0 || e->tag > 19) return fault(e, BSONRAW_INVALID_TAG, e->tag, 0), 0;
        *size = sizes[e->tag];
        return fits(e, at, end, *size);
    }
}

/* What is at this offset of a document that ends there. */
static struct element element_at(size_t at, size_t end) {
    struct element e;
    size_t after_key;
    memset(&e, 0, sizeof e);
    if (at == end) return fault(&e, BSONRAW_OVERFLOWED, 0, 0), e;
    e.tag = b[at];
    if (at + 1 == end) return e.is_end = 1, e;
    after_key = zero(at + 1, end);
    if (!is_utf8(at + 1, after_key)) return e.kind = BSONRAW_NOT_UTF8, e;
    e.has_key = 1;
    e.key = at + 1;
    e.key_len = after_key - at - 1;
    e.payload = after_key + 1;
    payload(&e, e.payload, end, &e.payload_len);
    return e;
}

/* Why bytes are no document; 0 where they are one. */
static uint32_t refused(size_t at, size_t len) {
    if (len < 5) return BSONRAW_TOO_SHORT;
    if (signed_at(at) < 0 || (size_t)signed_at(at) != len) return BSONRAW_LENGTH_INCORRECT;
    return b[at + len - 1] == 0 ? 0 : BSONRAW_NOT_TERMINATED;
}

/* What the value of an element is, as the header's struct has it; the faults are told in e. */
static struct bsonraw_value value_of(struct element *e, size_t len) {
    struct bsonraw_value v;
    size_t p = e->payload, n = e->payload_len, size;
    memset(&v, 0, sizeof v);
    v.text_at = v.more_at = (uint32_t)len;
    switch (e->tag) {
    case 1: memcpy(&v.bits, b + p, 8); break;
    case 2: case 13: case 14:
        v.text_at = (uint32_t)p + 4, v.text_len = (uint32_t)n - 5;
        if (!is_utf8(p + 4, p + n - 1)) e->kind = BSONRAW_NOT_UTF8;
        break;
    case 3: case 4: case 7: case 19: v.text_at = (uint32_t)p, v.text_len = (uint32_t)n; break;
    case 5:
        v.subtype = b[p + 4];
        v.text_at = (uint32_t)p + 5, v.text_len = (uint32_t)n - 5;
        if (v.subtype != 2) break;
        if (n < 9) { fault(e, BSONRAW_OLD_NO_INNER, 0, 0); break; }
        if (signed_at(p + 5) < 0 && signed_at(p + 5) > -5) { e->has_key = 0; fault(e, BSONRAW_ADD_OVERFLOW, 0, 0); break; }
        if ((int64_t)signed_at(p + 5) + 9 != (int64_t)n) { fault(e, BSONRAW_OLD_WRONG_INNER, 0, 0); break; }
        v.text_at += 4, v.text_len -= 4;
        break;
    case 8:
        v.integer = b[p];
        if (b[p] > 1) fault(e, BSONRAW_BAD_BOOLEAN, b[p], 0);
        break;
    case 9: case 18: memcpy(&v.integer, b + p, 8); break;
    case 11:
        v.text_at = (uint32_t)p, v.text_len = (uint32_t)(zero(p, p + n) - p);
        v.more_at = (uint32_t)p + v.text_len + 1, v.more_len = (uint32_t)n - v.text_len - 2;
        break;
    case 12:
        v.text_at = (uint32_t)p + 4, v.text_len = (uint32_t)n - 17;
        v.more_at = (uint32_t)(p + n) - 12, v.more_len = 12;
        if (!is_utf8(p + 4, p + n - 13)) e->kind = BSONRAW_NOT_UTF8;
        break;
    case 15:
        if (n < 14) { fault(e, BSONRAW_CODE_TOO_SMALL, 0, 0); break; }
        e->has_key = 0;
        if (!string(e, p + 4, p + n, &size)) break;
        v.text_at = (uint32_t)p + 8, v.text_len = (uint32_t)size - 5;
        v.more_at = (uint32_t)(p + 4 + size), v.more_len = (uint32_t)(n - 4 - size);
        if (!is_utf8(p + 8, p + 3 + size)) { e->kind = BSONRAW_NOT_UTF8; break; }
        size = refused(p + 4 + size, n - 4 - size);
        if (size) fault(e, (uint32_t)size, 0, 0);
        break;
    case 16: v.integer = signed_at(p); break;
    case 17: memcpy(&v.increment, b + p, 4); memcpy(&v.time, b + p + 4, 4); break;
    default: break;
    }
    v.tag = e->tag;
    return v;
}

/* ---- the comparison ------------------------------------------------------------------------------------------------ */

static unsigned long compared, wrong;

static void expect(int is_so, const char *what) {
    size_t i;
    compared++;
    if (is_so || wrong++ >= 5) return;
    fprintf(stderr, "agree: %s of ", what);
    for (i = 0; i < made_len; i++) fprintf(stderr, "%02x", (unsigned)made[i]);
    fputc('\n', stderr);
}

static int is_fault(const struct element *e, struct bsonraw_error error, size_t offset) {
    return error.kind == e->kind && error.reason == e->reason && error.number == e->number && error.left == e->left &&
           error.offset == offset;
}

static int is_nowhere(const struct bsonraw_iter *it, size_t len) {
    return it->tag == 0 && it->payload_at == len && it->payload_len == 0;
}

static int is_at(const struct bsonraw_iter *it, const struct element *e) {
    return it->tag == e->tag && it->key_at == e->key && it->key_len == e->key_len && it->payload_at == e->payload &&
           it->payload_len == e->payload_len && it->next == e->payload + e->payload_len;
}

/* Whether the key of a cursor is the element's, or the stop's, with a 0 after it; else an empty text. */
static int has_key_of(const struct bsonraw_iter *it, const struct element *e, size_t len) {
    const char *key = bsonraw_iter_key(it, b, len);
    return e->has_key ? key == (const char *)b + e->key && key[e->key_len] == 0 : key[0] == 0;
}

/* Whether a call that stops at what is at this offset says it. */
static int stops_at(int32_t status, const struct bsonraw_iter *it, const struct element *e, size_t at, size_t len) {
    if (!has_key_of(it, e, len)) return 0;
    if (e->is_end) return status == BSONRAW_NONE && is_nowhere(it, len) && it->key_len == 0 && it->next == at;
    if (e->kind == 0) return status == BSONRAW_OK && is_at(it, e);
    return status == BSONRAW_FAULT && is_nowhere(it, len) && is_fault(e, it->error, at) && it->next == at &&
           it->key_at == (e->has_key ? e->key : len) && it->key_len == e->key_len;
}

/* A value has this part of the bytes where its kind is the one that is asked for; else it has none. */
static int is_part(const void *part, size_t size, int is_asked, uint32_t at, uint32_t part_len) {
    return is_asked ? part == b + at && size == part_len : part == NULL && size == 0;
}

/* Texts and bytes by their kind. */
static void compare_parts(const struct bsonraw_iter *it, const struct bsonraw_value *v, size_t len) {
    const uint8_t *part;
    const char *text, *options;
    size_t size;
    uint32_t subtype, tag = v->tag;
    int32_t other = BSONRAW_OTHER_KIND;
    expect(bsonraw_iter_utf8(it, b, len, &text, &size) == (tag == 2 ? 0 : other) && is_part(text, size, tag == 2, v->text_at, v->text_len), "a text");
    expect(bsonraw_iter_code(it, b, len, &text, &size) == (tag == 13 ? 0 : other) && is_part(text, size, tag == 13, v->text_at, v->text_len), "a code");
    expect(bsonraw_iter_symbol(it, b, len, &text, &size) == (tag == 14 ? 0 : other) && is_part(text, size, tag == 14, v->text_at, v->text_len), "a symbol");
    expect(bsonraw_iter_document(it, b, len, &part, &size) == (tag == 3 ? 0 : other) && is_part(part, size, tag == 3, v->text_at, v->text_len), "a document");
    expect(bsonraw_iter_array(it, b, len, &part, &size) == (tag == 4 ? 0 : other) && is_part(part, size, tag == 4, v->text_at, v->text_len), "an array");
    expect(bsonraw_iter_oid(it, b, len, &part) == (tag == 7 ? 0 : other) && is_part(part, 0, tag == 7, v->text_at, 0), "an ObjectId");
    expect(bsonraw_iter_decimal128(it, b, len, &part) == (tag == 19 ? 0 : other) && is_part(part, 0, tag == 19, v->text_at, 0), "a Decimal128");
    expect(bsonraw_iter_binary(it, b, len, &subtype, &part, &size) == (tag == 5 ? 0 : other) && subtype == v->subtype &&
               is_part(part, size, tag == 5, v->text_at, v->text_len), "a binary");
    expect(bsonraw_iter_regex(it, b, len, &text, &options) == (tag == 11 ? 0 : other) && is_part(text, 0, tag == 11, v->text_at, 0) &&
               is_part(options, 0, tag == 11, v->more_at, 0), "a regular expression");
}

/* The value by its kind, and 0 where another is asked for. */
static void compare_kinds(const struct bsonraw_iter *it, const struct bsonraw_value *v, size_t len) {
    int32_t number, is_true, other = BSONRAW_OTHER_KIND;
    int64_t wide, millis;
    double real;
    uint64_t bits;
    uint32_t at, size, time, increment, tag = v->tag;
    expect(bsonraw_iter_int32(it, b, len, &number) == (tag == 16 ? 0 : other) && number == (tag == 16 ? v->integer : 0), "an int32");
    expect(bsonraw_iter_int64(it, b, len, &wide) == (tag == 18 ? 0 : other) && wide == (tag == 18 ? v->integer : 0), "an int64");
    expect(bsonraw_iter_as_int64(it, b, len, &wide) == (tag == 16 || tag == 18 ? 0 : other) && wide == (tag == 16 || tag == 18 ? v->integer : 0),
           "a whole number");
    expect(bsonraw_iter_date_time(it, b, len, &millis) == (tag == 9 ? 0 : other) && millis == (tag == 9 ? v->integer : 0), "a time");
    expect(bsonraw_iter_bool(it, b, len, &is_true) == (tag == 8 ? 0 : other) && is_true == (tag == 8 ? v->integer : 0), "a boolean");
    expect(bsonraw_iter_double(it, b, len, &real) == (tag == 1 ? 0 : other), "a double");
    memcpy(&bits, &real, 8);
    expect(bits == (tag == 1 ? v->bits : 0), "the bits of a double");
    expect(bsonraw_iter_as_double(it, b, len, &real) == (tag == 1 || tag == 16 || tag == 18 ? 0 : other), "a number");
    if (tag == 1) expect(memcmp(&real, &v->bits, 8) == 0, "a number that is a double");
    else expect(real == (tag == 16 || tag == 18 ? (double)v->integer : 0), "a number that is whole");
    expect(bsonraw_iter_timestamp(it, b, len, &time, &increment) == (tag == 17 ? 0 : other) && time == v->time && increment == v->increment,
           "a timestamp");
    expect(bsonraw_iter_text_of(it, b, len, BSONRAW_TAG_SYMBOL, &at, &size) == (tag == 14 ? 0 : other) && at == (tag == 14 ? v->text_at : len) &&
               size == (tag == 14 ? v->text_len : 0), "where a symbol is");
    compare_parts(it, v, len);
}

/* No value is of the kind of a cursor that says another tag than its element has. */
static void compare_other_tag(struct bsonraw_iter it, uint32_t tag, size_t len) {
    struct bsonraw_value found;
    for (it.tag = 0; it.tag < 20; it.tag++) {
        if (it.tag == tag) continue;
        expect(bsonraw_iter_value_of(&it, b, len, it.tag, &found) == BSONRAW_OTHER_KIND && found.tag == 0 && found.text_at == len,
               "a value of another kind than the cursor's");
    }
}

static void compare_value(const struct bsonraw_iter *it, struct element e, size_t len) {
    struct bsonraw_value found, v = value_of(&e, len);
    int32_t status = bsonraw_iter_value(it, b, len, &found);
    if (e.kind != 0)
        expect(status == BSONRAW_FAULT && found.tag == 0 && is_fault(&e, found.error, it->key_at - 1), "the fault of a value");
    else
        expect(status == BSONRAW_OK && memcmp(&found, &v, sizeof v) == 0, "a value"), compare_kinds(it, &v, len),
            compare_other_tag(*it, e.tag, len);
}

/* Many in one call, with this room at a time. */
static void compare_many(struct bsonraw_iter it, size_t room, size_t len) {
    struct bsonraw_entry entries[8];
    uint64_t count, i;
    size_t at = it.next, end = it.document_at + it.document_len;
    int32_t status;
    do {
        struct element e;
        memset(entries, 7, sizeof entries);
        status = bsonraw_iter_next_many(&it, b, len, entries, room, &count);
        expect(count <= room && entries[count].tag == 0x07070707, "what is after the entries");
        for (i = 0; i < count; i++) {
            e = element_at(at, end);
            expect(e.kind == 0 && !e.is_end && entries[i].tag == e.tag && entries[i].key_at == e.key && entries[i].key_len == e.key_len &&
                       entries[i].payload_at == e.payload && entries[i].payload_len == e.payload_len, "an entry");
            at = e.payload + e.payload_len;
        }
        e = element_at(at, end);
        if (count == room) expect(status == BSONRAW_OK && is_nowhere(&it, len) && it.next == at, "a full room");
        else expect(stops_at(status, &it, &e, at, len), "the end of entries");
    } while (status == BSONRAW_OK);
}

/* A look-up of the last of these keys, or of one that isn't there. */
static void compare_find(struct bsonraw_iter it, const uint8_t *key, size_t key_len, size_t len) {
    size_t at = it.next, begins = it.next, end = it.document_at + it.document_len;
    struct element e = element_at(at, end);
    struct bsonraw_iter begun;
    int32_t status;
    while (e.kind == 0 && !e.is_end && !(e.key_len == key_len && memcmp(b + e.key, key, key_len) == 0)) {
        at = e.payload + e.payload_len;
        e = element_at(at, end);
    }
    status = bsonraw_iter_find(&it, b, len, key, key_len);
    expect(stops_at(status, &it, &e, at, len), "a look-up");
    if (begins != 4) return;
    expect(bsonraw_iter_init_find(&begun, b, len, key, key_len) == status && memcmp(&begun, &it, sizeof it) == 0, "a look-up in a document");
}

/* A path by the keys of documents and the numbers of arrays, to the element that is here; the separator is in no key. */
static char path[512];

static void compare_path(size_t path_len, const struct element *e, size_t len) {
    struct bsonraw_iter it;
    int32_t status = bsonraw_iter_init(&it, b, len);
    if (status == BSONRAW_OK) status = bsonraw_iter_find_descendant(&it, b, len, (const uint8_t *)path, path_len, 0);
    expect(status == BSONRAW_OK && is_at(&it, e), "a path");
    status = bsonraw_iter_init(&it, b, len);
    if (status != BSONRAW_OK || path_len + 3 > sizeof path) return;
    memcpy(path + path_len, "\0x", 3);
    status = bsonraw_iter_find_descendant(&it, b, len, (const uint8_t *)path, path_len + 2, 0);
    if (e->tag != 3 && e->tag != 4) expect(status == BSONRAW_OTHER_KIND && is_nowhere(&it, len), "a path into a value");
}

/* Adds the step to an element; 0 where an earlier one has its key, or there is no room. */
static size_t path_to(size_t path_len, const struct element *e, size_t first, size_t end, int in_array, unsigned number) {
    size_t at = first;
    struct element before = element_at(at, end);
    if (path_len + e->key_len + 16 > sizeof path) return 0;
    if (path_len > 0) path[path_len - 1] = 0;
    if (in_array) return path_len + (size_t)snprintf(path + path_len, 12, "%u", number) + 1;
    for (; before.key != e->key; before = element_at(at, end)) {
        if (before.key_len == e->key_len && memcmp(b + before.key, b + e->key, e->key_len) == 0) return 0;
        at = before.payload + before.payload_len;
    }
    memcpy(path + path_len, b + e->key, e->key_len);
    return path_len + e->key_len + 1;
}

static void compare_level(struct bsonraw_iter it, size_t len, int depth, size_t path_len, int in_array);

/* The level that the scope of a code is, where there is one; no path leads there. */
static void compare_scope(struct element e, size_t len, int depth) {
    struct bsonraw_value v = value_of(&e, len);
    struct bsonraw_iter scope;
    if (e.kind != 0) return;
    expect(bsonraw_iter_init_at(&scope, b, len, v.more_at, v.more_len) == BSONRAW_OK && scope.document_at == v.more_at &&
               scope.document_len == v.more_len && scope.next == v.more_at + 4 && is_nowhere(&scope, len), "a scope");
    compare_level(scope, len, depth, 0, 0);
}

static void compare_level(struct bsonraw_iter it, size_t len, int depth, size_t path_len, int in_array) {
    size_t end = it.document_at + it.document_len;
    struct bsonraw_iter first = it, child;
    unsigned number = 0;
    size_t inner;
    int32_t status;
    compare_many(it, 1 + any(7), len);
    compare_find(it, (const uint8_t *)"absent", 6, len);
    do {
        size_t at = it.next;
        struct element e = element_at(at, end);
        status = bsonraw_iter_next(&it, b, len);
        expect(stops_at(status, &it, &e, at, len), "a step");
        if (status != BSONRAW_OK) break;
        compare_value(&it, e, len);
        inner = depth > 0 && path_len == 0 ? 0 : path_to(path_len, &e, first.next, end, in_array, number++);
        if (inner > 0) compare_path(inner - 1, &e, len);
        compare_find(first, b + e.key, e.key_len, len);
        status = bsonraw_iter_recurse(&it, b, len, &child);
        if (e.tag != 3 && e.tag != 4) expect(status == BSONRAW_OTHER_KIND && is_nowhere(&child, len), "a level of another kind");
        else
            expect(status == BSONRAW_OK && child.document_at == e.payload && child.document_len == e.payload_len && child.next == e.payload + 4,
                   "a level");
        if (status == BSONRAW_OK && depth < 8) compare_level(child, len, depth + 1, inner, e.tag == 4);
        if (e.tag == 15 && depth < 8) compare_scope(e, len, depth + 1);
        status = BSONRAW_OK;
    } while (status == BSONRAW_OK);
}

/* A cursor that is begun at any part of the bytes, or of more. */
static void compare_part(uint32_t at, uint32_t part_len, size_t len) {
    struct bsonraw_iter it;
    int32_t status = bsonraw_iter_init_at(&it, b, len, at, part_len);
    uint32_t why;
    if ((uint64_t)at + part_len > len) {
        expect(status == BSONRAW_BAD_OFFSET && is_nowhere(&it, len), "a part that isn't there");
        return;
    }
    why = refused(at, part_len);
    if (why == 0) expect(status == BSONRAW_OK && it.document_at == at && it.document_len == part_len && it.next == at + 4, "a part that is a document");
    else expect(status == BSONRAW_NO_DOCUMENT && it.error.reason == why && it.error.offset == at && is_nowhere(&it, len), "a part that is none");
}

/* Any fields are fine: nothing outside of the bytes is read, and what is said is in them. */
static void compare_astray(size_t len) {
    struct bsonraw_iter it;
    uint32_t room = (uint32_t)len + 4;
    memset(&it, 0, sizeof it);
    it.document_at = any(room), it.document_len = any(room), it.next = any(room), it.key_at = any(room);
    if (any(4) == 0) it.document_at = 4294967295u - any(3);
    compare_part(it.document_at, it.document_len, len);
    it.key_len = any(room);
    expect(strlen(bsonraw_iter_key(&it, b, len)) <= it.key_len, "a key by any fields");
    if (bsonraw_iter_next(&it, b, len) != BSONRAW_BAD_OFFSET)
        expect(refused(it.document_at, it.document_len) == 0 && it.document_at + it.document_len <= len, "an iterator with any fields");
}

static void compare_reader(size_t len) {
    struct bsonraw_reader r;
    size_t at = 0;
    memset(&r, 0, sizeof r);
    for (;;) {
        int32_t status = bsonraw_reader_read(&r, b, len);
        uint32_t why = len - at < 5 ? BSONRAW_TOO_SHORT : 0;
        size_t size = why ? 0 : signed_at(at) < 0 ? 0 : (size_t)signed_at(at);
        if (at == len) {
            expect(status == BSONRAW_NONE && r.document_at == len && r.document_len == 0, "the end of a dump");
            return;
        }
        if (!why && (size < 5 || size > len - at)) why = BSONRAW_LENGTH_INCORRECT;
        if (!why && b[at + size - 1] != 0) why = BSONRAW_NOT_TERMINATED;
        if (!why) expect(status == BSONRAW_OK && r.document_at == at && r.document_len == size, "a document of a dump");
        else expect(status == BSONRAW_NO_DOCUMENT && r.document_len == 0 && r.error.reason == why && r.error.offset == at, "damage in a dump");
        at = !why || why == BSONRAW_NOT_TERMINATED ? at + size : len;
    }
}

/* The tokens that the format says: all levels, depth first, or the first barrier and where it is. */
struct found {
    struct bsonraw_token tokens[MOST];
    uint64_t count, path[64], path_len;
    int32_t status;
    struct element at; /* the element or the stop */
    size_t offset;
};

static struct found wanted;

/* The level that an element holds, if it holds one: where it begins; 0 where it holds none. */
static size_t inside_of(const struct element *e) {
    if (e->tag == 3 || e->tag == 4) return e->payload;
    return e->tag == 15 ? e->payload + 8 + (size_t)signed_at(e->payload + 4) : 0;
}

static int flatten_level(size_t first, size_t end, uint32_t depth, uint32_t levels, size_t len) {
    size_t at = first + 4;
    uint64_t number = 0;
    for (;; number++) {
        struct element e = element_at(at, end);
        struct bsonraw_token *token = &wanted.tokens[wanted.count];
        size_t inner;
        if (e.kind == 0 && e.is_end) return 0;
        if (depth < 64) wanted.path[depth] = number;
        wanted.path_len = depth + 1, wanted.at = e, wanted.offset = at;
        if (e.kind != 0) return wanted.status = BSONRAW_FAULT;
        at = e.payload + e.payload_len;
        value_of(&e, len);
        wanted.at = e;
        if (e.kind != 0) return wanted.at.has_key = 1, wanted.status = BSONRAW_FAULT;
        inner = inside_of(&e);
        wanted.at.has_key = 1;
        if (inner > 0 && levels == 1) return wanted.status = BSONRAW_TOO_DEEP;
        token->tag = e.tag, token->depth = depth;
        token->key_at = (uint32_t)e.key, token->key_len = (uint32_t)e.key_len;
        token->payload_at = (uint32_t)e.payload, token->payload_len = (uint32_t)e.payload_len;
        wanted.count++;
        if (inner > 0 && flatten_level(inner, at, depth + 1, levels - 1, len)) return 1;
        token->inside = (uint32_t)(&wanted.tokens[wanted.count] - token - 1);
    }
}

static int is_zero_error(const struct bsonraw_error *e) {
    return e->kind == 0 && e->reason == 0 && e->number == 0 && e->left == 0;
}

/* Whether a report says the place that was found; the path has this room. */
static int is_place(const struct bsonraw_report *r, const uint64_t *steps, size_t room, size_t len) {
    size_t i;
    for (i = 0; i < room && i < 64; i++)
        if (steps[i] != (i < wanted.path_len ? wanted.path[i] : 77)) return 0;
    if (r->path_len != wanted.path_len || r->error.offset != wanted.offset || r->has_key != (uint32_t)wanted.at.has_key) return 0;
    if (wanted.at.has_key ? r->key_at != wanted.at.key || r->key_len != wanted.at.key_len : r->key_at != len || r->key_len != 0) return 0;
    if (wanted.status == BSONRAW_FAULT) return is_fault(&wanted.at, r->error, wanted.offset);
    return is_zero_error(&r->error);
}

/* All levels of a document in one call: within these levels, and with these rooms. */
static void compare_flatten(uint32_t levels, size_t room, size_t path_room, size_t len) {
    static struct bsonraw_token tokens[MOST];
    struct bsonraw_report r;
    uint64_t steps[64], i;
    size_t fit;
    int32_t status;
    wanted.count = wanted.path_len = 0;
    wanted.status = BSONRAW_OK;
    flatten_level(0, len, 0, levels, len);
    fit = wanted.count < room ? (size_t)wanted.count : room;
    memset(tokens, 7, (fit + 2) * sizeof *tokens);
    for (i = 0; i < 64; i++) steps[i] = 77;
    status = bsonraw_flatten(b, len, len, levels, tokens, room, &r, steps, path_room);
    if (wanted.status != BSONRAW_OK) {
        expect(status == wanted.status && r.count == 0 && r.cause == 0 && is_place(&r, steps, path_room, len), "the place of a first fault");
        return;
    }
    expect(status == (wanted.count <= room ? BSONRAW_OK : BSONRAW_SMALL_BUFFER) && r.count == wanted.count && r.path_len == 0 && r.cause == 0 &&
               r.has_key == 0 && r.key_at == len && r.key_len == 0 && is_zero_error(&r.error) && r.error.offset == 0, "a count of tokens");
    expect(memcmp(tokens, wanted.tokens, fit * sizeof *tokens) == 0, "tokens");
    expect(tokens[fit].tag == 0x07070707 && tokens[fit + 1].inside == 0x07070707, "what is after the tokens");
}

/* Whether a report says only this count. */
static int is_count(const struct bsonraw_report *r, uint64_t count, size_t len) {
    return r->count == count && r->path_len == 0 && r->cause == 0 && r->has_key == 0 && r->key_at == len && r->key_len == 0 &&
           is_zero_error(&r->error) && r->error.offset == 0;
}

/* Whether the numbers of a path are as they were. */
static int is_kept(const uint64_t *steps) {
    size_t i;
    for (i = 0; i < 64; i++)
        if (steps[i] != 77) return 0;
    return 1;
}

/* The first fault, of which compare_flatten has left what the format says. */
static void compare_first_fault(uint32_t levels, size_t path_room, size_t len) {
    struct bsonraw_report r;
    uint64_t steps[64], i;
    int32_t status;
    for (i = 0; i < 64; i++) steps[i] = 77;
    status = bsonraw_first_fault(b, len, len, levels, &r, steps, path_room);
    if (wanted.status == BSONRAW_OK) expect(status == BSONRAW_OK && is_count(&r, 0, len) && is_kept(steps), "no fault");
    else expect(status == wanted.status && r.count == 0 && r.cause == 0 && is_place(&r, steps, path_room, len), "a first fault");
}

/* Whether the code points of a text ascend, equal ones side by side. */
static int do_ascend(size_t at, size_t end) {
    size_t before = at;
    for (at++; at < end; at++) {
        size_t i = 0;
        if ((b[at] & 0xc0) == 0x80) continue;
        while (before + i < at && b[before + i] == b[at + i]) i++; /* UTF-8 is in the order of the code points */
        if (before + i < at && b[before + i] > b[at + i]) return 0;
        before = at;
    }
    return 1;
}

static int is_key(const struct element *e, const uint8_t *key, size_t key_len) {
    return e->key_len == key_len && memcmp(b + e->key, key, key_len) == 0;
}

/* The last element from here on with this key; its tag is 0 where there is none. */
static struct element last_with(size_t at, size_t end, const uint8_t *key, size_t key_len) {
    struct element e = element_at(at, end), last;
    memset(&last, 0, sizeof last);
    for (; e.kind == 0 && !e.is_end; e = element_at(at, end)) {
        if (is_key(&e, key, key_len)) last = e;
        at = e.payload + e.payload_len;
    }
    return last;
}

/* Whether an element before this one has its key. */
static int is_repeated(size_t first, const struct element *e) {
    size_t at = first;
    for (;;) {
        struct element before = element_at(at, e->payload);
        if (before.key == e->key) return 0;
        if (is_key(&before, b + e->key, e->key_len)) return 1;
        at = before.payload + before.payload_len;
    }
}

/* Why the key of an element breaks the form of its level; 0 where it doesn't. */
static uint32_t breach_of_key(size_t first, const struct element *e, int in_array, unsigned number) {
    char decimal[12];
    if (!in_array) return is_repeated(first, e) ? BSONRAW_REPEATED_KEY : 0;
    return is_key(e, (const uint8_t *)decimal, (size_t)snprintf(decimal, sizeof decimal, "%u", number)) ? 0 : BSONRAW_ARRAY_KEY;
}

/* The first breach, as the format says it: its cause, or that a level is too deep; 0 where there is none. */
static uint32_t check_level(size_t first, size_t end, int in_array, uint32_t depth, uint32_t levels, size_t len) {
    size_t at = first + 4, inner;
    unsigned number = 0;
    uint32_t why;
    for (;; number++) {
        struct element e = element_at(at, end);
        if (e.kind == 0 && e.is_end) return 0;
        if (depth < 64) wanted.path[depth] = number;
        wanted.path_len = depth + 1, wanted.at = e, wanted.offset = at;
        wanted.status = BSONRAW_BREACH;
        if (e.kind != 0) return wanted.at.has_key = 0, BSONRAW_STOP;
        why = breach_of_key(first + 4, &e, in_array, number);
        if (why) return why;
        value_of(&e, len);
        if (e.kind != 0) return BSONRAW_VALUE;
        at = e.payload + e.payload_len;
        if (e.tag == 11 && !do_ascend(zero(e.payload, at) + 1, at - 1)) return BSONRAW_OPTIONS;
        inner = inside_of(&e);
        if (inner > 0 && levels == 1) return wanted.status = BSONRAW_TOO_DEEP;
        why = inner > 0 ? check_level(inner, at, e.tag == 4, depth + 1, levels - 1, len) : 0;
        if (why) return why;
    }
}

static void compare_check(uint32_t levels, size_t path_room, size_t len) {
    struct bsonraw_report r;
    uint64_t steps[64], i;
    uint32_t why;
    int32_t status;
    wanted.path_len = 0;
    why = check_level(0, len, 0, 0, levels, len);
    for (i = 0; i < 64; i++) steps[i] = 77;
    status = bsonraw_check(b, len, len, levels, &r, steps, path_room);
    if (why == 0) {
        expect(status == BSONRAW_OK && is_count(&r, 0, len) && is_kept(steps), "a canonical document");
        return;
    }
    if (wanted.status == BSONRAW_TOO_DEEP) why = 0;
    expect(status == wanted.status && r.count == 0 && r.cause == why && is_place(&r, steps, path_room, len), "a first breach");
}

/* The canonical form as it is written. */
static uint8_t form[8 * MOST];
static size_t form_len;

static void write_bytes(const uint8_t *from, size_t size) {
    memcpy(form + form_len, from, size);
    form_len += size;
}

static void write_32_at(size_t at, size_t number) {
    int i;
    for (i = 0; i < 4; i++) form[at + (size_t)i] = (uint8_t)(number >> 8 * i);
}

static void write_level(size_t first, size_t end, int in_array);

/* A text with its code points in ascending order: the least of those that are left, again and again. */
static void write_sorted(size_t at, size_t end) {
    uint8_t is_done[MOST] = {0};
    for (;;) {
        size_t i, size, least = end, least_size = 0;
        for (i = at; i < end; i += size) {
            for (size = 1; i + size < end && (b[i + size] & 0xc0) == 0x80;) size++;
            if (is_done[i] || (least < end && memcmp(b + i, b + least, size < least_size ? size : least_size) >= 0)) continue;
            least = i, least_size = size;
        }
        if (least == end) return;
        is_done[least] = 1;
        write_bytes(b + least, least_size);
    }
}

static void write_payload(const struct element *e) {
    size_t at = e->payload, end = at + e->payload_len, begins = form_len, inner = inside_of(e);
    if (e->tag == 11) {
        size_t options = zero(at, end) + 1;
        write_bytes(b + at, options - at);
        write_sorted(options, end - 1);
        write_bytes(b + end - 1, 1);
    } else if (inner > 0) {
        write_bytes(b + at, inner - at);
        write_level(inner, end, e->tag == 4);
        if (e->tag == 15) write_32_at(begins, form_len - begins);
    } else {
        write_bytes(b + at, e->payload_len);
    }
}

/* A level: each key once, where it is first, with its last value; in an array all, under their numbers. */
static void write_level(size_t first, size_t end, int in_array) {
    size_t at = first + 4, begins = form_len;
    unsigned number = 0;
    struct element e = element_at(at, end);
    form_len += 4;
    for (; !e.is_end; e = element_at(at, end)) {
        struct element last = in_array ? e : last_with(at, end, b + e.key, e.key_len);
        char decimal[12];
        size_t digits = (size_t)snprintf(decimal, sizeof decimal, "%u", number++);
        at = e.payload + e.payload_len;
        if (!in_array && is_repeated(first + 4, &e)) continue;
        form[form_len++] = (uint8_t)last.tag;
        write_bytes(in_array ? (const uint8_t *)decimal : b + e.key, in_array ? digits : e.key_len);
        form[form_len++] = 0;
        write_payload(&last);
    }
    form[form_len++] = 0;
    write_32_at(begins, form_len - begins);
}

/* The form, of a document in which flatten_level has found this; and into this many bytes. */
static void compare_form(uint32_t levels, size_t path_room, size_t len) {
    static uint8_t room[8 * MOST];
    struct bsonraw_report r;
    uint64_t steps[64], i;
    size_t room_len, fit;
    int32_t status;
    form_len = 0;
    if (wanted.status == BSONRAW_OK) write_level(0, len, 0);
    room_len = any(4) ? form_len + any(3) : any((uint32_t)form_len + 1);
    fit = wanted.status == BSONRAW_OK && form_len <= room_len ? form_len : 0;
    memset(room, 7, form_len + 8);
    for (i = 0; i < 64; i++) steps[i] = 77;
    status = bsonraw_canonical(b, len, len, levels, room, room_len, &r, steps, path_room);
    if (wanted.status == BSONRAW_OK)
        expect(status == (fit ? BSONRAW_OK : BSONRAW_SMALL_BUFFER) && is_count(&r, form_len, len) && is_kept(steps), "how long a form is");
    else expect(status == wanted.status && r.count == 0 && r.cause == 0 && is_place(&r, steps, path_room, len), "why there is no form");
    expect(memcmp(room, form, fit) == 0, "a form");
    for (i = fit; i < form_len + 8 && room[i] == 7;) i++;
    expect(i == form_len + 8, "what is after a form");
}

/* A level as it is built of its elements up to a stop: as they are, except for the keys of an array. Returns how many they are. */
static unsigned write_built(size_t first, size_t end, int in_array) {
    size_t at = first + 4, begins = form_len;
    unsigned number = 0;
    struct element e = element_at(at, end);
    form_len += 4;
    for (; e.kind == 0 && !e.is_end; e = element_at(at, end)) {
        char decimal[12];
        size_t digits = (size_t)snprintf(decimal, sizeof decimal, "%u", number++);
        at = e.payload + e.payload_len;
        form[form_len++] = (uint8_t)e.tag;
        write_bytes(in_array ? (const uint8_t *)decimal : b + e.key, in_array ? digits : e.key_len);
        form[form_len++] = 0;
        if (e.tag == 3 || e.tag == 4) write_built(e.payload, at, e.tag == 4);
        else write_bytes(b + e.payload, e.payload_len);
    }
    form[form_len++] = 0;
    write_32_at(begins, form_len - begins);
    return number;
}

static uint8_t built[8 * MOST];

/* Appends an element that is no level: by its parts where it has a value, or as it is. */
static void build_element(struct bsonraw_builder *to, size_t room, struct element e, const struct bsonraw_iter *it, size_t len) {
    struct bsonraw_value v = value_of(&e, len);
    uint8_t subtype = (uint8_t)v.subtype;
    const uint8_t *one = b + e.payload, *two = &subtype;
    size_t one_len = e.payload_len, two_len = 1;
    if (e.kind != 0 || any(2)) {
        bsonraw_append_iter(to, built, room, it, b, len);
        return;
    }
    switch (e.tag) {
    case 11: case 12: case 15: two = b + v.more_at, two_len = v.more_len; /* fallthrough */
    case 2: case 5: case 13: case 14: one = b + v.text_at, one_len = v.text_len; break;
    default: break;
    }
    bsonraw_append(to, built, room, e.tag, b + it->key_at, it->key_len, one, one_len, two, two_len);
}

static void build_level(struct bsonraw_builder *to, size_t room, struct bsonraw_iter it, size_t len) {
    size_t end = it.document_at + it.document_len;
    struct bsonraw_builder level;
    struct bsonraw_iter child;
    for (;;) {
        struct element e = element_at(it.next, end);
        if (bsonraw_iter_next(&it, b, len) != BSONRAW_OK) return;
        if (bsonraw_iter_recurse(&it, b, len, &child) == BSONRAW_OK) {
            bsonraw_append_begin(to, built, room, e.tag, b + it.key_at, it.key_len, &level);
            build_level(&level, room, child, len);
            bsonraw_append_end(to, built, room, &level);
        } else {
            build_element(to, room, e, &it, len);
        }
    }
}

/* The document that is built of the elements, in a room that may be too small. */
static void compare_built(struct bsonraw_iter it, size_t len) {
    struct bsonraw_builder to;
    size_t room, i;
    unsigned count;
    int32_t status;
    form_len = 0;
    count = write_built(0, len, 0);
    room = any(4) ? form_len + any(3) : any((uint32_t)form_len);
    memset(built, 7, form_len + 8);
    bsonraw_builder_begin(&to, built, room);
    build_level(&to, room, it, len);
    status = bsonraw_builder_end(&to, built, room);
    expect(status == (form_len <= room ? BSONRAW_OK : BSONRAW_SMALL_BUFFER) && to.len == form_len && to.count == count && to.begins == to.len &&
               to.tag == 3, "how long a built document is");
    if (status == BSONRAW_OK) expect(memcmp(built, form, form_len) == 0, "a built document");
    for (i = status == BSONRAW_OK ? form_len : room; i < form_len + 8 && built[i] == 7;) i++;
    expect(i == form_len + 8, "what is after a built document");
}

/* More bytes than allowed are told before all else. */
static void compare_limit(size_t len) {
    struct bsonraw_report r[3];
    uint64_t steps[64], i;
    uint8_t room[1] = {7};
    for (i = 0; i < 64; i++) steps[i] = 77;
    expect(bsonraw_first_fault(b, len, len - 1, any(2), &r[0], steps, 64) == BSONRAW_TOO_MANY_BYTES, "too many bytes for a first fault");
    expect(bsonraw_check(b, len, len - 1, any(2), &r[1], steps, 64) == BSONRAW_TOO_MANY_BYTES, "too many bytes to check");
    expect(bsonraw_canonical(b, len, len - 1, any(2), room, 1, &r[2], steps, 64) == BSONRAW_TOO_MANY_BYTES, "too many bytes for a form");
    expect(is_count(&r[0], 0, len) && is_count(&r[1], 0, len) && is_count(&r[2], 0, len) && is_kept(steps) && room[0] == 7, "no more than that");
}

/* All calls over all levels, within these levels. */
static void compare_whole(uint32_t levels, size_t room, size_t path_room, size_t len) {
    compare_flatten(levels, room, path_room, len);
    compare_first_fault(levels, path_room, len);
    compare_form(levels, path_room, len);
    compare_check(levels, path_room, len);
}

static void compare(size_t len) {
    struct bsonraw_iter it;
    int32_t status = bsonraw_iter_init(&it, b, len);
    uint32_t why = refused(0, len);
    if (why == 0) {
        expect(status == BSONRAW_OK && it.document_len == len && it.next == 4, "a document");
        compare_level(it, len, 0, 0, 0);
        compare_built(it, len);
        compare_whole(100, MOST - 2, 64, len);
        compare_whole(1 + any(4), any(6), any(4), len);
        compare_limit(len);
    } else {
        expect(status == BSONRAW_NO_DOCUMENT && it.error.kind == BSONRAW_MALFORMED && it.error.reason == why, "no document");
        status = bsonraw_iter_next(&it, b, len);
        expect(status == BSONRAW_BAD_OFFSET && is_nowhere(&it, len), "a step in no document");
    }
    compare_astray(len);
    compare_reader(len);
}

/* The argument says how many documents; without one they are 200,000. */
int main(int count, char **arguments) {
    const char *digit;
    int i, documents = count == 2 ? 0 : 200000;
    if (count == 2)
        for (digit = arguments[1]; *digit >= '0' && *digit <= '9'; digit++) documents = documents * 10 + (*digit - '0');
    for (i = 0; i < documents; i++) {
        make_next();
        b = malloc(made_len ? made_len : 1);
        if (b == NULL) return 2;
        memcpy((uint8_t *)(uintptr_t)b, made, made_len);
        compare(made_len);
        free((uint8_t *)(uintptr_t)b);
    }
    printf("%d documents: %lu results are those of a reader written from the format\n", documents, compared);
    return wrong != 0;
}
