/* The numbers of the header beside those that the library returns: each status, cause and kind of fault by a call that gives it,
 * and each tag by an element of that kind. BSONRAW_NO_MEMORY is looked at where memory is refused, and the reasons in a file of
 * their own. A constant that is in the header and not here is an error of the compiler. */
#include "documents.h"

#include <string.h>

#define BYTES(text) (const uint8_t *)(text), sizeof(text) - 1
#define EMPTY "\5\0\0\0\0"
#define NO_ELEMENT "\6\0\0\0\0\0"

static int is_known_status(enum bsonraw_status status) {
    switch (status) {
    case BSONRAW_OK: case BSONRAW_NONE: case BSONRAW_FAULT: case BSONRAW_BREACH: case BSONRAW_NO_DOCUMENT: case BSONRAW_TOO_MANY_BYTES:
    case BSONRAW_TOO_DEEP: case BSONRAW_TOO_LONG: case BSONRAW_SMALL_BUFFER: case BSONRAW_BAD_OFFSET: case BSONRAW_NO_MEMORY:
    case BSONRAW_OTHER_KIND: case BSONRAW_NULL: case BSONRAW_MISUSE: case BSONRAW_CUT: case BSONRAW_NOT_READ: return 1;
    }
    return 0;
}

static int is_known_reason(enum bsonraw_reason reason) {
    switch (reason) {
    case BSONRAW_TOO_SHORT: case BSONRAW_LENGTH_INCORRECT: case BSONRAW_NOT_TERMINATED: case BSONRAW_OVERFLOWED: case BSONRAW_INVALID_TAG:
    case BSONRAW_STRING_HEAD_SHORT: case BSONRAW_NEGATIVE_LENGTH: case BSONRAW_STRING_TOO_SMALL: case BSONRAW_STRING_PAST_END:
    case BSONRAW_STRING_NOT_TERMINATED: case BSONRAW_PAST_END: case BSONRAW_DOCUMENT_TOO_SMALL: case BSONRAW_NESTED_NOT_TERMINATED:
    case BSONRAW_LENGTH_HEAD_SHORT: case BSONRAW_NO_TERMINATOR: case BSONRAW_BAD_BOOLEAN: case BSONRAW_OLD_NO_INNER:
    case BSONRAW_ADD_OVERFLOW: case BSONRAW_OLD_WRONG_INNER: case BSONRAW_CODE_TOO_SMALL: return 1;
    }
    return 0;
}

static void returns(int32_t status, enum bsonraw_status wanted) {
    expect(is_known_status(wanted) && status == (int32_t)wanted, "a status", "another number than the header's");
}

static void look_at_statuses(void) {
    struct bsonraw_iter it, child;
    struct bsonraw_builder b;
    struct bsonraw_report r;
    uint64_t path[1];
    uint8_t room[8];
    returns(bsonraw_iter_init(&it, BYTES(EMPTY)), BSONRAW_OK);
    returns(bsonraw_iter_next(&it, BYTES(EMPTY)), BSONRAW_NONE);
    returns(bsonraw_iter_recurse(&it, BYTES(EMPTY), &child), BSONRAW_OTHER_KIND);
    returns(bsonraw_iter_next(&child, BYTES(EMPTY)), BSONRAW_BAD_OFFSET);
    returns(bsonraw_iter_init(&it, BYTES("")), BSONRAW_NO_DOCUMENT);
    returns(bsonraw_first_fault(BYTES(NO_ELEMENT), 100, 100, &r, path, 1), BSONRAW_FAULT);
    returns(bsonraw_check(BYTES(NO_ELEMENT), 100, 100, &r, path, 1), BSONRAW_BREACH);
    returns(bsonraw_check(BYTES(NO_ELEMENT), 5, 100, &r, path, 1), BSONRAW_TOO_MANY_BYTES);
    returns(bsonraw_check(BYTES(NO_ELEMENT), 100, 0, &r, path, 1), BSONRAW_TOO_DEEP);
    returns(bsonraw_canonical(BYTES(EMPTY), 100, 100, room, 4, &r, path, 1), BSONRAW_SMALL_BUFFER);
    bsonraw_builder_begin(&b, room, sizeof room);
    b.len = 2147483647;
    returns(bsonraw_append_null(&b, room, sizeof room, BYTES("")), BSONRAW_TOO_LONG);
}

/* Documents whose first breach has each of the causes. */
static void breaks(const uint8_t *bytes, size_t len, enum bsonraw_cause wanted) {
    struct bsonraw_report r;
    uint64_t path[1];
    int32_t status = bsonraw_check(bytes, len, 100, 100, &r, path, 1);
    switch (wanted) {
    case BSONRAW_STOP: case BSONRAW_VALUE: case BSONRAW_REPEATED_KEY: case BSONRAW_ARRAY_KEY: case BSONRAW_OPTIONS:
        expect(status == BSONRAW_BREACH && r.cause == wanted, "a cause", "another number than the header's");
    }
}

static void look_at_causes(void) {
    breaks(BYTES(NO_ELEMENT), BSONRAW_STOP);
    breaks(BYTES("\11\0\0\0\10k\0\2\0"), BSONRAW_VALUE);
    breaks(BYTES("\13\0\0\0\12k\0\12k\0\0"), BSONRAW_REPEATED_KEY);
    breaks(BYTES("\20\0\0\0\4k\0\10\0\0\0\12x\0\0\0"), BSONRAW_ARRAY_KEY);
    breaks(BYTES("\14\0\0\0\13k\0\0xi\0\0"), BSONRAW_OPTIONS);
}

static void is_at_fault(const uint8_t *bytes, size_t len, enum bsonraw_kind wanted, enum bsonraw_reason reason) {
    struct bsonraw_report r;
    uint64_t path[1];
    switch (wanted) {
    case BSONRAW_MALFORMED: case BSONRAW_NOT_UTF8:
        expect(bsonraw_first_fault(bytes, len, 100, 100, &r, path, 1) == BSONRAW_FAULT && r.error.kind == wanted, "a kind", "another number than the header's");
    }
    expect(wanted == BSONRAW_NOT_UTF8 ? r.error.reason == 0 : is_known_reason(reason) && r.error.reason == reason, "a reason", "another number");
}

/* An element of this tag, as BSON has it: the payload's bytes. The library's builder makes such an element of these parts. */
static void has_tag(enum bsonraw_tag tag, const char *payload, size_t payload_len, const uint8_t *one, size_t one_len, const char *two,
                    size_t two_len) {
    uint8_t room[64], wanted[64] = {0};
    struct bsonraw_builder b;
    struct bsonraw_iter it;
    struct bsonraw_value v;
    bsonraw_builder_begin(&b, room, sizeof room);
    bsonraw_append(&b, room, sizeof room, tag, BYTES("k"), one, one_len, (const uint8_t *)two, two_len);
    wanted[0] = (uint8_t)(8 + payload_len), wanted[4] = (uint8_t)tag, wanted[5] = 'k';
    memcpy(wanted + 7, payload, payload_len);
    expect(bsonraw_builder_end(&b, room, sizeof room) == BSONRAW_OK && b.len == 8 + payload_len && memcmp(room, wanted, b.len) == 0, "a tag",
           "another element than the format's");
    expect(bsonraw_iter_init_find(&it, room, b.len, BYTES("k")) == BSONRAW_OK && it.tag == tag &&
               bsonraw_iter_value(&it, room, b.len, &v) == BSONRAW_OK && v.tag == tag, "a tag", "another number than the header's");
}

/* The status of an append of an element of this tag without parts. */
static int32_t append(unsigned tag) {
    uint8_t room[64];
    struct bsonraw_builder b;
    bsonraw_builder_begin(&b, room, sizeof room);
    return bsonraw_append(&b, room, sizeof room, tag, BYTES("k"), BYTES(""), BYTES(""));
}

#define HAS(tag, number, payload, one, two)                                                          \
    case tag:                                                                                        \
        expect(tag == number, "a tag", "another number than BSON's");                                \
        has_tag(tag, payload, sizeof(payload) - 1, BYTES(one), two, sizeof(two) - 1);                \
        return

static void look_at_tag(enum bsonraw_tag tag) {
    switch (tag) {
    HAS(BSONRAW_TAG_DOUBLE, 0x01, "12345678", "12345678", "");
    HAS(BSONRAW_TAG_STRING, 0x02, "\2\0\0\0a\0", "a", "");
    HAS(BSONRAW_TAG_DOCUMENT, 0x03, EMPTY, EMPTY, "");
    HAS(BSONRAW_TAG_ARRAY, 0x04, EMPTY, EMPTY, "");
    HAS(BSONRAW_TAG_BINARY, 0x05, "\1\0\0\0\200a", "a", "\200");
    HAS(BSONRAW_TAG_UNDEFINED, 0x06, "", "", "");
    HAS(BSONRAW_TAG_OBJECT_ID, 0x07, "123456789012", "123456789012", "");
    HAS(BSONRAW_TAG_BOOLEAN, 0x08, "\1", "\1", "");
    HAS(BSONRAW_TAG_DATETIME, 0x09, "12345678", "12345678", "");
    HAS(BSONRAW_TAG_NULL, 0x0a, "", "", "");
    HAS(BSONRAW_TAG_REGEX, 0x0b, "a\0i\0", "a", "i");
    HAS(BSONRAW_TAG_DB_POINTER, 0x0c, "\2\0\0\0a\000123456789012", "a", "123456789012");
    HAS(BSONRAW_TAG_JAVASCRIPT, 0x0d, "\2\0\0\0a\0", "a", "");
    HAS(BSONRAW_TAG_SYMBOL, 0x0e, "\2\0\0\0a\0", "a", "");
    HAS(BSONRAW_TAG_JAVASCRIPT_WITH_SCOPE, 0x0f, "\17\0\0\0\2\0\0\0a\0" EMPTY, "a", EMPTY);
    HAS(BSONRAW_TAG_INT32, 0x10, "1234", "1234", "");
    HAS(BSONRAW_TAG_TIMESTAMP, 0x11, "12345678", "12345678", "");
    HAS(BSONRAW_TAG_INT64, 0x12, "12345678", "12345678", "");
    HAS(BSONRAW_TAG_DECIMAL128, 0x13, "1234567890123456", "1234567890123456", "");
    HAS(BSONRAW_TAG_MAX_KEY, 0x7f, "", "", "");
    HAS(BSONRAW_TAG_MIN_KEY, 0xff, "", "", "");
    }
    expect(append(tag) == BSONRAW_OTHER_KIND, "a tag", "no constant has it, and it is taken");
}

int main(void) {
    look_at_statuses();
    look_at_causes();
    is_at_fault(BYTES(NO_ELEMENT), BSONRAW_MALFORMED, BSONRAW_INVALID_TAG);
    is_at_fault(BYTES("\7\0\0\0\12\377\0"), BSONRAW_NOT_UTF8, BSONRAW_TOO_SHORT);
    for (unsigned tag = 0; tag < 256; tag++) look_at_tag((enum bsonraw_tag)tag);
    return result("numbers");
}
