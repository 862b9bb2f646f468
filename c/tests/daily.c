/* The functions for daily use: texts, values by path, several paths at once, values in place, ObjectIds, a builder that grows, and
 * documents from a file. What they give is beside documents written by hand from the format, and beside the calls of a cursor. */
#include "documents.h"

#include <stdio.h>
#include <stdlib.h>
#include <string.h>
#include <unistd.h>

#define NOT_BLOCKING 2048 /* O_NONBLOCK */

int pipe2(int ends[2], int flags);

/* {"a": 7, "n": {"s": "text", "l": [true, {"d": 1.5}]}, "t": the time 5, "w": 2^40, "i": an ObjectId} */
static const uint8_t sample[] = "\144\0\0\0\20a\0\7\0\0\0"
                                "\3n\0\60\0\0\0\2s\0\5\0\0\0text\0\4l\0\34\0\0\0\0100\0\1\0031\0\20\0\0\0\1d\0\0\0\0\0\0\0\370\77\0\0\0"
                                "\11t\0\5\0\0\0\0\0\0\0\22w\0\0\0\0\0\0\1\0\0\7i\0\145\123\361\0abcdefgh";

#define SAMPLE sample, sizeof sample

static void is(int64_t status, int64_t wanted, const char *name) {
    expect(status == wanted, name, "another number");
}

static void is_text(const char *text, const char *wanted) {
    expect(strcmp(text, wanted) == 0, wanted, text);
}

/* The numbers of each reason that has some, after its words. */
static void look_at_numbers(void) {
    static const char *const texts[] = {
        "no reason", "a document of under five bytes", "a document's length is wrong", "no final 0", "no element and no final 0",
        "no kind has this tag: 4157", "a string's length is cut off: 62 are left", "a length is negative", "a string's length is 0",
        "a string is longer than what is left: 4157 where 62 are left", "a string has no final 0",
        "a value is longer than what is left: 4157 where 62 are left", "a nested document's length is under 5: 4157",
        "a nested document has no final 0", "a value's length is cut off: 62 are left", "a text has no final 0",
        "a boolean is neither 0 nor 1: 4157", "an old binary has no inner length", "an old binary's inner length is negative",
        "an old binary's inner length is wrong", "a code with scope is too short",
    };
    struct bsonraw_error error = {BSONRAW_MALFORMED, 0, 4157, 62, 0};
    char text[150];
    for (error.reason = 0; error.reason < sizeof texts / sizeof *texts; error.reason++) {
        is((int64_t)bsonraw_fault_text(&error, text, sizeof text), (int64_t)strlen(texts[error.reason]), "a fault's length");
        is_text(text, texts[error.reason]);
    }
    is((int64_t)bsonraw_fault_text(NULL, NULL, 0), 8, "no fault");
}

static void look_at_texts(void) {
    static const uint8_t damaged[] = "\33\0\0\0\12x\0\4a\"\n\1\0\15\0\0\0\0100\0\1\0101\0\2\0";
    uint64_t path[4];
    char text[64];
    struct bsonraw_report r;
    is_text(bsonraw_status_text(BSONRAW_NONE), "no more");
    is_text(bsonraw_status_text(BSONRAW_MISUSE), "a call out of turn");
    is_text(bsonraw_status_text(BSONRAW_NOT_READ), "the file can't be read");
    is_text(bsonraw_status_text(16), "no status");
    is_text(bsonraw_status_text(-9), "a level is open");
    is_text(bsonraw_reason_text(21), "no reason");
    is_text(bsonraw_cause_text(BSONRAW_ARRAY_KEY), "array-key");
    is_text(bsonraw_cause_text(BSONRAW_EMPTY_KEY), "empty-key");
    is_text(bsonraw_cause_text(9), "no cause");
    is_text(bsonraw_tag_text(BSONRAW_TAG_INT64), "int64");
    is_text(bsonraw_tag_text(BSONRAW_TAG_MIN_KEY), "MinKey");
    is_text(bsonraw_tag_text(20), "no kind");
    is(bsonraw_first_fault(damaged, sizeof damaged, 99, 9, &r, path, 4), BSONRAW_FAULT, "a fault");
    is_text(bsonraw_error_text(&r.error), "a boolean is neither 0 nor 1");
    is((int64_t)bsonraw_fault_text(&r.error, text, sizeof text), 31, "a fault's length");
    is_text(text, "a boolean is neither 0 nor 1: 2");
    r.error.kind = BSONRAW_NOT_UTF8;
    is_text(bsonraw_error_text(&r.error), "a text isn't UTF-8");
    is((int64_t)bsonraw_fault_text(&r.error, text, 7), 18, "a fault's length");
    is_text(text, "a text");
    look_at_numbers();
    is((int64_t)bsonraw_path_text(damaged, sizeof damaged, path, (size_t)r.path_len, text, sizeof text), 22, "a path's length");
    is_text(text, "/1:\"a\\\"\\n\\u0001\"/1:\"1\"");
    memset(text, '#', sizeof text);
    is((int64_t)bsonraw_path_text(damaged, sizeof damaged, path, (size_t)r.path_len, text, 5), 22, "a path's length");
    is_text(text, "/1:\"");
    is((int64_t)bsonraw_path_text(damaged, sizeof damaged, path, (size_t)r.path_len, NULL, 0), 22, "a path's length");
}

/* What is wrong with a text of JSON, by a text of each reason that some text has. */
static void look_at_json_faults(void) {
    static const char *const texts[][2] = {
        {"{\"a\":", "the text ends too early"}, {"\357\273\277{}", "a byte order mark in front of the text"}, {"[]", "expected a document"},
        {"{a:1}", "expected a key in quotes"}, {"{\"a\" 1}", "expected a colon"},
        {"{\"a\":1 \"b\":1}", "expected a comma or the end of the object or array"}, {"{\"a\":}", "expected a value"},
        {"{}{}", "text after the document"}, {"{\"a\":01}", "not a number of JSON"}, {"{\"a\":9223372036854775808}", "an integer of more than 64 bits"},
        {"{\"a\":1e999}", "a number beyond the greatest double"}, {"{\"a\":\"\t\"}", "a control character that is not escaped"},
        {"{\"a\":\"\\x\"}", "not an escape of JSON"}, {"{\"a\":\"\\ud800\"}", "half a surrogate pair"},
        {"{\"\\u0000\":1}", "U+0000 in a key, a pattern or options"}, {"{\"a\":{\"$numberDecimal\":\"1E-9999\"}}", "a decimal that no Decimal128 is exactly"},
        {"{\"a\":\"\377\"}", "not UTF-8"}, {"{\"a\":{\"$oid\":\"12\"}}", "this is not {\"$oid\": 24 hex digits}"},
        {"{\"a\":{\"$numberInt\":1}}", "this is not {\"$numberInt\": a 32-bit integer as a string}"},
        {"{\"a\":{\"$numberLong\":1}}", "this is not {\"$numberLong\": a 64-bit integer as a string}"},
        {"{\"a\":{\"$numberDouble\":1}}", "this is not {\"$numberDouble\": a double as a string}"},
        {"{\"a\":{\"$numberDecimal\":1}}", "this is not {\"$numberDecimal\": a decimal as a string}"},
        {"{\"a\":{\"$binary\":1}}", "this is not {\"$binary\": {\"base64\": a string, \"subType\": hex digits}}"},
        {"{\"a\":{\"$uuid\":1}}", "this is not {\"$uuid\": hex digits with hyphens}"},
        {"{\"a\":{\"$date\":true}}", "this is not {\"$date\": an ISO 8601 time or {\"$numberLong\": milliseconds}}"},
        {"{\"a\":{\"$regularExpression\":1}}", "this is not {\"$regularExpression\": {\"pattern\": a string, \"options\": a string}}"},
        {"{\"a\":{\"$timestamp\":1}}", "this is not {\"$timestamp\": {\"t\": seconds, \"i\": increment}}"},
        {"{\"a\":{\"$code\":1}}", "this is not {\"$code\": a string} or with \"$scope\": a document"},
        {"{\"a\":{\"$scope\":1}}", "this is not {\"$code\": a string} or with \"$scope\": a document"},
        {"{\"a\":{\"$dbPointer\":1}}", "this is not {\"$dbPointer\": {\"$ref\": a string, \"$id\": an object id}}"},
        {"{\"a\":{\"$symbol\":1}}", "this is not {\"$symbol\": a string}"}, {"{\"a\":{\"$undefined\":1}}", "this is not {\"$undefined\": true}"},
        {"{\"a\":{\"$minKey\":2}}", "this is not {\"$minKey\": 1}"}, {"{\"a\":{\"$maxKey\":2}}", "this is not {\"$maxKey\": 1}"},
    };
    struct bsonraw_json_report r;
    uint8_t document[64];
    char text[100];
    size_t i;
    for (i = 0; i < sizeof texts / sizeof *texts; i++) {
        is(bsonraw_from_json(BSONRAW_STR(texts[i][0]), SIZE_MAX, 9, document, sizeof document, &r), BSONRAW_FAULT, texts[i][0]);
        is((int64_t)bsonraw_json_fault_text(&r, text, sizeof text), (int64_t)strlen(texts[i][1]), texts[i][0]);
        is_text(text, texts[i][1]);
    }
    is((int64_t)bsonraw_json_fault_text(&r, text, 9), (int64_t)strlen(texts[i - 1][1]), "a small room");
    is_text(text, "this is ");
    r.wrapper = 18;
    is((int64_t)bsonraw_json_fault_text(&r, NULL, 0), (int64_t)strlen("no value of its wrapper"), "no wrapper");
    r.json_reason = BSONRAW_JSON_UNSOUND;
    bsonraw_json_fault_text(&r, text, sizeof text);
    is_text(text, "no fault");
    is((int64_t)bsonraw_json_fault_text(NULL, text, sizeof text), 8, "no report");
}

/* Keys with control characters of each sort, and with others around them. */
static void look_at_control_characters(void) {
    static const uint8_t damaged[] = "\36\0\0\0\10\302\233m\177\302\237\302\240\37\302\200\340\244\200\10\13\0\2";
    uint8_t bytes[30];
    uint64_t path[1];
    char text[64];
    struct bsonraw_report r;
    memset(bytes, 0, sizeof bytes);
    memcpy(bytes, damaged, sizeof damaged - 1);
    bytes[0] = sizeof bytes;
    is(bsonraw_first_fault(bytes, sizeof bytes, 99, 9, &r, path, 1), BSONRAW_FAULT, "control characters");
    bsonraw_path_text(bytes, sizeof bytes, path, 1, text, sizeof text);
    is_text(text, "/0:\"\\u009bm\\u007f\\u009f\302\240\\u001f\\u0080\340\244\200\\b\\u000b\"");
}

/* A fault at the end of this many levels. Each but the first is under an empty key; the first has a null before that. */
static void look_at_levels(uint32_t levels, const char *wanted) {
    struct bsonraw_buffer b;
    struct bsonraw_report r;
    uint64_t path[32];
    char text[512];
    uint32_t level;
    bsonraw_buffer_init(&b);
    bsonraw_buffer_null(&b, "n");
    for (level = 1; level < levels; level++) bsonraw_buffer_begin_document(&b, "");
    bsonraw_buffer_bool(&b, "x", 1);
    for (level = 1; level < levels; level++) bsonraw_buffer_end(&b);
    is(bsonraw_buffer_finish(&b), BSONRAW_OK, "levels");
    b.bytes[b.len - levels - 1] = 2;
    is(bsonraw_first_fault(b.bytes, b.len, SIZE_MAX, 32, &r, path, 32), BSONRAW_FAULT, "levels");
    is((int64_t)r.path_len, levels, "levels");
    bsonraw_path_text(b.bytes, b.len, path, (size_t)r.path_len, text, sizeof text);
    is_text(text, wanted);
    bsonraw_buffer_free(&b);
}

#define FIVE "/0:\"\"/0:\"\"/0:\"\"/0:\"\"/0:\"\""
#define NINE FIVE "/0:\"\"/0:\"\"/0:\"\"/0:\"\""

static void look_at_values(void) {
    int32_t number;
    int64_t wide;
    double real;
    const char *text;
    const uint8_t *part;
    size_t len;
    uint64_t count;
    struct bsonraw_value v;
    is(bsonraw_get_int32(SAMPLE, "a", &number), BSONRAW_OK, "a");
    is(number, 7, "a");
    is(bsonraw_get_int32(SAMPLE, "n.s", &number), BSONRAW_OTHER_KIND, "n.s");
    is(number, 0, "n.s");
    is(bsonraw_get_int32(SAMPLE, "a.b", &number), BSONRAW_OTHER_KIND, "a.b");
    is(bsonraw_get_int32(SAMPLE, "b", &number), BSONRAW_NONE, "b");
    is(bsonraw_get_int32(NULL, 0, "b", &number), BSONRAW_NO_DOCUMENT, "no bytes");
    is(bsonraw_get_int32(NULL, 1, "b", &number), BSONRAW_NULL, "bytes");
    is(bsonraw_get_int32(SAMPLE, NULL, &number), BSONRAW_NULL, "a path");
    is(bsonraw_get_int32(SAMPLE, "a", NULL), BSONRAW_NULL, "a number");
    is(bsonraw_get_as_int64(SAMPLE, "a", &wide), BSONRAW_OK, "a");
    is(wide, 7, "a");
    is(bsonraw_get_int64(SAMPLE, "w", &wide), BSONRAW_OK, "w");
    is(wide, (int64_t)1 << 40, "w");
    is(bsonraw_get_date_time(SAMPLE, "t", &wide), BSONRAW_OK, "t");
    is(wide, 5, "t");
    is(bsonraw_get_bool(SAMPLE, "n.l.0", &number), BSONRAW_OK, "n.l.0");
    is(number, 1, "n.l.0");
    is(bsonraw_get_double(SAMPLE, "n.l.1.d", &real), BSONRAW_OK, "n.l.1.d");
    expect(real > 1.25 && real < 1.75, "n.l.1.d", "another number");
    is(bsonraw_get_as_double(SAMPLE, "w", &real), BSONRAW_OK, "w");
    expect(real > 1e12 && real < 1.1e12, "w", "another number");
    is(bsonraw_get_as_double(SAMPLE, "n.l.1.d", &real), BSONRAW_OK, "n.l.1.d");
    expect(real > 1.4 && real < 1.6, "n.l.1.d", "another number");
    is(bsonraw_get_as_double(SAMPLE, "n.s", &real), BSONRAW_OTHER_KIND, "n.s");
    is(bsonraw_get_as_int64(SAMPLE, "n.l.1.d", &wide), BSONRAW_OTHER_KIND, "n.l.1.d");
    is(bsonraw_get_utf8(SAMPLE, "n.s", &text, &len), BSONRAW_OK, "n.s");
    expect(len == 4, "n.s", "another length");
    is_text(text, "text");
    is(bsonraw_get_utf8(SAMPLE, "n.x", &text, &len), BSONRAW_NONE, "n.x");
    expect(text == NULL && len == 0, "n.x", "a text");
    is(bsonraw_get_oid(SAMPLE, "i", &part), BSONRAW_OK, "i");
    is(bsonraw_oid_time(part), 0x6553f100, "the time of i");
    is(bsonraw_get_document(SAMPLE, "n.l.1", &part, &len), BSONRAW_OK, "n.l.1");
    expect(len == 16 && part == sample + 44, "n.l.1", "another part");
    is(bsonraw_get_array(SAMPLE, "n.l", &part, &len), BSONRAW_OK, "n.l");
    expect(len == 28, "n.l", "another part");
    is(bsonraw_get_value(SAMPLE, "n.l.1.d", &v), BSONRAW_OK, "n.l.1.d");
    expect(v.tag == BSONRAW_TAG_DOUBLE && v.bits == 0x3ff8000000000000, "n.l.1.d", "another value");
    is(bsonraw_has_key(SAMPLE, "n.l.1"), 1, "n.l.1");
    is(bsonraw_has_key(SAMPLE, "n.l.2") + bsonraw_has_key(SAMPLE, "a.b") + bsonraw_has_key(sample, 4, "a"), 0, "keys that aren't there");
    is(bsonraw_has_key(NULL, 1, "a") + bsonraw_has_key(SAMPLE, NULL), 0, "NULL");
    is(bsonraw_count(SAMPLE, &count), BSONRAW_OK, "the count");
    is((int64_t)count, 5, "the count");
    is(bsonraw_count((const uint8_t *)"\11\0\0\0\12x\0\5\0", 9, &count), BSONRAW_FAULT, "a count up to a stop");
    is((int64_t)count, 1, "a count up to a stop");
}

/* {"t": a timestamp, "d": the Decimal128 1.5, "b": two bytes of subtype 128, "r": a regular expression} */
static const uint8_t rarer[] = "\65\0\0\0\21t\0\2\0\0\0\1\0\0\0\23d\0\17\0\0\0\0\0\0\0\0\0\0\0\0\0\76\60"
                               "\5b\0\2\0\0\0\200xy\13r\0^a\0i\0";

static void look_at_rarer(void) {
    static const uint8_t changed[] = "\65\0\0\0\21t\0\4\0\0\0\3\0\0\0\23d\0abcdefghijklmnop\5b\0\2\0\0\0\200xy\13r\0^a\0i\0";
    uint8_t own[sizeof rarer];
    uint32_t one, two;
    const uint8_t *part;
    size_t len;
    is(bsonraw_get_timestamp(rarer, sizeof rarer, "t", &one, &two), BSONRAW_OK, "t");
    expect(one == 1 && two == 2, "t", "another time");
    is(bsonraw_get_timestamp(rarer, sizeof rarer, "d", &one, &two), BSONRAW_OTHER_KIND, "d as a timestamp");
    expect(one == 0 && two == 0, "d as a timestamp", "another time");
    is(bsonraw_get_decimal128(rarer, sizeof rarer, "d", &part), BSONRAW_OK, "d");
    expect(part == rarer + 18, "d", "another part");
    is(bsonraw_get_decimal128(rarer, sizeof rarer, "x", &part), BSONRAW_NONE, "x");
    expect(part == NULL, "x", "a part");
    is(bsonraw_get_binary(rarer, sizeof rarer, "b", &one, &part, &len), BSONRAW_OK, "b");
    expect(one == 128 && part == rarer + 42 && len == 2, "b", "another part");
    is(bsonraw_get_binary(rarer, sizeof rarer, "b", &one, NULL, &len), BSONRAW_NULL, "b");
    memcpy(own, rarer, sizeof own);
    is(bsonraw_set_timestamp(own, sizeof own, "t", 3, 4), BSONRAW_OK, "t");
    is(bsonraw_set_decimal128(own, sizeof own, "d", (const uint8_t *)"abcdefghijklmnop"), BSONRAW_OK, "d");
    is(bsonraw_set_decimal128(own, sizeof own, "d", NULL), BSONRAW_NULL, "d");
    is(bsonraw_set_decimal128(own, sizeof own, "t", changed), BSONRAW_OTHER_KIND, "t as a Decimal128");
    is(bsonraw_set_timestamp(own, sizeof own, "d", 5, 6), BSONRAW_OTHER_KIND, "d as a timestamp");
    expect(memcmp(own, changed, sizeof own) == 0, "values in place", "other bytes");
}

/* Keys with dots, by another separator. */
static void look_at_dots(void) {
    static const uint8_t bytes[] = "\43\0\0\0\3a.b\0\31\0\0\0\4c\0\21\0\0\0\3\60\0\11\0\0\0\10.\0\1\0\0\0";
    struct bsonraw_iter it;
    int32_t is_true;
    is(bsonraw_get_bool(bytes, sizeof bytes, "a.b.c.0..", &is_true), BSONRAW_NONE, "a dot");
    is(bsonraw_iter_init(&it, bytes, sizeof bytes), BSONRAW_OK, "a separator");
    is(bsonraw_iter_find_descendant(&it, bytes, sizeof bytes, BSONRAW_KEY("a.b\0c\0" "0\0."), 0), BSONRAW_OK, "a separator");
    is(bsonraw_iter_bool(&it, bytes, sizeof bytes, &is_true), BSONRAW_OK, "a separator");
    is(is_true, 1, "a separator");
    is_text(bsonraw_iter_key(&it, bytes, sizeof bytes), ".");
    is(bsonraw_iter_init_find_descendant(&it, bytes, sizeof bytes, BSONRAW_KEY("a.b\0c"), 0), BSONRAW_OK, "a separator");
    is(it.tag, BSONRAW_TAG_ARRAY, "a separator");
    is(bsonraw_iter_init_find_descendant(&it, bytes, 4, BSONRAW_KEY("a.b\0c"), 0), BSONRAW_NO_DOCUMENT, "four bytes");
}

/* A value by a separator and tags. */
static void look_at_tags(void) {
    static const uint32_t tags[] = {BSONRAW_TAG_INT64, BSONRAW_TAG_INT32};
    struct bsonraw_value v;
    is(bsonraw_value_at(SAMPLE, BSONRAW_KEY("a"), '/', tags, 2, &v), BSONRAW_OK, "a");
    expect(v.tag == BSONRAW_TAG_INT32 && v.integer == 7, "a", "another value");
    is(bsonraw_value_at(SAMPLE, BSONRAW_KEY("a"), '/', tags, 1, &v), BSONRAW_OTHER_KIND, "a");
    expect(v.tag == 0 && v.integer == 0 && v.text_at == 0, "a", "a value");
    is(bsonraw_value_at(SAMPLE, BSONRAW_KEY("n/l/1/d"), '/', NULL, 0, &v), BSONRAW_OK, "n/l/1/d");
    expect(v.tag == BSONRAW_TAG_DOUBLE && v.bits == 0x3ff8000000000000, "n/l/1/d", "another value");
    is(bsonraw_value_at(SAMPLE, BSONRAW_KEY("n.l"), '/', NULL, 0, &v), BSONRAW_NONE, "n.l");
    is(bsonraw_value_at(sample, 4, BSONRAW_KEY("a"), '/', NULL, 0, &v), BSONRAW_NO_DOCUMENT, "four bytes");
    is(v.error.reason, BSONRAW_TOO_SHORT, "four bytes");
}

/* A payload that is overwritten. */
static void look_at_overwritten(void) {
    static const uint8_t twin[] = "\5\0\0\0twin";
    uint8_t own[sizeof sample];
    const char *text;
    size_t len;
    memcpy(own, sample, sizeof own);
    is(bsonraw_overwrite(own, sizeof own, BSONRAW_KEY("n/s"), '/', BSONRAW_TAG_STRING, twin, sizeof twin - 1), BSONRAW_OTHER_KIND, "n/s");
    is(bsonraw_overwrite(own, sizeof own, BSONRAW_KEY("n/s"), '/', BSONRAW_TAG_SYMBOL, twin, sizeof twin), BSONRAW_OTHER_KIND, "n/s");
    is(bsonraw_overwrite(own, sizeof own, BSONRAW_KEY("n/x"), '/', BSONRAW_TAG_STRING, twin, sizeof twin), BSONRAW_NONE, "n/x");
    is(bsonraw_overwrite(own, 4, BSONRAW_KEY("n"), '/', BSONRAW_TAG_STRING, twin, sizeof twin), BSONRAW_NO_DOCUMENT, "four bytes");
    expect(memcmp(own, sample, sizeof own) == 0, "what isn't overwritten", "other bytes");
    is(bsonraw_overwrite(own, sizeof own, BSONRAW_KEY("n/s"), '/', BSONRAW_TAG_STRING, twin, sizeof twin), BSONRAW_OK, "n/s");
    is(bsonraw_get_utf8(own, sizeof own, "n.s", &text, &len), BSONRAW_OK, "n.s");
    is_text(text, "twin");
    memcpy(own + (text - (const char *)own), "text", 4);
    expect(memcmp(own, sample, sizeof own) == 0, "what is overwritten", "other bytes");
}

/* What is in new memory, which is given back. */
static void is_made(void *made, uint64_t made_len, const char *wanted, size_t len, const char *name) {
    expect(made != NULL && made_len == len && memcmp(made, wanted, len) == 0, name, "another one");
    free(made);
}

#define IS_MADE(made, count, literal, name) is_made(made, count, literal, sizeof(literal) - 1, name)

static void look_at_new_forms(void) {
    static const uint8_t one[] = "\23\0\0\0\20a\0\1\0\0\0\20a\0\2\0\0\0", list[] = "\20\0\0\0\4\0\11\0\0\0\12\0\12\0\0";
    uint8_t *form = (uint8_t *)1;
    struct bsonraw_report r;
    is(bsonraw_canonical_new(one, 19, 19, 1, &form, &r), BSONRAW_OK, "a form");
    IS_MADE(form, r.count, "\14\0\0\0\20a\0\2\0\0\0\0", "a form");
    is(bsonraw_canonical_new(list, 16, 16, 2, &form, &r), BSONRAW_OK, "a longer form");
    IS_MADE(form, r.count, "\22\0\0\0\4\0\13\0\0\0\12\60\0\12\61\0\0\0", "a longer form");
    is(bsonraw_canonical_new(list, 16, 16, 2, &form, NULL), BSONRAW_OK, "a form without a report");
    IS_MADE(form, form[0], "\22\0\0\0\4\0\13\0\0\0\12\60\0\12\61\0\0\0", "a form without a report");
    is(bsonraw_canonical_new(list, 16, 15, 2, &form, &r), BSONRAW_TOO_MANY_BYTES, "a limit of bytes");
    expect(form == NULL && r.count == 0 && r.key_at == 16, "a limit of bytes", "another report");
    is(bsonraw_canonical_new(list, 16, 16, 1, &form, &r), BSONRAW_TOO_DEEP, "a limit of levels");
    expect(form == NULL && r.count == 0 && r.path_len == 1 && r.error.offset == 4, "a limit of levels", "another report");
    is(bsonraw_canonical_new(list, 15, 15, 2, &form, &r), BSONRAW_NO_DOCUMENT, "no document");
    expect(form == NULL && r.error.reason == BSONRAW_LENGTH_INCORRECT, "no document", "another report");
    is(bsonraw_canonical_new(NULL, 0, 15, 2, &form, &r), BSONRAW_NO_DOCUMENT, "no bytes");
    form = (uint8_t *)1;
    is(bsonraw_canonical_new(NULL, 1, 15, 2, &form, &r), BSONRAW_NULL, "bytes of NULL");
    expect(form == NULL, "bytes of NULL", "a form");
    is(bsonraw_canonical_new(one, 19, 19, 1, NULL, &r), BSONRAW_NULL, "no place for a form");
}

static void look_at_new_texts(void) {
    struct bsonraw_report r;
    char *text = (char *)&r;
    is(bsonraw_json_new(rarer, sizeof rarer, SIZE_MAX, 1, 0, &text, &r), BSONRAW_OK, "a text");
    IS_MADE(text, r.count + 1, "{\"t\":{\"$timestamp\":{\"t\":1,\"i\":2}},\"d\":{\"$numberDecimal\":\"1.5\"},\"b\":{\"$binary\":{\"base64\":\"eHk=\","
                               "\"subType\":\"80\"}},\"r\":{\"$regularExpression\":{\"pattern\":\"^a\",\"options\":\"i\"}}}\0", "a text");
    is(bsonraw_json_new((const uint8_t *)"\14\0\0\0\20a\0\1\0\0\0", 12, 12, 1, BSONRAW_JSON_CANONICAL | BSONRAW_JSON_INDENTED, &text, NULL), BSONRAW_OK, "an indented text");
    IS_MADE(text, strlen(text), "{\n  \"a\": {\"$numberInt\":\"1\"}\n}", "an indented text");
    is(bsonraw_json_new(rarer, sizeof rarer, SIZE_MAX, 0, 0, &text, &r), BSONRAW_TOO_DEEP, "no level");
    expect(text == NULL && r.count == 0, "no level", "a text");
    text = (char *)&r;
    is(bsonraw_json_new(NULL, 1, SIZE_MAX, 9, 0, &text, &r), BSONRAW_NULL, "bytes of NULL");
    expect(text == NULL, "bytes of NULL", "a text");
    is(bsonraw_json_new(rarer, sizeof rarer, SIZE_MAX, 9, 0, NULL, &r), BSONRAW_NULL, "no place for a text");
}

static void look_at_new_documents(void) {
    static const char list[] = "{\"a\":[1,1,1,1,1,1,1,1,1,1]}";
    struct bsonraw_json_report r;
    uint8_t *document = (uint8_t *)1;
    is(bsonraw_from_json_new("{\"a\":1}?", 7, 12, 1, &document, &r), BSONRAW_OK, "a document");
    IS_MADE(document, r.count, "\14\0\0\0\20a\0\1\0\0\0\0", "a document");
    is(bsonraw_from_json_new(list, sizeof list - 1, SIZE_MAX, 2, &document, NULL), BSONRAW_OK, "a document that is longer than most");
    expect(document[0] == 83 && document[4] == BSONRAW_TAG_ARRAY && memcmp(document + 74, "\20\71\0\1\0\0\0\0", 9) == 0, "a document that is longer than most", "another");
    free(document);
    is(bsonraw_from_json_new("{\"a\":\n", 6, 99, 1, &document, &r), BSONRAW_FAULT, "no document");
    expect(document == NULL && r.json_reason == BSONRAW_JSON_END_OF_TEXT && r.line == 2 && r.column == 1 && r.count == 0, "no document", "another report");
    is(bsonraw_from_json_new("{\"a\":1}", 7, 11, 1, &document, &r), BSONRAW_TOO_MANY_BYTES, "a limit of bytes");
    is(bsonraw_from_json_new(NULL, 0, 11, 1, &document, &r), BSONRAW_FAULT, "no text");
    document = (uint8_t *)1;
    is(bsonraw_from_json_new(NULL, 1, 11, 1, &document, &r), BSONRAW_NULL, "a text of NULL");
    expect(document == NULL, "a text of NULL", "a document");
    is(bsonraw_from_json_new("{}", 2, 11, 1, NULL, &r), BSONRAW_NULL, "no place for a document");
}

/* Documents one after the other in a text, and where the first one that is none is wrong. */
static void look_at_texts_in_a_row(void) {
    static const char text[] = " {\"a\":1}{\"}\\\"{\":{}}\n\t{}\r\n  {\"\303\251\": tru}{}";
    static const char *const wanted[] = {"\14\0\0\0\20a\0\1\0\0\0\0", "\17\0\0\0\3}\"{\0\5\0\0\0\0", "\5\0\0\0"};
    static const size_t lens[] = {12, 15, 5}, ends[] = {8, 19, 23};
    struct bsonraw_json_report r;
    uint8_t *document = (uint8_t *)1;
    size_t at = 0, i;
    for (i = 0; i < 3; i++) {
        is(bsonraw_from_json_next(text, sizeof text - 1, &at, 99, 9, &document, &r), BSONRAW_OK, "documents in a row");
        is_made(document, r.count, wanted[i], lens[i], "documents in a row");
        is((int64_t)at, (int64_t)ends[i], "how much was read");
    }
    is(bsonraw_from_json_next(text, sizeof text - 1, &at, 99, 9, &document, &r), BSONRAW_FAULT, "no document in a row");
    expect(document == NULL && at == 23 && r.json_reason == BSONRAW_JSON_EXPECTED_VALUE && r.offset == 34 && r.line == 3 && r.column == 9, "no document in a row", "another place");
    at = 0;
    is(bsonraw_from_json_next("{}\303\251[", 5, &at, 99, 9, &document, &r), BSONRAW_OK, "a document before others");
    free(document);
    is(bsonraw_from_json_next("{}\303\251[", 5, &at, 99, 9, &document, &r), BSONRAW_FAULT, "another text after a document");
    expect(at == 2 && r.json_reason == BSONRAW_JSON_EXPECTED_DOCUMENT && r.line == 1 && r.column == 3 && r.offset == 2, "another text after a document", "another place");
    is(bsonraw_from_json_next("{}}", 3, &at, 99, 9, &document, &r), BSONRAW_FAULT, "a brace");
    is(bsonraw_from_json_next("{} {\n x", 7, &at, 99, 9, &document, &r), BSONRAW_FAULT, "no key in the next line");
    expect(r.line == 2 && r.column == 2 && r.offset == 6, "no key in the next line", "another place");
    at = 8;
    is(bsonraw_from_json_next("{\"\303\251\":1}{x", 10, &at, 99, 9, &document, &r), BSONRAW_FAULT, "no key after a letter of two bytes");
    expect(r.line == 1 && r.column == 9 && r.offset == 9, "no key after a letter of two bytes", "another place");
    at = 2;
    is(bsonraw_from_json_next("{} {\"", 5, &at, 99, 9, &document, &r), BSONRAW_FAULT, "a text that is cut");
    expect(r.json_reason == BSONRAW_JSON_END_OF_TEXT && r.column == 6, "a text that is cut", "another place");
    is(bsonraw_from_json_next("{} {\"\\", 6, &at, 99, 9, &document, &r), BSONRAW_FAULT, "a text that is cut in an escape");
    is(bsonraw_from_json_next("{} \n", 4, &at, 99, 9, &document, &r), BSONRAW_NONE, "the end");
    is((int64_t)at, 4, "the end");
    is(bsonraw_from_json_next("{}", 2, &at, 99, 9, &document, &r), BSONRAW_BAD_OFFSET, "an offset past the end");
    is(bsonraw_from_json_next(NULL, 2, &at, 99, 9, &document, &r), BSONRAW_NULL, "a text of NULL");
    is(bsonraw_from_json_next("{}", 2, NULL, 99, 9, &document, &r), BSONRAW_NULL, "no offset");
    is(bsonraw_from_json_next("{}", 2, &at, 99, 9, NULL, &r), BSONRAW_NULL, "no place for a document");
    is(bsonraw_from_json_next("{}", 2, &at, 99, 9, &document, NULL), BSONRAW_NULL, "no report");
}

/* An array that stands alone, as a text and in pieces; the text of its document is another. */
static void look_at_arrays(void) {
    static const uint8_t list[] = "\30\0\0\0\20\60\0\1\0\0\0\2\61\0\2\0\0\0x\0\12\62\0\0";
    struct bsonraw_report r;
    uint64_t path[1];
    char *text;
    is(bsonraw_json_new(list, 24, SIZE_MAX, 1, BSONRAW_JSON_ARRAY, &text, &r), BSONRAW_OK, "an array");
    IS_MADE(text, r.count + 1, "[1,\"x\",null]\0", "an array");
    is(bsonraw_json_new(list, 24, SIZE_MAX, 1, 0, &text, &r), BSONRAW_OK, "its document");
    IS_MADE(text, r.count + 1, "{\"0\":1,\"1\":\"x\",\"2\":null}\0", "its document");
    is(bsonraw_json_new(list, 24, SIZE_MAX, 1, BSONRAW_JSON_ARRAY | BSONRAW_JSON_INDENTED | BSONRAW_JSON_CANONICAL, &text, &r), BSONRAW_OK, "an indented array");
    IS_MADE(text, r.count + 1, "[\n  {\"$numberInt\":\"1\"},\n  \"x\",\n  null\n]\0", "an indented array");
    is(bsonraw_json_new(BSONRAW_KEY("\5\0\0\0\0"), SIZE_MAX, 1, BSONRAW_JSON_ARRAY, &text, NULL), BSONRAW_OK, "an empty array");
    IS_MADE(text, 3, "[]\0", "an empty array");
    is(bsonraw_json_new(list, 23, SIZE_MAX, 1, BSONRAW_JSON_ARRAY, &text, &r), BSONRAW_NO_DOCUMENT, "an array that is cut");
    expect(text == NULL && r.error.reason == BSONRAW_LENGTH_INCORRECT, "an array that is cut", "another report");
    is(bsonraw_json_write(list, 24, SIZE_MAX, 1, BSONRAW_JSON_ARRAY, NULL, NULL, &r, path, 1), BSONRAW_OK, "an array in pieces");
    is((int64_t)r.count, 12, "an array in pieces");
}

/* Keys that are refused where it is asked: this cause, at this path, of a document that a text writes; 0 for none. */
static void refuses_key(const char *json, uint32_t flags, uint32_t cause, const char *wanted) {
    struct bsonraw_json_report read;
    struct bsonraw_report r;
    uint64_t path[4];
    uint8_t document[256];
    char text[64];
    is(bsonraw_from_json(BSONRAW_STR(json), SIZE_MAX, 9, document, sizeof document, &read), BSONRAW_OK, json);
    is(bsonraw_check_keys(document, (size_t)read.count, SIZE_MAX, 4, flags, &r, path, 4), cause ? BSONRAW_BREACH : BSONRAW_OK, json);
    is(r.cause, cause, json);
    is((int64_t)r.count, 0, json);
    is((int64_t)bsonraw_path_text(document, (size_t)read.count, path, (size_t)r.path_len, text, sizeof text), (int64_t)strlen(wanted), json);
    is_text(text, wanted);
    if (cause == 0) return;
    expect(r.has_key == 1 && document[r.error.offset + 1 + r.key_len] == 0 && r.key_at == r.error.offset + 1, json, "another key");
    is(bsonraw_check_keys(document, (size_t)read.count, SIZE_MAX, 4, flags, &r, NULL, 0), BSONRAW_BREACH, json);
}

static void look_at_keys(void) {
    struct bsonraw_report r;
    uint64_t path[4];
    refuses_key("{\"a\": 1, \"$b\": 2}", BSONRAW_KEYS_DOLLAR, BSONRAW_DOLLAR_KEY, "/1:\"$b\"");
    refuses_key("{\"a\": 1, \"$b\": 2, \"c$\": 3}", BSONRAW_KEYS_DOTS | BSONRAW_KEYS_EMPTY, 0, "");
    refuses_key("{\"a$\": 1, \"b\": {\"c\": [{}, {\"x\": 0, \"y.z\": 1}]}}", 7, BSONRAW_DOTTED_KEY, "/1:\"b\"/0:\"c\"/1:\"1\"/1:\"y.z\"");
    refuses_key("{\"a\": {\"b\": 1}, \"c\": {\"\": 1}}", 7, BSONRAW_EMPTY_KEY, "/1:\"c\"/0:\"\"");
    refuses_key("{\"a\": {\"b\": 1}, \"c\": {\"\": 1}}", BSONRAW_KEYS_DOTS | BSONRAW_KEYS_DOLLAR, 0, "");
    refuses_key("{\"c\": {\"$code\": \"f\", \"$scope\": {\"$x\": 1}}}", 7, BSONRAW_DOLLAR_KEY, "/0:\"c\"/0:\"$x\"");
    refuses_key("{}", 7, 0, "");
    /* keys of an array, which are none of a server's */
    is(bsonraw_check_keys((const uint8_t *)"\23\0\0\0\4a\0\13\0\0\0\12$.\0\12\0\0", 19, 99, 9, 7, &r, path, 4), BSONRAW_OK, "keys of an array");
    is(bsonraw_check_keys((const uint8_t *)"\23\0\0\0\3a\0\13\0\0\0\12$.\0\12\0\0", 19, 99, 9, BSONRAW_KEYS_DOTS, &r, path, 4), BSONRAW_BREACH, "keys of a document");
    is(bsonraw_check_keys((const uint8_t *)"\23\0\0\0\3a\0\13\0\0\0\12$.\0\12\0\0", 19, 99, 1, 7, &r, path, 4), BSONRAW_TOO_DEEP, "a limit of levels");
    is(bsonraw_check_keys((const uint8_t *)"\23\0\0\0\3a\0\13\0\0\0\12$.\0\12\0\0", 19, 18, 9, 7, &r, path, 4), BSONRAW_TOO_MANY_BYTES, "a limit of bytes");
    is(bsonraw_check_keys((const uint8_t *)"\11\0\0\0\12x\0\5", 9, 99, 9, 7, &r, path, 4), BSONRAW_FAULT, "a stop");
    is(bsonraw_check_keys(NULL, 9, 99, 9, 7, &r, path, 4), BSONRAW_NULL, "bytes of NULL");
    is(bsonraw_check_keys(NULL, 0, 99, 9, 7, &r, path, 4), BSONRAW_NO_DOCUMENT, "no bytes");
    is(bsonraw_check_keys(NULL, 0, 99, 9, 7, NULL, path, 4), BSONRAW_NULL, "no report");
}

static void look_at_places(void) {
    static uint8_t own[sizeof sample], id[12];
    char hex[25];
    int32_t number;
    int64_t wide;
    double real;
    const uint8_t *part;
    memcpy(own, sample, sizeof own);
    is(bsonraw_set_int32(own, sizeof own, "a", -2), BSONRAW_OK, "a");
    is(bsonraw_get_int32(own, sizeof own, "a", &number), BSONRAW_OK, "a");
    is(number, -2, "a");
    is(bsonraw_set_int64(own, sizeof own, "w", -3), BSONRAW_OK, "w");
    is(bsonraw_get_int64(own, sizeof own, "w", &wide), BSONRAW_OK, "w");
    is(wide, -3, "w");
    is(bsonraw_set_date_time(own, sizeof own, "t", -4), BSONRAW_OK, "t");
    is(bsonraw_get_date_time(own, sizeof own, "t", &wide), BSONRAW_OK, "t");
    is(wide, -4, "t");
    is(bsonraw_set_bool(own, sizeof own, "n.l.0", 0), BSONRAW_OK, "n.l.0");
    is(bsonraw_get_bool(own, sizeof own, "n.l.0", &number), BSONRAW_OK, "n.l.0");
    is(number, 0, "n.l.0");
    is(bsonraw_set_double(own, sizeof own, "n.l.1.d", 2.5), BSONRAW_OK, "n.l.1.d");
    is(bsonraw_get_double(own, sizeof own, "n.l.1.d", &real), BSONRAW_OK, "n.l.1.d");
    expect(real > 2.25 && real < 2.75, "n.l.1.d", "another number");
    is(bsonraw_oid_from_hex("0123456789ABcdef01234567", id), BSONRAW_OK, "hex");
    is(bsonraw_set_oid(own, sizeof own, "i", id), BSONRAW_OK, "i");
    is(bsonraw_get_oid(own, sizeof own, "i", &part), BSONRAW_OK, "i");
    is(bsonraw_oid_to_hex(part, hex), BSONRAW_OK, "i");
    is_text(hex, "0123456789abcdef01234567");
    is(bsonraw_oid_from_hex("00112233445566778899aaf", id), BSONRAW_FAULT, "23 digits");
    is(bsonraw_oid_from_hex("00112233445566778899aaff0", id), BSONRAW_FAULT, "25 digits");
    is(bsonraw_oid_from_hex("g0112233445566778899aaff", id), BSONRAW_FAULT, "no digit");
    is(bsonraw_set_int32(own, sizeof own, "w", 1), BSONRAW_OTHER_KIND, "w as an int32");
    is(bsonraw_set_int32(own, sizeof own, "x", 1), BSONRAW_NONE, "x");
}

/* Documents of one form that are written in two ways, and others. */
static void look_at_order(void) {
    static const uint8_t one[] = "\23\0\0\0\20a\0\1\0\0\0\20a\0\2\0\0\0", two[] = "\14\0\0\0\20a\0\2\0\0\0";
    int32_t order, same;
    is(bsonraw_equal(one, 19, two, 12, &same), BSONRAW_OK, "equal");
    is(same, 1, "equal");
    is(bsonraw_compare(two, 12, SAMPLE, &order), BSONRAW_OK, "an order");
    is(order, -1, "an order");
    is(bsonraw_compare(SAMPLE, two, 12, &order), BSONRAW_OK, "an order");
    is(order, 1, "an order");
    is(bsonraw_equal(SAMPLE, two, 12, &same), BSONRAW_OK, "not equal");
    is(same, 0, "not equal");
    is(bsonraw_equal(SAMPLE, two, 11, &same), BSONRAW_NO_DOCUMENT, "no document");
    is(same, 0, "no document");
    is(bsonraw_compare((const uint8_t *)"\20\0\0\0\4\0\11\0\0\0\12\0\12\0\0", 16, two, 12, &order), BSONRAW_OK, "an array with short keys");
}

static uint32_t random_number(void) {
    static uint64_t state = 88172645463325252;
    state ^= state << 13;
    state ^= state >> 7;
    state ^= state << 17;
    return (uint32_t)(state >> 16);
}

#define PATHS 6
#define PATH 64

/* A path of some keys of a document's elements, or of numbers, or of nothing that is there. */
static void make_path(char *path, const struct document *d, const struct bsonraw_token *tokens, size_t count) {
    size_t len = 0, steps = 1 + random_number() % 3;
    uint32_t at = count > 0 ? random_number() % (uint32_t)count : 0, step;
    for (step = 0; step < steps; step++) {
        if (step > 0) path[len++] = '.';
        if (count > 0 && random_number() % 8 > 0 && tokens[at].key_len < 16) {
            memcpy(path + len, d->bytes + tokens[at].key_at, tokens[at].key_len);
            len += tokens[at].key_len;
        } else {
            path[len++] = (char)('0' + random_number() % 4);
        }
        if (at + 1 < count && tokens[at + 1].depth > tokens[at].depth) at += 1 + random_number() % 2;
        if (at >= count) at = 0;
    }
    path[len] = 0;
}

/* Several paths at once give what each gives alone. */
static void compare_many(const struct document *d) {
    static struct bsonraw_token tokens[MOST];
    static char paths[PATHS][PATH];
    struct bsonraw_field fields[PATHS];
    struct bsonraw_report r;
    int32_t first = BSONRAW_OK, status = bsonraw_flatten(d->bytes, d->len, 1 << 24, LEVELS, tokens, MOST, &r, NULL, 0);
    size_t at, count = status != BSONRAW_OK && status != BSONRAW_SMALL_BUFFER ? 0 : r.count < MOST ? (size_t)r.count : MOST;
    memset(fields, 0xa5, sizeof fields);
    for (at = 0; at < PATHS; at++) make_path(paths[at], d, tokens, count), fields[at].path = paths[at];
    status = bsonraw_find_many(d->bytes, d->len, fields, PATHS);
    for (at = 0; at < PATHS; at++) {
        struct bsonraw_value v;
        int32_t alone = bsonraw_get_value(d->bytes, d->len, paths[at], &v);
        if (first == BSONRAW_OK) first = alone;
        expect(fields[at].status == alone, d->name, "another status with others");
        expect(memcmp(&fields[at].value, &v, sizeof v) == 0, d->name, "another value with others");
    }
    expect(status == first, d->name, "another first status");
}

/* Of each document, and of it with some bytes that are others, or without some at its end, in memory of just its size. */
static void look_at_many(const struct documents *all) {
    for (size_t i = 0; i < all->count; i++) {
        for (int round = 0; round < 400; round++) {
            struct document d = all->items[i];
            int damage = round % 4;
            d.bytes = needed(d.len);
            memcpy(d.bytes, all->items[i].bytes, d.len);
            while (damage-- > 0 && d.len > 5) d.bytes[4 + random_number() % (d.len - 5)] = (uint8_t)(random_number() % 2 ? random_number() % 20 : random_number());
            compare_many(&d);
            free(d.bytes);
        }
    }
}

/* Two fields with one path, more than 16 elements, more steps than are walked at once, and a path of NULL. */
static void look_at_edges(void) {
    struct bsonraw_field fields[] = {BSONRAW_FIELD("a"), BSONRAW_FIELD("a"), BSONRAW_FIELD("n.l.1.d"), BSONRAW_FIELD("n.s"), BSONRAW_FIELD("")};
    struct bsonraw_field far[] = {BSONRAW_FIELD("k.39"), BSONRAW_FIELD("k.0"), BSONRAW_FIELD("k.40"), BSONRAW_FIELD("k.01")};
    struct bsonraw_field deep[] = {BSONRAW_FIELD("d.d.d.d.d.d.d.d.d.d.d.d.d.d.d.d.d.d.d.d.d.d.d.d.d.d.d.d.d.d.d.d.d.d.d.d.x")};
    struct bsonraw_field alike[] = {BSONRAW_FIELD("long_key_2")}, cut[] = {BSONRAW_FIELD("k")};
    struct bsonraw_field many[40];
    struct bsonraw_buffer b;
    int32_t i;
    is(fields[0].status, BSONRAW_NONE, "a field that wasn't looked for");
    is(bsonraw_find_many(SAMPLE, fields, 4), BSONRAW_OK, "four fields");
    expect(fields[0].value.integer == 7 && fields[1].value.integer == 7 && fields[3].value.text_len == 4, "four fields", "another value");
    is(bsonraw_find_many(SAMPLE, fields, 5), BSONRAW_NONE, "five fields");
    is(bsonraw_find_many(SAMPLE, NULL, 0), BSONRAW_OK, "no fields");
    is(bsonraw_find_many(SAMPLE, NULL, 1), BSONRAW_NULL, "fields");
    is(bsonraw_find_many(NULL, 5, fields, 5), BSONRAW_NULL, "no bytes");
    for (i = 0; i < 5; i++) expect(fields[i].status == BSONRAW_NULL && fields[i].value.tag == 0, "no bytes", "a field has another status");
    fields[0].path = NULL;
    is(bsonraw_find_many(SAMPLE, fields, 5), BSONRAW_NULL, "a path");
    for (i = 0; i < 40; i++) many[i].path = i % 3 ? "a" : "n.s";
    is(bsonraw_find_many(SAMPLE, many, 40), BSONRAW_OK, "forty fields");
    for (i = 0; i < 40; i++) is(many[i].value.tag, i % 3 ? BSONRAW_TAG_INT32 : BSONRAW_TAG_STRING, "one of forty fields");
    bsonraw_buffer_init(&b);
    bsonraw_buffer_begin_array(&b, "k");
    for (i = 0; i < 40; i++) bsonraw_buffer_int32(&b, NULL, i);
    bsonraw_buffer_end(&b);
    is(bsonraw_buffer_finish(&b), BSONRAW_OK, "an array");
    is(bsonraw_find_many(b.bytes, b.len, far, 4), BSONRAW_NONE, "far elements");
    expect(far[0].value.integer == 39 && far[1].value.integer == 0 && far[1].status == BSONRAW_OK, "far elements", "another value");
    expect(far[2].status == BSONRAW_NONE && far[3].status == BSONRAW_NONE, "numbers that aren't there", "they are found");
    bsonraw_buffer_reset(&b);
    bsonraw_buffer_int32(&b, "long_key_1", 1);
    bsonraw_buffer_int32(&b, "long_key_2", 2);
    is(bsonraw_buffer_finish(&b), BSONRAW_OK, "long keys");
    is(bsonraw_find_many(b.bytes, b.len, alike, 1), BSONRAW_OK, "keys that begin alike");
    is(alike[0].value.integer, 2, "keys that begin alike");
    is(bsonraw_find_many((const uint8_t *)"\13\0\0\0\20k\0\1\0\0", 11, cut, 1), BSONRAW_OK, "an int32 up to the end, its final 0 too");
    is(bsonraw_find_many((const uint8_t *)"\12\0\0\0\20k\0\1\0", 10, cut, 1), BSONRAW_FAULT, "an int32 past the end");
    bsonraw_buffer_reset(&b);
    for (i = 0; i < 36; i++) bsonraw_buffer_begin_document(&b, "d");
    bsonraw_buffer_int32(&b, "x", 9);
    for (i = 0; i < 36; i++) bsonraw_buffer_end(&b);
    is(bsonraw_buffer_finish(&b), BSONRAW_OK, "levels");
    is(bsonraw_find_many(b.bytes, b.len, deep, 1), BSONRAW_OK, "a long path");
    is(deep[0].value.integer, 9, "a long path");
    bsonraw_buffer_free(&b);
}

/* A function in place of realloc that gives memory `left` times; `out` counts the blocks that it hasn't got back. */
struct limited {
    int left, out;
};

static void *resize(void *context, void *memory, size_t size) {
    struct limited *limited = context;
    if (size == 0) {
        limited->out--;
        free(memory);
        return NULL;
    }
    if (limited->left-- <= 0) return NULL;
    if (memory == NULL) limited->out++;
    return realloc(memory, size);
}

/* {"a": 7, "n": {"s": "text", "l": [true, {"d": 1.5}]}, ..}, as the sample. */
static int32_t build_sample(struct bsonraw_buffer *b) {
    bsonraw_buffer_int32(b, "a", 7);
    bsonraw_buffer_begin_document(b, "n");
    bsonraw_buffer_utf8(b, "s", "text");
    bsonraw_buffer_begin_array(b, "l");
    bsonraw_buffer_bool(b, NULL, 5);
    bsonraw_buffer_begin_document(b, NULL);
    bsonraw_buffer_double(b, "d", 1.5);
    bsonraw_buffer_end(b);
    bsonraw_buffer_end(b);
    bsonraw_buffer_end(b);
    bsonraw_buffer_date_time(b, "t", 5);
    bsonraw_buffer_int64(b, "w", (int64_t)1 << 40);
    bsonraw_buffer_oid(b, "i", (const uint8_t *)"\145\123\361\0abcdefgh");
    return bsonraw_buffer_finish(b);
}

static void has(const struct bsonraw_buffer *b, const void *bytes, size_t len, const char *name) {
    expect(b->status == BSONRAW_OK && b->len == len && memcmp(b->bytes, bytes, len) == 0, name, "another document");
}

static void look_at_buffers(void) {
    static char long_text[100000];
    struct bsonraw_buffer b;
    struct limited limited = {0, 0};
    int i;
    bsonraw_buffer_init(&b);
    is(build_sample(&b), BSONRAW_OK, "the sample");
    has(&b, SAMPLE, "the sample");
    is(bsonraw_buffer_null(&b, "x"), BSONRAW_MISUSE, "an append after the end");
    is(bsonraw_buffer_reset(&b), BSONRAW_OK, "once more");
    is(build_sample(&b), BSONRAW_OK, "once more");
    has(&b, SAMPLE, "once more");
    is(bsonraw_buffer_finish(&b), BSONRAW_MISUSE, "an end too many");
    bsonraw_buffer_free(&b);
    bsonraw_buffer_free(&b);
    for (i = 0; i < 3; i++) {
        limited.left = i;
        bsonraw_buffer_init_with(&b, resize, &limited);
        memset(long_text, 'x', 999);
        bsonraw_buffer_begin_document(&b, "o");
        bsonraw_buffer_utf8(&b, "x", long_text);
        bsonraw_buffer_end(&b);
        is(bsonraw_buffer_finish(&b), BSONRAW_NO_MEMORY, "memory is refused");
        bsonraw_buffer_free(&b);
    }
    is(limited.out, 0, "memory is kept");
    bsonraw_buffer_init(&b);
    memset(long_text, 'x', sizeof long_text - 1);
    bsonraw_buffer_utf8(&b, "x", long_text);
    is(bsonraw_buffer_finish(&b), BSONRAW_OK, "a long text");
    expect(b.len == sizeof long_text + 12 && b.bytes[b.len - 2] == 0 && b.bytes[b.len - 3] == 'x', "a long text", "another document");
    bsonraw_buffer_reset(&b);
    bsonraw_buffer_utf8(&b, "x", NULL);
    is(bsonraw_buffer_finish(&b), BSONRAW_NULL, "a text of NULL");
    bsonraw_buffer_reset(&b);
    bsonraw_buffer_text(&b, "x", "\xff", 1);
    is(bsonraw_buffer_finish(&b), BSONRAW_FAULT, "a text that isn't UTF-8");
    bsonraw_buffer_reset(&b);
    bsonraw_buffer_begin_document(&b, "\xff");
    is(bsonraw_buffer_finish(&b), BSONRAW_FAULT, "a key that isn't UTF-8");
    bsonraw_buffer_free(&b);
    is(bsonraw_buffer_init_with(&b, NULL, NULL), BSONRAW_NULL, "no function");
    is(bsonraw_buffer_null(&b, "x"), BSONRAW_NULL, "no function");
    bsonraw_buffer_free(&b);
}

/* A buffer that is all 0, or was freed, refuses each call. */
static void look_at_no_buffer(void) {
    static const struct bsonraw_buffer none;
    struct bsonraw_buffer b;
    int call;
    for (call = 0; call < 8; call++) {
        b = none;
        if (call % 2) bsonraw_buffer_init(&b), bsonraw_buffer_free(&b);
        switch (call / 2) {
        case 0: bsonraw_buffer_int32(&b, "a", 1); break;
        case 1: bsonraw_buffer_begin_array(&b, "a"); break;
        case 2: bsonraw_buffer_concat(&b, SAMPLE); break;
        default: bsonraw_buffer_reset(&b); break;
        }
        is(b.status, BSONRAW_BAD_OFFSET, "no buffer");
        is(bsonraw_buffer_finish(&b), BSONRAW_BAD_OFFSET, "no buffer");
        bsonraw_buffer_free(&b);
        is(bsonraw_buffer_init(&b), BSONRAW_OK, "one that begins");
        bsonraw_buffer_free(&b);
    }
}

#define TEXT 24

/* A text of some bytes, which may not be UTF-8. */
static void make_text(char *text) {
    size_t len = random_number() % TEXT, at;
    for (at = 0; at < len; at++) text[at] = (char)(random_number() % 64 ? 32 + random_number() % 95 : 128 + random_number() % 128);
    text[len] = 0;
}

/* Appends one element of any kind to a buffer, and to a builder: 1 where it is one that a builder refuses. */
static int append_any(struct bsonraw_buffer *b, struct bsonraw_builder *to, uint8_t *room, size_t len) {
    static const uint8_t id[] = "abcdefghijklmnop";
    char key[TEXT], text[TEXT];
    const char *name = b->level.tag == BSONRAW_TAG_ARRAY ? NULL : key;
    int32_t status, number = (int32_t)random_number();
    make_text(key);
    make_text(text);
    switch (random_number() % 10) {
    case 0: bsonraw_buffer_int32(b, name, number); status = bsonraw_append_int32(to, room, len, BSONRAW_STR(key), number); break;
    case 1: bsonraw_buffer_int64(b, name, -number); status = bsonraw_append_int64(to, room, len, BSONRAW_STR(key), -number); break;
    case 2: bsonraw_buffer_double(b, name, number); status = bsonraw_append_double(to, room, len, BSONRAW_STR(key), number); break;
    case 3: bsonraw_buffer_bool(b, name, number & 2); status = bsonraw_append_bool(to, room, len, BSONRAW_STR(key), number & 2); break;
    case 4: bsonraw_buffer_date_time(b, name, number); status = bsonraw_append_date_time(to, room, len, BSONRAW_STR(key), number); break;
    case 5: bsonraw_buffer_null(b, name); status = bsonraw_append_null(to, room, len, BSONRAW_STR(key)); break;
    case 6: bsonraw_buffer_oid(b, name, id); status = bsonraw_append_oid(to, room, len, BSONRAW_STR(key), id); break;
    case 7: bsonraw_buffer_decimal128(b, name, id); status = bsonraw_append_decimal128(to, room, len, BSONRAW_STR(key), id); break;
    case 8: bsonraw_buffer_timestamp(b, name, 7, 8); status = bsonraw_append_timestamp(to, room, len, BSONRAW_STR(key), 7, 8); break;
    default: bsonraw_buffer_utf8(b, name, text); status = bsonraw_append_utf8(to, room, len, BSONRAW_STR(key), BSONRAW_STR(text)); break;
    }
    is(b->status, status, "an element of any kind");
    return status != BSONRAW_OK;
}

/* What a buffer builds of any elements is what a builder builds, in documents and arrays; and it refuses the same. */
static void look_at_any(void) {
    static uint8_t room[1 << 16];
    struct bsonraw_buffer b;
    size_t i, len = sizeof room;
    bsonraw_buffer_init(&b);
    for (i = 0; i < 2000; i++) {
        struct bsonraw_builder to, level;
        size_t count = 1 + random_number() % 120, is_array = random_number() % 2;
        bsonraw_buffer_reset(&b);
        bsonraw_builder_begin(&to, room, len);
        if (is_array) bsonraw_buffer_begin_array(&b, "k"), bsonraw_append_array_begin(&to, room, len, BSONRAW_KEY("k"), &level);
        else bsonraw_buffer_begin_document(&b, "k"), bsonraw_append_document_begin(&to, room, len, BSONRAW_KEY("k"), &level);
        while (count-- > 0 && !append_any(&b, &level, room, len)) continue;
        bsonraw_buffer_end(&b);
        bsonraw_append_end(&to, room, len, &level);
        is(bsonraw_buffer_finish(&b), bsonraw_builder_end(&to, room, len), "a level of any elements");
        if (to.status == BSONRAW_OK) has(&b, room, to.len, "a level of any elements");
    }
    bsonraw_buffer_free(&b);
}

static void look_at_kinds(void) {
    static const uint8_t kinds[] = "\111\0\0\0\12a\0\21b\0\2\0\0\0\1\0\0\0\23c\0abcdefghijklmnop\5d\0\2\0\0\0\200xy"
                                   "\3e\0\5\0\0\0\0\4f\0\5\0\0\0\0\16g\0\2\0\0\0s\0";
    struct bsonraw_buffer b;
    bsonraw_buffer_init(&b);
    bsonraw_buffer_null(&b, "a");
    bsonraw_buffer_timestamp(&b, "b", 1, 2);
    bsonraw_buffer_decimal128(&b, "c", (const uint8_t *)"abcdefghijklmnop");
    bsonraw_buffer_binary(&b, "d", 128, "xy", 2);
    bsonraw_buffer_document(&b, "e", (const uint8_t *)"\5\0\0\0", 5);
    bsonraw_buffer_array(&b, "f", (const uint8_t *)"\5\0\0\0", 5);
    bsonraw_buffer_append(&b, BSONRAW_TAG_SYMBOL, "g", "s", 1, NULL, 0);
    is(bsonraw_buffer_finish(&b), BSONRAW_OK, "kinds");
    has(&b, kinds, sizeof kinds, "kinds");
    bsonraw_buffer_reset(&b);
    bsonraw_buffer_regex(&b, "r", "^a", "i");
    bsonraw_buffer_begin_array(&b, "l");
    bsonraw_buffer_regex(&b, NULL, "", NULL);
    bsonraw_buffer_append(&b, BSONRAW_TAG_MIN_KEY, NULL, NULL, 0, NULL, 0);
    bsonraw_buffer_end(&b);
    is(bsonraw_buffer_finish(&b), BSONRAW_OK, "regular expressions");
    has(&b, "\35\0\0\0\13r\0^a\0i\0\4l\0\15\0\0\0\13\60\0\0\0\377\61\0\0", 29, "regular expressions");
    bsonraw_buffer_reset(&b);
    is(bsonraw_buffer_regex(&b, "r", NULL, "i"), BSONRAW_NULL, "a pattern of NULL");
    bsonraw_buffer_free(&b);
}

static void look_at_copies(void) {
    static const uint8_t one[] = "\23\0\0\0\20a\0\1\0\0\0\20b\0\2\0\0\0", two[] = "\20\0\0\0\10b\0\1\20c\0\3\0\0\0";
    static const uint8_t both[] = "\36\0\0\0\20a\0\1\0\0\0\20b\0\2\0\0\0\10b\0\1\20c\0\3\0\0\0";
    static const uint8_t laid[] = "\27\0\0\0\20a\0\1\0\0\0\10b\0\1\20c\0\3\0\0\0";
    static const char *const keys[] = {"c", "a", "bb", ""}, *const no_keys[] = {"a", NULL};
    struct bsonraw_buffer b;
    bsonraw_buffer_init(&b);
    bsonraw_buffer_concat(&b, one, sizeof one);
    bsonraw_buffer_concat(&b, two, sizeof two);
    is(bsonraw_buffer_finish(&b), BSONRAW_OK, "one after the other");
    has(&b, both, sizeof both, "one after the other");
    bsonraw_buffer_reset(&b);
    bsonraw_buffer_copy_with(&b, one, sizeof one, two, sizeof two);
    is(bsonraw_buffer_finish(&b), BSONRAW_OK, "one laid over the other");
    has(&b, laid, sizeof laid, "one laid over the other");
    bsonraw_buffer_reset(&b);
    bsonraw_buffer_copy_without(&b, both, sizeof both, keys, 4);
    is(bsonraw_buffer_finish(&b), BSONRAW_OK, "without keys");
    has(&b, "\20\0\0\0\20b\0\2\0\0\0\10b\0\1", 16, "without keys");
    bsonraw_buffer_reset(&b);
    bsonraw_buffer_concat(&b, one, sizeof one - 1);
    is(bsonraw_buffer_finish(&b), BSONRAW_NO_DOCUMENT, "a document that is cut");
    bsonraw_buffer_reset(&b);
    bsonraw_buffer_concat(&b, (const uint8_t *)"\11\0\0\0\12x\0\5", 9);
    is(bsonraw_buffer_finish(&b), BSONRAW_FAULT, "a document with a stop");
    bsonraw_buffer_reset(&b);
    bsonraw_buffer_copy_with(&b, one, sizeof one, NULL, 5);
    is(bsonraw_buffer_finish(&b), BSONRAW_NULL, "a document of NULL");
    bsonraw_buffer_reset(&b);
    bsonraw_buffer_copy_without(&b, both, sizeof both, no_keys, 2);
    is(bsonraw_buffer_finish(&b), BSONRAW_NULL, "a key of NULL");
    bsonraw_buffer_free(&b);
}

/* A file of these bytes. */
static FILE *file_of(const uint8_t *bytes, size_t len) {
    FILE *file = tmpfile();
    expect(file != NULL && fwrite(bytes, 1, len, file) == len, "a file", "none");
    rewind(file);
    return file;
}

static void look_at_stream(struct bsonraw_stream *s) {
    int i;
    for (i = 0; i < 3; i++) {
        is(bsonraw_stream_read(s), BSONRAW_OK, "a document");
        is((int64_t)s->offset, (int64_t)sizeof sample * i, "where it begins");
        expect(s->len == sizeof sample && memcmp(s->bytes, sample, s->len) == 0, "a document", "another");
    }
    is(bsonraw_stream_read(s), BSONRAW_NO_DOCUMENT, "no final 0");
    is(s->error.reason, BSONRAW_NOT_TERMINATED, "no final 0");
    is((int64_t)s->error.offset, 3 * sizeof sample, "no final 0");
    is(bsonraw_stream_read(s), BSONRAW_OK, "a document after it");
    is((int64_t)s->offset, 3 * sizeof sample + 5, "a document after it");
}

/* How a file ends: with these bytes after what is sound. */
static void ends(const uint8_t *end, size_t len, int32_t status, size_t there, size_t max_bytes, const char *name) {
    uint8_t bytes[4 * sizeof sample + 64];
    struct bsonraw_stream s;
    size_t all = 0;
    int i, by_fd;
    for (i = 0; i < 3; i++) memcpy(bytes + all, sample, sizeof sample), all += sizeof sample;
    memcpy(bytes + all, "\5\0\0\0\1", 5), all += 5;
    memcpy(bytes + all, sample, sizeof sample), all += sizeof sample;
    memcpy(bytes + all, end, len);
    for (by_fd = 0; by_fd < 2; by_fd++) {
        FILE *file = file_of(bytes, all + len);
        is(by_fd ? bsonraw_stream_from_fd(&s, fileno(file)) : bsonraw_stream_from_file(&s, file), BSONRAW_OK, name);
        look_at_stream(&s);
        s.max_bytes = max_bytes;
        is(bsonraw_stream_read(&s), status, name);
        is((int64_t)s.len, (int64_t)there, name);
        is((int64_t)s.offset, (int64_t)all, name);
        is(bsonraw_stream_read(&s), status, name);
        bsonraw_stream_free(&s);
        is(bsonraw_stream_read(&s), BSONRAW_NONE, "a stream that was freed");
        fclose(file);
    }
}

/* A file that has no bytes yet, and is read where it has some. */
static void look_at_waiting(void) {
    struct bsonraw_stream s;
    int ends[2];
    size_t at;
    is(pipe2(ends, NOT_BLOCKING), 0, "a pipe");
    is(bsonraw_stream_from_fd(&s, ends[0]), BSONRAW_OK, "a pipe");
    for (at = 0; at < sizeof sample; at++) {
        is(bsonraw_stream_read(&s), BSONRAW_NOT_READ, "a document that isn't there yet");
        is(write(ends[1], sample + at, 1), 1, "a byte");
    }
    is(bsonraw_stream_read(&s), BSONRAW_OK, "a document that came byte by byte");
    expect(s.len == sizeof sample && memcmp(s.bytes, sample, s.len) == 0 && s.offset == 0, "a document that came byte by byte", "another");
    is(bsonraw_stream_read(&s), BSONRAW_NOT_READ, "the next one");
    close(ends[1]);
    is(bsonraw_stream_read(&s), BSONRAW_NONE, "the end");
    bsonraw_stream_free(&s);
    close(ends[0]);
}

static void look_at_streams(void) {
    struct bsonraw_stream s;
    uint8_t *large = needed(300000);
    FILE *file;
    size_t at;
    ends(sample, 0, BSONRAW_NONE, 0, 100, "the end");
    ends(sample, 3, BSONRAW_CUT, 3, 100, "a length that is cut");
    ends(sample, 4, BSONRAW_CUT, 4, 100, "a document that is cut");
    ends(sample, 40, BSONRAW_CUT, 40, 100, "a document that is cut");
    ends((const uint8_t *)"\4\0\0\0", 4, BSONRAW_NO_DOCUMENT, 0, 100, "a length that can't be");
    ends((const uint8_t *)"\0\0\0\200", 4, BSONRAW_NO_DOCUMENT, 0, 100, "a negative length");
    ends(sample, 40, BSONRAW_TOO_MANY_BYTES, 0, 99, "more than is allowed");
    is(bsonraw_stream_from_fd(&s, 1000), BSONRAW_OK, "no file");
    is(bsonraw_stream_read(&s), BSONRAW_NOT_READ, "no file");
    bsonraw_stream_free(&s);
    is(bsonraw_stream_from_file(&s, NULL), BSONRAW_NULL, "a file of NULL");
    is(bsonraw_stream_read(&s), BSONRAW_NULL, "a file of NULL");
    /* 300000 bytes of which each is x, as a binary, after sixteen small documents */
    memset(large, 'x', 300000);
    memcpy(large, "\340\223\4\0\5\0\324\223\4\0\0", 11), large[299999] = 0;
    file = tmpfile();
    for (at = 0; at < 16; at++) fwrite(sample, 1, sizeof sample, file);
    for (at = 0; at < 2; at++) fwrite(large, 1, 300000, file);
    rewind(file);
    is(bsonraw_stream_from_fd(&s, fileno(file)), BSONRAW_OK, "a large document");
    for (at = 0; at < 16; at++) is(bsonraw_stream_read(&s), BSONRAW_OK, "a document before it");
    for (at = 0; at < 2; at++) {
        is(bsonraw_stream_read(&s), BSONRAW_OK, "a large document");
        expect(s.len == 300000 && memcmp(s.bytes, large, 300000) == 0, "a large document", "another");
    }
    is(bsonraw_stream_read(&s), BSONRAW_NONE, "the end");
    bsonraw_stream_free(&s);
    fclose(file);
    free(large);
}

static void look_at_cuts(void) {
    size_t len;
    for (len = 1; len < sizeof sample; len++) {
        struct bsonraw_reader reader = {0, 0, 0, {0, 0, 0, 0, 0}};
        is(bsonraw_reader_read(&reader, sample, len), BSONRAW_NO_DOCUMENT, "a cut");
        is(bsonraw_reader_is_cut(&reader, sample, len), 1, "a cut");
    }
    for (len = 0; len < 5; len++) {
        uint8_t bytes[9] = {0, 0, 0, 0, 0, 0, 0, 0, 0};
        struct bsonraw_reader reader = {0, 0, 0, {0, 0, 0, 0, 0}};
        bytes[0] = (uint8_t)len;
        is(bsonraw_reader_read(&reader, bytes, 9), BSONRAW_NO_DOCUMENT, "a length that can't be");
        is(bsonraw_reader_is_cut(&reader, bytes, 9), 0, "a length that can't be");
    }
}

int main(void) {
    static struct documents all;
    read_documents(&all);
    look_at_texts();
    look_at_json_faults();
    look_at_control_characters();
    look_at_levels(1, "/1:\"x\"");
    look_at_levels(20, "/1:\"\"" NINE NINE "/0:\"x\"");
    look_at_levels(21, "/1:\"\"" NINE "/.." NINE "/0:\"x\"");
    look_at_levels(25, "/1:\"\"" NINE "/.." NINE "/0:\"x\"");
    look_at_values();
    look_at_rarer();
    look_at_dots();
    look_at_tags();
    look_at_overwritten();
    look_at_new_forms();
    look_at_new_texts();
    look_at_new_documents();
    look_at_texts_in_a_row();
    look_at_arrays();
    look_at_keys();
    look_at_places();
    look_at_order();
    look_at_many(&all);
    look_at_edges();
    look_at_buffers();
    look_at_no_buffer();
    look_at_kinds();
    look_at_any();
    look_at_copies();
    look_at_streams();
    look_at_waiting();
    look_at_cuts();
    return result("daily");
}
