/* Extended JSON in pieces and of one value, beside what bsonraw_json prints of a whole document; and Decimal128s and times as text, whose
 * bytes are those of the Decimal128 tests of BSON and of the calendar. */
#include "documents.h"

#include <stdio.h>
#include <stdlib.h>
#include <string.h>

#define FLAGS(canonical, indented) ((canonical ? BSONRAW_JSON_CANONICAL : 0) | (indented ? BSONRAW_JSON_INDENTED : 0))

/* A text that a call gave, in pieces. */
struct pieces {
    char *text;
    size_t len, room, count, stop_at;
};

static int32_t keep(void *context, const char *text, size_t len) {
    struct pieces *p = context;
    if (++p->count == p->stop_at) return 77;
    if (len == 0 || len > 65536 || len > p->room - p->len) return 78;
    memcpy(p->text + p->len, text, len);
    p->len += len;
    return BSONRAW_OK;
}

/* In new memory, beside a text that was given a room, or none; and by the call that takes a room of char. */
static void compare_new(const struct document *d, uint32_t canonical, uint32_t indented, int32_t status, const struct bsonraw_report *wanted,
                        const uint8_t *text) {
    struct bsonraw_report r;
    uint64_t path[STEPS];
    size_t room = text == NULL ? 0 : (size_t)wanted->count + 1;
    char *own = (char *)&r, *into = needed(room + 1);
    expect(bsonraw_json_new(d->bytes, d->len, 1 << 24, LEVELS, FLAGS(canonical, indented), &own, &r) == status, d->name, "another status of a new text");
    expect(memcmp(&r, wanted, sizeof r) == 0, d->name, "another report of a new text");
    expect(text == NULL ? own == NULL : own != NULL && memcmp(own, text, room) == 0, d->name, "another new text");
    free(own);
    expect(bsonraw_json_text(d->bytes, d->len, 1 << 24, LEVELS, FLAGS(canonical, indented), into, room, &r, path, STEPS) == status, d->name, "another status with char");
    expect(memcmp(&r, wanted, sizeof r) == 0 && (text == NULL || memcmp(into, text, room) == 0), d->name, "another text with char");
    free(into);
}

static void compare(const struct document *d, uint32_t canonical, uint32_t indented) {
    struct bsonraw_report wanted, r;
    uint64_t path[STEPS], other[STEPS];
    struct pieces p = {NULL, 0, 0, 0, 0};
    uint8_t *text;
    int32_t status = bsonraw_json(d->bytes, d->len, 1 << 24, LEVELS, canonical, indented, NULL, 0, &wanted, path, STEPS);
    if (status != BSONRAW_SMALL_BUFFER) {
        expect(bsonraw_json_write(d->bytes, d->len, 1 << 24, LEVELS, FLAGS(canonical, indented), keep, &p, &r, other, STEPS) == status, d->name, "another status");
        expect(p.count == 0 && memcmp(&r, &wanted, sizeof r) == 0, d->name, "another report");
        expect(r.path_len > STEPS || memcmp(path, other, (size_t)r.path_len * sizeof *path) == 0, d->name, "another path");
        compare_new(d, canonical, indented, status, &wanted, NULL);
        return;
    }
    text = needed((size_t)wanted.count + 1);
    p.text = needed((size_t)wanted.count + 1), p.room = (size_t)wanted.count;
    expect(bsonraw_json(d->bytes, d->len, 1 << 24, LEVELS, canonical, indented, text, p.room + 1, &wanted, path, STEPS) == BSONRAW_OK, d->name, "no text");
    expect(bsonraw_json_write(d->bytes, d->len, 1 << 24, LEVELS, FLAGS(canonical, indented), keep, &p, &r, path, STEPS) == BSONRAW_OK, d->name, "no pieces");
    expect(memcmp(&r, &wanted, sizeof r) == 0, d->name, "another count");
    expect(p.len == p.room && memcmp(p.text, text, p.room) == 0, d->name, "another text in pieces");
    expect(bsonraw_json_write(d->bytes, d->len, 1 << 24, LEVELS, FLAGS(canonical, indented), NULL, NULL, &r, path, STEPS) == BSONRAW_OK && r.count == p.room, d->name, "it is counted otherwise");
    p.stop_at = p.count, p.count = p.len = 0;
    expect(bsonraw_json_write(d->bytes, d->len, 1 << 24, LEVELS, FLAGS(canonical, indented), keep, &p, &r, path, STEPS) == 77, d->name, "a stop isn't returned");
    expect(p.count == p.stop_at && r.count == 0, d->name, "it goes on after a stop");
    compare_new(d, canonical, indented, BSONRAW_OK, &wanted, text);
    free(text);
    free(p.text);
}

/* Every front of a text beside the whole one. */
static void look_at_fronts(const struct document *d, uint32_t flags) {
    struct bsonraw_report wanted, r;
    uint64_t path[STEPS], other[STEPS];
    char *whole = NULL, *into;
    size_t room;
    int32_t status = bsonraw_json_new(d->bytes, d->len, 1 << 24, LEVELS, flags, &whole, &wanted);
    into = needed(wanted.count + 2);
    for (room = 0; room <= wanted.count + 1 && room < 500; room++) {
        size_t len = room == 0 ? 0 : room - 1;
        memset(into, 1, wanted.count + 2);
        if (status != BSONRAW_OK) {
            (void)!bsonraw_first_fault(d->bytes, d->len, 1 << 24, LEVELS, &wanted, path, STEPS);
            expect(bsonraw_json_front(d->bytes, d->len, 1 << 24, LEVELS, flags, into, 1, &r, other, STEPS) == status && into[0] == 1, d->name, "another status of a front");
            expect(memcmp(&r, &wanted, sizeof r) == 0 && (r.path_len > STEPS || memcmp(path, other, r.path_len * sizeof *path) == 0), d->name, "another report of a front");
            break;
        }
        while (len > 0 && len < wanted.count && (whole[len] & 0xc0) == 0x80) len--; /* what is after it begins a character */
        expect(bsonraw_json_front(d->bytes, d->len, 1 << 24, LEVELS, flags, into, room, &r, path, STEPS) == (room > wanted.count ? BSONRAW_OK : BSONRAW_SMALL_BUFFER), d->name, "a front's status");
        expect(r.count == len && memcmp(into, whole, len) == 0 && (room == 0 || into[len] == 0) && into[room] == 1, d->name, "another front");
    }
    free(whole);
    free(into);
}

/* The text of a document with this element alone, without what is around the value. */
static size_t value_of(const struct document *d, const struct bsonraw_iter *it, uint32_t canonical, uint32_t indented, char *text) {
    static uint8_t room[ROOM], whole[80 * ROOM];
    struct bsonraw_builder b;
    struct bsonraw_report r;
    size_t at, len = 0, front = indented ? 8 : 4;
    bsonraw_builder_begin(&b, room, sizeof room);
    bsonraw_append(&b, room, sizeof room, BSONRAW_TAG_NULL, BSONRAW_KEY(""), BSONRAW_KEY(""), BSONRAW_KEY(""));
    if (bsonraw_builder_end(&b, room, sizeof room) != BSONRAW_OK || (size_t)it->payload_len + 7 > sizeof room) return 0;
    room[0] = (uint8_t)(it->payload_len + 7), room[1] = (uint8_t)((it->payload_len + 7) >> 8);
    room[4] = (uint8_t)it->tag;
    memcpy(room + 6, d->bytes + it->payload_at, it->payload_len);
    room[6 + it->payload_len] = 0;
    if (bsonraw_json(room, it->payload_len + 7, SIZE_MAX, SIZE_MAX, canonical, indented, whole, sizeof whole, &r, NULL, 0) != BSONRAW_OK) return 0;
    for (at = front; at < r.count - (indented ? 2 : 1); at++) {
        text[len++] = (char)whole[at];
        if (whole[at] == '\n') at += 2;
    }
    return len;
}

static void compare_values(const struct document *d, uint32_t canonical, uint32_t indented) {
    static char wanted[80 * ROOM], text[80 * ROOM];
    struct bsonraw_iter it;
    struct bsonraw_report r;
    if (bsonraw_iter_init(&it, d->bytes, d->len) != BSONRAW_OK) return;
    while (bsonraw_iter_next(&it, d->bytes, d->len) == BSONRAW_OK) {
        size_t len = value_of(d, &it, canonical, indented, wanted);
        int32_t status = bsonraw_iter_json(&it, d->bytes, d->len, SIZE_MAX, FLAGS(canonical, indented), text, sizeof text, &r);
        expect((len > 0) == (status == BSONRAW_OK), d->name, "a value with another status");
        if (status != BSONRAW_OK) {
            expect(status == BSONRAW_FAULT && r.error.offset + 1 >= it.key_at && r.error.offset <= it.next && r.count == 0, d->name, "another place of a fault");
            continue;
        }
        expect(r.count == len && memcmp(text, wanted, len) == 0 && text[len] == 0, d->name, "another text of a value");
        expect(bsonraw_iter_json(&it, d->bytes, d->len, SIZE_MAX, FLAGS(canonical, indented), text, len, &r) == BSONRAW_SMALL_BUFFER && r.count == len, d->name, "a room that is too small");
        expect(bsonraw_iter_json(&it, d->bytes, d->len, SIZE_MAX, FLAGS(canonical, indented), NULL, 0, &r) == BSONRAW_SMALL_BUFFER && r.count == len, d->name, "no room");
    }
    expect(bsonraw_iter_json(&it, d->bytes, d->len, SIZE_MAX, FLAGS(canonical, indented), text, sizeof text, &r) == BSONRAW_BAD_OFFSET, d->name, "a value of none");
}

static void compare_each(const struct document *d) {
    uint32_t style;
    for (style = 0; style < 4; style++) {
        compare(d, style & 1, style & 2);
        compare_values(d, style & 1, style & 2);
    }
    look_at_fronts(d, 0);
    look_at_fronts(d, BSONRAW_JSON_CANONICAL | BSONRAW_JSON_INDENTED);
}

static uint32_t random_number(void) {
    static uint64_t state = 2026;
    state = state * 6364136223846793005u + 1442695040888963407u;
    return (uint32_t)(state >> 33);
}

static int left; /* how many elements a document may have */

/* Appends this many elements of random kinds, of which a few hold others, down to that many levels. */
static void fill(struct bsonraw_buffer *b, int levels, uint32_t count, int is_array) {
    static const char text[] = "a \"text\" of\nseveral lines\t\\, which is repeated: a \"text\" of\nseveral lines";
    struct bsonraw_buffer scope;
    char key[16];
    for (; count > 0 && left-- > 0; count--) {
        const char *name = is_array ? NULL : key;
        uint32_t kind = random_number() % (levels > 0 ? 12 : 9), more = random_number() % 8 ? random_number() % 20 : random_number() % 400;
        snprintf(key, sizeof key, "k\"%u", count);
        if (kind < 2) bsonraw_buffer_int32(b, name, (int32_t)count);
        else if (kind < 4) bsonraw_buffer_null(b, name);
        else if (kind < 7) bsonraw_buffer_text(b, name, text, random_number() % sizeof text);
        else if (kind < 8) bsonraw_buffer_date_time(b, name, (int64_t)random_number() * 1000);
        else if (kind < 9) bsonraw_buffer_binary(b, name, 0, text, random_number() % sizeof text);
        else if (kind < 10) bsonraw_buffer_begin_document(b, name), fill(b, levels - 1, more, 0), bsonraw_buffer_end(b);
        else if (kind < 11) bsonraw_buffer_begin_array(b, name), fill(b, levels - 1, more, 1), bsonraw_buffer_end(b);
        else {
            bsonraw_buffer_init(&scope);
            fill(&scope, levels - 1, more, 0);
            expect(bsonraw_buffer_finish(&scope) == BSONRAW_OK, "a scope", "it isn't built");
            bsonraw_buffer_append(b, BSONRAW_TAG_JAVASCRIPT_WITH_SCOPE, name, text, random_number() % sizeof text, scope.bytes, scope.len);
            bsonraw_buffer_free(&scope);
        }
    }
}

/* Documents of which parts are printed one by one. */
static void look_at_large(void) {
    struct bsonraw_buffer b;
    struct document d;
    int number;
    for (number = 0; number < 40; number++) {
        snprintf(d.name, sizeof d.name, "large document %d", number);
        bsonraw_buffer_init(&b);
        left = 3000;
        fill(&b, 1 + number % 6, 30 + random_number() % 300, 0);
        expect(bsonraw_buffer_finish(&b) == BSONRAW_OK, d.name, "it isn't built");
        d.bytes = b.bytes, d.len = b.len;
        compare(&d, 0, 0);
        compare(&d, 1, 0);
        compare(&d, number % 2 == 0, 1);
        bsonraw_buffer_free(&b);
    }
}

/* One value that is large: an array, a code that is longer than its scope, and a text. */
static void look_at_large_values(void) {
    struct bsonraw_buffer b;
    struct bsonraw_iter it;
    struct bsonraw_report r;
    struct document d;
    static char text[20000], json[200000];
    int number;
    memset(text, 'x', sizeof text);
    snprintf(d.name, sizeof d.name, "large values");
    bsonraw_buffer_init(&b);
    bsonraw_buffer_begin_array(&b, "a");
    for (number = 0; number < 3000; number++) bsonraw_buffer_int32(&b, NULL, number % 10);
    bsonraw_buffer_end(&b);
    bsonraw_buffer_append(&b, BSONRAW_TAG_JAVASCRIPT_WITH_SCOPE, "c", text, sizeof text, "\5\0\0\0", 5);
    bsonraw_buffer_text(&b, "t", text, sizeof text);
    expect(bsonraw_buffer_finish(&b) == BSONRAW_OK, d.name, "they aren't built");
    d.bytes = b.bytes, d.len = b.len;
    compare(&d, 0, 0);
    compare(&d, 0, 1);
    expect(bsonraw_iter_init_find(&it, b.bytes, b.len, BSONRAW_KEY("a")) == BSONRAW_OK, d.name, "no array");
    expect(bsonraw_iter_json(&it, b.bytes, b.len, 1, 0, json, sizeof json, &r) == BSONRAW_OK && r.count == 6001, d.name, "an array");
    expect(memcmp(json, "[0,1,2,", 7) == 0 && strcmp(json + 5997, "8,9]") == 0, d.name, "an array");
    expect(bsonraw_iter_json(&it, b.bytes, b.len, 1, BSONRAW_JSON_INDENTED, json, sizeof json, &r) == BSONRAW_OK && r.count == 15002, d.name, "an indented array");
    expect(memcmp(json, "[\n  0,\n  1,", 11) == 0 && strcmp(json + 14997, "  9\n]") == 0, d.name, "an indented array");
    expect(bsonraw_iter_json(&it, b.bytes, b.len, 0, 0, json, sizeof json, &r) == BSONRAW_TOO_DEEP, d.name, "no level");
    expect(bsonraw_iter_init_find(&it, b.bytes, b.len, BSONRAW_KEY("c")) == BSONRAW_OK, d.name, "no code");
    expect(bsonraw_iter_json(&it, b.bytes, b.len, 1, 0, json, sizeof json, &r) == BSONRAW_OK && r.count == 20024, d.name, "a code");
    expect(memcmp(json, "{\"$code\":\"xx", 12) == 0 && strcmp(json + 20008, "xx\",\"$scope\":{}}") == 0, d.name, "a code");
    bsonraw_buffer_reset(&b);
    bsonraw_buffer_begin_document(&b, "d");
    bsonraw_buffer_append(&b, BSONRAW_TAG_JAVASCRIPT_WITH_SCOPE, "c", "f", 1, "\14\0\0\0\20x\0\1\0\0\0", 12);
    bsonraw_buffer_end(&b);
    expect(bsonraw_buffer_finish(&b) == BSONRAW_OK && bsonraw_get(b.bytes, b.len, "d.c", &it) == BSONRAW_OK, d.name, "no code");
    expect(bsonraw_iter_json(&it, b.bytes, b.len, 1, BSONRAW_JSON_INDENTED, json, sizeof json, &r) == BSONRAW_OK &&
               strcmp(json, "{\"$code\":\"f\",\"$scope\":{\n  \"x\": 1\n}}") == 0, d.name, "an indented scope");
    bsonraw_buffer_free(&b);
}

/* Fronts that end within characters of two, three and four bytes. */
static void look_at_characters(void) {
    static uint8_t bytes[] = "\26\0\0\0\2k\0\12\0\0\0\303\251\346\227\245\360\237\230\200\0";
    static struct document d;
    snprintf(d.name, sizeof d.name, "characters");
    d.bytes = bytes, d.len = sizeof bytes;
    look_at_fronts(&d, 0);
    look_at_fronts(&d, BSONRAW_JSON_INDENTED);
}

static void look_at_null(void) {
    static const uint8_t bytes[] = "\5\0\0\0";
    struct bsonraw_iter it;
    struct bsonraw_report r;
    uint8_t own[16] = {0};
    char text[BSONRAW_DECIMAL128_TEXT], hex[BSONRAW_OID_TEXT];
    int64_t millis;
    expect(bsonraw_iter_init(&it, bytes, 5) == BSONRAW_OK, "NULL", "a cursor");
    expect(bsonraw_json_write(NULL, 5, 9, 9, 0, NULL, NULL, &r, NULL, 0) == BSONRAW_NULL, "NULL", "bytes");
    expect(bsonraw_json_write(NULL, 0, 9, 9, 0, NULL, NULL, &r, NULL, 0) == BSONRAW_NO_DOCUMENT, "NULL", "no bytes");
    expect(bsonraw_json_write(bytes, 5, 9, 9, 0, NULL, NULL, NULL, NULL, 0) == BSONRAW_NULL, "NULL", "a report");
    expect(bsonraw_json_write(bytes, 5, 9, 9, 0, NULL, NULL, &r, NULL, 1) == BSONRAW_NULL, "NULL", "a path");
    expect(bsonraw_json_front(NULL, 5, 9, 9, 0, text, 9, &r, NULL, 0) == BSONRAW_NULL && bsonraw_json_front(bytes, 5, 9, 9, 0, NULL, 9, &r, NULL, 0) == BSONRAW_NULL, "NULL", "a front");
    expect(bsonraw_json_front(bytes, 5, 9, 9, BSONRAW_JSON_ARRAY, text, 3, &r, NULL, 0) == BSONRAW_OK && strcmp(text, "[]") == 0, "array", "a front");
    expect(bsonraw_json_front(bytes, 5, 9, 9, 0, NULL, 0, &r, NULL, 0) == BSONRAW_SMALL_BUFFER && r.count == 0, "NULL", "a front without room");
    expect(bsonraw_iter_json(NULL, bytes, 5, 9, 0, text, 9, &r) == BSONRAW_NULL, "NULL", "a cursor");
    expect(bsonraw_iter_json(&it, NULL, 5, 9, 0, text, 9, &r) == BSONRAW_NULL, "NULL", "bytes");
    expect(bsonraw_iter_json(&it, bytes, 5, 9, 0, NULL, 9, &r) == BSONRAW_NULL, "NULL", "a text");
    expect(bsonraw_iter_json(&it, bytes, 5, 9, 0, text, 9, NULL) == BSONRAW_NULL, "NULL", "a report");
    expect(bsonraw_decimal128_to_text(NULL, text) == BSONRAW_NULL && bsonraw_decimal128_to_text(own, NULL) == BSONRAW_NULL, "NULL", "a decimal");
    expect(bsonraw_decimal128_from_text(NULL, own) == BSONRAW_NULL && bsonraw_decimal128_from_text("1", NULL) == BSONRAW_NULL, "NULL", "a decimal's text");
    expect(bsonraw_date_time_to_text(0, NULL) == BSONRAW_NULL, "NULL", "a time");
    expect(bsonraw_date_time_from_text(NULL, &millis) == BSONRAW_NULL, "NULL", "a time's text");
    expect(bsonraw_date_time_from_text("1970-01-01T00:00:00Z", NULL) == BSONRAW_NULL, "NULL", "a time's milliseconds");
    expect(bsonraw_oid_to_hex(NULL, hex) == BSONRAW_NULL && bsonraw_oid_to_hex(own, NULL) == BSONRAW_NULL, "NULL", "an ObjectId");
    expect(bsonraw_oid_from_hex(NULL, own) == BSONRAW_NULL && bsonraw_oid_from_hex("000102030405060708090a0b", NULL) == BSONRAW_NULL, "NULL", "hex digits");
    expect(bsonraw_oid_time(NULL) == 0, "NULL", "an ObjectId's time");
}

/* A cursor with any fields reads nothing outside of the bytes. */
static void look_at_any_cursor(void) {
    static const uint8_t sample[] = "\33\0\0\0\2hi\0\6\0\0\0y\47all\0\5b\0\0\0\0\0\0";
    uint8_t *bytes = needed(27);
    struct bsonraw_report r;
    char text[99];
    int number;
    memcpy(bytes, sample, 27);
    for (number = 0; number < 20000; number++) {
        struct bsonraw_iter it;
        uint32_t *fields[8], change = 1 + random_number() % 3;
        if (bsonraw_iter_init(&it, bytes, 27) != BSONRAW_OK || bsonraw_iter_next(&it, bytes, 27) != BSONRAW_OK) break;
        fields[0] = &it.tag, fields[1] = &it.key_at, fields[2] = &it.key_len, fields[3] = &it.payload_at, fields[4] = &it.payload_len;
        fields[5] = &it.next, fields[6] = &it.document_at, fields[7] = &it.document_len;
        for (; change > 0; change--) *fields[random_number() % 8] = random_number() % 4 ? random_number() % 30 : random_number() * 2;
        if (bsonraw_iter_json(&it, bytes, 27, 9, 0, text, sizeof text, &r) == BSONRAW_OK) expect(strlen(text) == r.count, "any cursor", text);
    }
    expect(number == 20000, "any cursor", "no cursor");
    free(bytes);
}

static void is_decimal(const char *hex, const char *text, const char *written) {
    uint8_t bytes[16], back[16];
    char own[BSONRAW_DECIMAL128_TEXT];
    unsigned at, digit;
    for (at = 0; at < 32; at++) {
        digit = (unsigned)(hex[at] <= '9' ? hex[at] - '0' : hex[at] - 'A' + 10);
        bytes[at / 2] = (uint8_t)(at % 2 ? bytes[at / 2] * 16u + digit : digit);
    }
    expect(bsonraw_decimal128_to_text(bytes, own) == BSONRAW_OK && strcmp(own, text) == 0, text, own);
    expect(bsonraw_decimal128_from_text(written, back) == BSONRAW_OK && memcmp(bytes, back, 16) == 0, written, "other bytes");
}

static void is_no_decimal(const char *text) {
    uint8_t bytes[16] = {9, 9, 9, 9, 9, 9, 9, 9, 9, 9, 9, 9, 9, 9, 9, 9};
    expect(bsonraw_decimal128_from_text(text, bytes) == BSONRAW_FAULT && bytes[0] == 9 && bytes[15] == 9, text, "it is a decimal");
}

static void look_at_decimals(void) {
    static char long_text[7000];
    is_decimal("00000000000000000000000000004030", "0", "0");
    is_decimal("0F000000000000000000000000003E30", "1.5", "1.5");
    is_decimal("0000000000000000000000000000007C", "NaN", "NaN");
    is_decimal("00000000000000000000000000000078", "Infinity", "inf");
    is_decimal("000000000000000000000000000000F8", "-Infinity", "-INFINITY");
    is_decimal("FFFFFFFF638E8D37C087ADBE09EDFF5F", "9.999999999999999999999999999999999E+6144", "9.999999999999999999999999999999999E+6144");
    is_decimal("F2AF967ED05C82DE3297FF6FDE3CFC2F", "0.1234567890123456789012345678901234", ".1234567890123456789012345678901234");
    is_decimal("01000000000000000000000000000080", "-1E-6176", "-1E-6176");
    is_decimal("F2AF967ED05C82DE3297FF6FDE3C0080", "-1.234567890123456789012345678901234E-6143", "-1234567890123456789012345678901234E-6176");
    is_no_decimal("");
    is_no_decimal("1.5 ");
    is_no_decimal("1,5");
    is_no_decimal("1\"}},\"a\":{\"b\":{\"c\":\"");
    is_no_decimal("1\\u0030");
    is_no_decimal("12345678901234567890123456789012345");
    is_no_decimal("1E+6145");
    memset(long_text, '0', 6999);
    long_text[1] = '.', long_text[6177] = '1';
    is_decimal("01000000000000000000000000000000", "1E-6176", (long_text[6178] = 0, long_text));
    long_text[6176] = '1', long_text[6177] = 0;
    is_decimal("01000000000000000000000000000200", "1E-6175", long_text);
}

static void is_time(int64_t millis, const char *text, const char *written) {
    char own[BSONRAW_DATE_TIME_TEXT];
    int64_t back;
    expect(bsonraw_date_time_to_text(millis, own) == BSONRAW_OK && strcmp(own, text) == 0, text, own);
    expect(bsonraw_date_time_from_text(written, &back) == BSONRAW_OK && back == millis, written, "another time");
}

static void is_no_time(const char *text) {
    int64_t millis = 9;
    expect(bsonraw_date_time_from_text(text, &millis) == BSONRAW_FAULT && millis == 9, text, "it is a time");
}

static void look_at_times(void) {
    static const int64_t none[] = {-9223372036854775807 - 1, -62167219200001, -63000000000000, 253402300800000, 9223372036854775807};
    char text[BSONRAW_DATE_TIME_TEXT] = "as it was";
    size_t at;
    is_time(0, "1970-01-01T00:00:00Z", "1970-01-01T01:00:00+01:00");
    is_time(-1, "1969-12-31T23:59:59.999Z", "1969-12-31T23:59:59.999Z");
    is_time(1356351330501, "2012-12-24T12:15:30.501Z", "2012-12-24T12:15:30.501+0000");
    is_time(1356351330501, "2012-12-24T12:15:30.501Z", "2012-12-24t12:15:30.501z");
    is_time(-2769984000000, "1882-03-23T00:00:00Z", "1882-03-23T00:00:00.0Z");
    is_time(-2203891200000, "1900-03-01T00:00:00Z", "1900-03-01T00:00:00Z");
    is_time(-11670998400000, "1600-02-29T00:00:00Z", "1600-02-29T00:00:00Z");
    is_time(-62135596800000, "0001-01-01T00:00:00Z", "0001-01-01T00:00:00Z");
    is_time(-62167219200000, "0000-01-01T00:00:00Z", "0000-01-01T00:00:00Z");
    is_time(253402300799999, "9999-12-31T23:59:59.999Z", "9999-12-31T23:59:59.999Z");
    for (at = 0; at < 5; at++) expect(bsonraw_date_time_to_text(none[at], text) == BSONRAW_FAULT && strcmp(text, "as it was") == 0, "a time", text);
    is_no_time("");
    is_no_time("2012-12-24");
    is_no_time("2012-13-24T12:15:30Z");
    is_no_time("2012-12-24T12:15:30");
    is_no_time("2012-12-24T12:15:30Z\"");
}

int main(void) {
    static struct documents all;
    size_t at;
    read_documents(&all);
    for (at = 0; at < all.count; at++) compare_each(&all.items[at]);
    look_at_large();
    look_at_large_values();
    look_at_characters();
    look_at_null();
    look_at_any_cursor();
    look_at_decimals();
    look_at_times();
    return result("pieces");
}
