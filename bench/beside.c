/* Calls of the C library beside libbson's that do the same, each in a function of its own: ours_NAME and theirs_NAME.
 *
 * usage: beside DATA once      each once, for callgrind
 *        beside DATA clock     a line of each pair: NAME, a tab, nanoseconds of the processor of ours, a tab, of theirs; the least of
 *                              samples that they take in turns
 *
 * DATA is where documents.py put its documents. Aborts where a call doesn't return what it has to. With PAD, a string, what follows in the
 * program is as many bytes further on: a loop takes up to 1.3 times as long elsewhere. */
#define _GNU_SOURCE
#include <bson/bson.h>
#include <bsonraw.h>
#include <stdio.h>
#include <stdlib.h>
#include <string.h>

#include "clock.h"

#ifdef PAD
__asm__(".text\n.skip " PAD);
#endif

#define ALL ((size_t)2147483647)
#define PAIR(name) __attribute__((noinline, used)) static void name(void)
#define SAMPLE 1e6
#define SAMPLES 60

enum { MANY = 2000, FIELDS = 9, WANTED = 4, BUILT = 100, ENTRIES = 64 };

struct bytes {
    uint8_t *at;
    size_t len;
};

static struct bytes typical, shorts, wide, relaxed, canonical;
static struct bsonraw_report report;
static struct bsonraw_token tokens[256];
static size_t token_count;
static uint8_t room[1 << 20];
static struct bytes records[MANY], firsts[MANY];
static int64_t sum;

static void wants(bool holds, const char *what) {
    if (holds) return;
    fprintf(stderr, "beside: %s doesn't return what it has to\n", what);
    abort();
}

static bson_t view(struct bytes bytes) {
    bson_t viewed;
    wants(bson_init_static(&viewed, bytes.at, bytes.len), "bson_init_static");
    return viewed;
}

/* ---- elements ---- */

static void ours_elements(struct bytes document, size_t count) {
    struct bsonraw_iter it;
    size_t found = 0;
    wants(bsonraw_iter_init(&it, document.at, document.len) == BSONRAW_OK, "bsonraw_iter_init");
    while (bsonraw_iter_next(&it, document.at, document.len) == BSONRAW_OK) found++;
    wants(found == count, "bsonraw_iter_next");
}

static void many_elements(struct bytes document, size_t count) {
    struct bsonraw_entry entries[ENTRIES];
    struct bsonraw_iter it;
    uint64_t count_here, found = 0;
    int32_t status = bsonraw_iter_init(&it, document.at, document.len);
    while (status == BSONRAW_OK) {
        status = bsonraw_iter_next_many(&it, document.at, document.len, entries, ENTRIES, &count_here);
        found += count_here;
    }
    wants(found == count, "bsonraw_iter_next_many");
}

static void theirs_elements(struct bytes document, size_t count) {
    bson_t viewed = view(document);
    bson_iter_t it;
    size_t found = 0;
    wants(bson_iter_init(&it, &viewed), "bson_iter_init");
    while (bson_iter_next(&it)) found++;
    wants(found == count, "bson_iter_next");
}

PAIR(ours_next) { ours_elements(typical, 23); }
PAIR(theirs_next) { theirs_elements(typical, 23); }
PAIR(ours_next_short) { ours_elements(shorts, 50000); }
PAIR(theirs_next_short) { theirs_elements(shorts, 50000); }
PAIR(ours_many) { many_elements(typical, 23); }
PAIR(theirs_many) { theirs_elements(typical, 23); }
PAIR(ours_many_short) { many_elements(shorts, 50000); }
PAIR(theirs_many_short) { theirs_elements(shorts, 50000); }
PAIR(ours_next_wide) { ours_elements(wide, 1000); }
PAIR(theirs_next_wide) { theirs_elements(wide, 1000); }

PAIR(ours_find) {
    struct bsonraw_iter it;
    wants(bsonraw_iter_init_find(&it, typical.at, typical.len, BSONRAW_KEY("lang")) == BSONRAW_OK, "bsonraw_iter_init_find");
}
PAIR(theirs_find) {
    bson_t viewed = view(typical);
    bson_iter_t it;
    wants(bson_iter_init_find(&it, &viewed, "lang"), "bson_iter_init_find");
}

/* ---- what is built: the tokens of the typical document ---- */

#define INTO b, room, sizeof room, key, key_len

static void ours_fill(struct bsonraw_builder *b, size_t at, size_t end);

static void ours_level(struct bsonraw_builder *b, const struct bsonraw_token *t, const uint8_t *key, size_t key_len) {
    struct bsonraw_builder level;
    bsonraw_append_begin(b, room, sizeof room, t->tag, key, key_len, &level);
    ours_fill(&level, (size_t)(t - tokens) + 1, (size_t)(t - tokens) + 1 + t->inside);
    bsonraw_append_end(b, room, sizeof room, &level);
}

static int64_t integer_at(const uint8_t *payload) {
    int64_t number;
    memcpy(&number, payload, sizeof number);
    return number;
}

static void ours_fill(struct bsonraw_builder *b, size_t at, size_t end) {
    for (; at < end; at += 1 + tokens[at].inside) {
        const struct bsonraw_token *t = tokens + at;
        const uint8_t *key = typical.at + t->key_at, *payload = typical.at + t->payload_at;
        size_t key_len = b->tag == BSONRAW_TAG_ARRAY ? 0 : t->key_len, len = t->payload_len, options;
        double real;
        switch (t->tag) {
        case BSONRAW_TAG_DOUBLE: memcpy(&real, payload, 8); bsonraw_append_double(INTO, real); break;
        case BSONRAW_TAG_STRING: bsonraw_append_utf8(INTO, payload + 4, len - 5); break;
        case BSONRAW_TAG_DOCUMENT:
        case BSONRAW_TAG_ARRAY: ours_level(b, t, key, key_len); break;
        case BSONRAW_TAG_BINARY: bsonraw_append_binary(INTO, payload[4], payload + 5, len - 5); break;
        case BSONRAW_TAG_OBJECT_ID: bsonraw_append_oid(INTO, payload); break;
        case BSONRAW_TAG_BOOLEAN: bsonraw_append_bool(INTO, payload[0]); break;
        case BSONRAW_TAG_DATETIME: bsonraw_append_date_time(INTO, integer_at(payload)); break;
        case BSONRAW_TAG_NULL: bsonraw_append_null(INTO); break;
        case BSONRAW_TAG_REGEX:
            options = strlen((const char *)payload) + 1;
            bsonraw_append_regex(INTO, payload, options - 1, payload + options, len - options - 1);
            break;
        case BSONRAW_TAG_INT32: bsonraw_append_int32(INTO, (int32_t)integer_at(payload)); break;
        case BSONRAW_TAG_TIMESTAMP: bsonraw_append_timestamp(INTO, (uint32_t)(integer_at(payload) >> 32), (uint32_t)integer_at(payload)); break;
        case BSONRAW_TAG_INT64: bsonraw_append_int64(INTO, integer_at(payload)); break;
        case BSONRAW_TAG_DECIMAL128: bsonraw_append_decimal128(INTO, payload); break;
        default: wants(false, "a kind of the typical document");
        }
    }
}

PAIR(ours_build) {
    struct bsonraw_builder b;
    bsonraw_builder_begin(&b, room, sizeof room);
    ours_fill(&b, 0, token_count);
    wants(bsonraw_builder_end(&b, room, sizeof room) == BSONRAW_OK && b.len == typical.len, "bsonraw_builder_end");
}

#define TO to, key, key_len

static void theirs_fill(bson_t *to, size_t at, size_t end, bool in_array);

static void theirs_level(bson_t *to, const struct bsonraw_token *t, const char *key, int key_len) {
    bson_t level;
    bool is_array = t->tag == BSONRAW_TAG_ARRAY;
    (void)(is_array ? bson_append_array_begin(TO, &level) : bson_append_document_begin(TO, &level));
    theirs_fill(&level, (size_t)(t - tokens) + 1, (size_t)(t - tokens) + 1 + t->inside, is_array);
    (void)(is_array ? bson_append_array_end(to, &level) : bson_append_document_end(to, &level));
}

static void theirs_fill(bson_t *to, size_t at, size_t end, bool in_array) {
    for (uint32_t number = 0; at < end; at += 1 + tokens[at].inside, number++) {
        const struct bsonraw_token *t = tokens + at;
        const char *key = (const char *)typical.at + t->key_at, *text = (const char *)typical.at + t->payload_at;
        const uint8_t *payload = typical.at + t->payload_at;
        int key_len = (int)t->key_len, len = (int)t->payload_len;
        char digits[16];
        double real;
        bson_oid_t oid;
        bson_decimal128_t decimal;
        if (in_array) key_len = (int)bson_uint32_to_string(number, &key, digits, sizeof digits);
        switch (t->tag) {
        case BSONRAW_TAG_DOUBLE: memcpy(&real, payload, 8); bson_append_double(TO, real); break;
        case BSONRAW_TAG_STRING: bson_append_utf8(TO, text + 4, len - 5); break;
        case BSONRAW_TAG_DOCUMENT:
        case BSONRAW_TAG_ARRAY: theirs_level(to, t, key, key_len); break;
        case BSONRAW_TAG_BINARY: bson_append_binary(TO, (bson_subtype_t)payload[4], payload + 5, (uint32_t)len - 5); break;
        case BSONRAW_TAG_OBJECT_ID: memcpy(oid.bytes, payload, 12); bson_append_oid(TO, &oid); break;
        case BSONRAW_TAG_BOOLEAN: bson_append_bool(TO, payload[0]); break;
        case BSONRAW_TAG_DATETIME: bson_append_date_time(TO, integer_at(payload)); break;
        case BSONRAW_TAG_NULL: bson_append_null(TO); break;
        case BSONRAW_TAG_REGEX: bson_append_regex(TO, text, text + strlen(text) + 1); break;
        case BSONRAW_TAG_INT32: bson_append_int32(TO, (int32_t)integer_at(payload)); break;
        case BSONRAW_TAG_TIMESTAMP: bson_append_timestamp(TO, (uint32_t)(integer_at(payload) >> 32), (uint32_t)integer_at(payload)); break;
        case BSONRAW_TAG_INT64: bson_append_int64(TO, integer_at(payload)); break;
        case BSONRAW_TAG_DECIMAL128: memcpy(&decimal, payload, 16); bson_append_decimal128(TO, &decimal); break;
        default: wants(false, "a kind of the typical document");
        }
    }
}

PAIR(theirs_build) {
    bson_t to;
    bson_init(&to);
    theirs_fill(&to, 0, token_count, false);
    wants(to.len == typical.len, "bson_append");
    bson_destroy(&to);
}

/* ---- whole documents ---- */

PAIR(ours_check) { wants(bsonraw_check(typical.at, typical.len, ALL, ALL, &report, NULL, 0) == BSONRAW_OK, "bsonraw_check"); }
PAIR(theirs_check) {
    bson_t viewed = view(typical);
    wants(bson_validate(&viewed, BSON_VALIDATE_UTF8, NULL), "bson_validate");
}

static size_t print(uint32_t is_canonical, uint8_t *to, size_t len) {
    wants(bsonraw_json(typical.at, typical.len, ALL, ALL, is_canonical, 0, to, len, &report, NULL, 0) == BSONRAW_OK, "bsonraw_json");
    return (size_t)report.count;
}

static void theirs_print(char *as_json(const bson_t *, size_t *)) {
    bson_t viewed = view(typical);
    char *text = as_json(&viewed, NULL);
    wants(text != NULL, "bson_as_.._extended_json");
    bson_free(text);
}

PAIR(ours_json) { print(0, room, sizeof room); }
PAIR(theirs_json) { theirs_print(bson_as_relaxed_extended_json); }
PAIR(ours_json_canonical) { print(1, room, sizeof room); }
PAIR(theirs_json_canonical) { theirs_print(bson_as_canonical_extended_json); }

static void ours_read(struct bytes text) {
    struct bsonraw_json_report found;
    wants(bsonraw_from_json(text.at, text.len, ALL, 500, room, sizeof room, &found) == BSONRAW_OK, "bsonraw_from_json");
}

static void theirs_read(struct bytes text) {
    bson_t *read = bson_new_from_json(text.at, (ssize_t)text.len, NULL);
    wants(read != NULL, "bson_new_from_json");
    bson_destroy(read);
}

PAIR(ours_from_relaxed) { ours_read(relaxed); }
PAIR(theirs_from_relaxed) { theirs_read(relaxed); }
PAIR(ours_from_canonical) { ours_read(canonical); }
PAIR(theirs_from_canonical) { theirs_read(canonical); }

/* ---- four fields of nine, in 2,000 documents ---- */

static const char *const names[FIELDS] = {"_id", "name", "email", "age", "city", "score", "active", "seen", "note"};
static const int spread[WANTED] = {1, 3, 5, 7};

static void ours_fields(const struct bytes *from) {
    static struct bsonraw_field fields[WANTED] = {BSONRAW_FIELD("name"), BSONRAW_FIELD("age"), BSONRAW_FIELD("score"), BSONRAW_FIELD("seen")};
    for (int i = 0; i < MANY; i++) {
        wants(bsonraw_find_many(from[i].at, from[i].len, fields, WANTED) == BSONRAW_OK, "bsonraw_find_many");
        sum += fields[0].value.text_len + fields[1].value.integer + (int64_t)fields[2].value.bits + fields[3].value.integer;
    }
}

static int64_t theirs_value(const bson_iter_t *it) {
    uint32_t len;
    double real;
    int64_t bits;
    switch (bson_iter_type(it)) {
    case BSON_TYPE_UTF8: bson_iter_utf8(it, &len); return len;
    case BSON_TYPE_INT32: return bson_iter_int32(it);
    case BSON_TYPE_DATE_TIME: return bson_iter_date_time(it);
    case BSON_TYPE_DOUBLE: real = bson_iter_double(it); memcpy(&bits, &real, 8); return bits;
    default: return 0;
    }
}

static void theirs_fields(const struct bytes *from) {
    for (int i = 0; i < MANY; i++) {
        bson_t viewed = view(from[i]);
        for (int field = 0; field < WANTED; field++) {
            bson_iter_t it;
            wants(bson_iter_init_find(&it, &viewed, names[spread[field]]), "bson_iter_init_find");
            sum += theirs_value(&it);
        }
    }
}

/* A walk that compares each key, up to the last field. */
static void theirs_by_hand(const struct bytes *from) {
    for (int i = 0; i < MANY; i++) {
        bson_t viewed = view(from[i]);
        bson_iter_t it;
        int left = WANTED;
        wants(bson_iter_init(&it, &viewed), "bson_iter_init");
        while (left > 0 && bson_iter_next(&it)) {
            const char *key = bson_iter_key(&it);
            for (int field = 0; field < WANTED; field++) {
                if (strcmp(key, names[spread[field]]) != 0) continue;
                sum += theirs_value(&it);
                left--;
                break;
            }
        }
        wants(left == 0, "bson_iter_next");
    }
}

PAIR(ours_fields_looked_up) { ours_fields(records); }
PAIR(theirs_fields_looked_up) { theirs_fields(records); }
PAIR(ours_fields_by_hand) { ours_fields(records); }
PAIR(theirs_fields_by_hand) { theirs_by_hand(records); }
PAIR(ours_first_fields) { ours_fields(firsts); }
PAIR(theirs_first_fields) { theirs_by_hand(firsts); }

/* ---- a buffer for 100 documents ---- */

PAIR(ours_buffer) {
    struct bsonraw_buffer b;
    bsonraw_buffer_init(&b);
    for (int i = 0; i < BUILT; i++) {
        bsonraw_buffer_reset(&b);
        bsonraw_buffer_int32(&b, "_id", i);
        bsonraw_buffer_utf8(&b, "name", "Emmy Noether");
        bsonraw_buffer_double(&b, "score", i);
        bsonraw_buffer_bool(&b, "on", i & 1);
        wants(bsonraw_buffer_finish(&b) == BSONRAW_OK, "bsonraw_buffer_finish");
        sum += (int64_t)b.len;
    }
    bsonraw_buffer_free(&b);
}

PAIR(theirs_buffer) {
    bson_t b = BSON_INITIALIZER;
    for (int i = 0; i < BUILT; i++) {
        bson_reinit(&b);
        bson_append_int32(&b, "_id", -1, i);
        bson_append_utf8(&b, "name", -1, "Emmy Noether", -1);
        bson_append_double(&b, "score", -1, i);
        bson_append_bool(&b, "on", -1, i & 1);
        sum += b.len;
    }
    bson_destroy(&b);
}

/* ---- what they are given ---- */

static struct bytes copy(const uint8_t *at, size_t len) {
    struct bytes copied = {malloc(len + 1), len};
    wants(copied.at != NULL, "malloc");
    memcpy(copied.at, at, len);
    return copied;
}

static struct bytes read_document(const char *folder, const char *name) {
    char file_name[512];
    static uint8_t read[1 << 20];
    snprintf(file_name, sizeof file_name, "%s/%s.bson", folder, name);
    FILE *file = fopen(file_name, "rb");
    wants(file != NULL, file_name);
    size_t len = fread(read, 1, sizeof read, file);
    fclose(file);
    return copy(read, len);
}

static void append_field(bson_t *to, int field, int i) {
    char text[64];
    snprintf(text, sizeof text, "%s of %d", names[field], i);
    switch (field) {
    case 0: bson_append_int64(to, names[field], -1, i); break;
    case 3: bson_append_int32(to, names[field], -1, i % 90); break;
    case 5: bson_append_double(to, names[field], -1, i / 7.0); break;
    case 6: bson_append_bool(to, names[field], -1, i & 1); break;
    case 7: bson_append_date_time(to, names[field], -1, 1420070400000 + i); break;
    default: bson_append_utf8(to, names[field], -1, text, -1);
    }
}

/* Nine fields in order, and with the four first. */
static void make_records(void) {
    static const int first[FIELDS] = {1, 3, 5, 7, 0, 2, 4, 6, 8};
    for (int i = 0; i < MANY; i++) {
        bson_t one = BSON_INITIALIZER, other = BSON_INITIALIZER;
        for (int field = 0; field < FIELDS; field++) {
            append_field(&one, field, i);
            append_field(&other, first[field], i);
        }
        records[i] = copy(bson_get_data(&one), one.len);
        firsts[i] = copy(bson_get_data(&other), other.len);
        bson_destroy(&one);
        bson_destroy(&other);
    }
}

static void make_wide(void) {
    bson_t to = BSON_INITIALIZER;
    for (int i = 0; i < 1000; i++) {
        char key[32];
        snprintf(key, sizeof key, "ключ%04d", i);
        bson_append_int32(&to, key, -1, i);
    }
    wide = copy(bson_get_data(&to), to.len);
    bson_destroy(&to);
}

static void prepare(const char *folder) {
    typical = read_document(folder, "typical");
    shorts = read_document(folder, "flat_wide");
    wants(bsonraw_flatten(typical.at, typical.len, ALL, ALL, tokens, 256, &report, NULL, 0) == BSONRAW_OK, "bsonraw_flatten");
    token_count = (size_t)report.count;
    relaxed = copy(room, print(0, room, sizeof room));
    canonical = copy(room, print(1, room, sizeof room));
    make_wide();
    make_records();
}

/* Both find the same fields. */
static void compare_fields(void) {
    int64_t ours, theirs;
    sum = 0;
    ours_fields(records);
    ours_fields(firsts);
    ours = sum;
    sum = 0;
    theirs_fields(records);
    theirs_by_hand(firsts);
    theirs = sum;
    wants(ours == theirs, "bsonraw_find_many");
}

/* ---- how they are measured ---- */

static const struct pair {
    const char *name;
    void (*each[2])(void);
} pairs[] = {
    {"next", {ours_next, theirs_next}},
    {"next_short", {ours_next_short, theirs_next_short}},
    {"many", {ours_many, theirs_many}},
    {"many_short", {ours_many_short, theirs_many_short}},
    {"next_wide", {ours_next_wide, theirs_next_wide}},
    {"find", {ours_find, theirs_find}},
    {"build", {ours_build, theirs_build}},
    {"check", {ours_check, theirs_check}},
    {"json", {ours_json, theirs_json}},
    {"json_canonical", {ours_json_canonical, theirs_json_canonical}},
    {"from_relaxed", {ours_from_relaxed, theirs_from_relaxed}},
    {"from_canonical", {ours_from_canonical, theirs_from_canonical}},
    {"fields_looked_up", {ours_fields_looked_up, theirs_fields_looked_up}},
    {"fields_by_hand", {ours_fields_by_hand, theirs_fields_by_hand}},
    {"first_fields", {ours_first_fields, theirs_first_fields}},
    {"buffer", {ours_buffer, theirs_buffer}},
};

static void measure(const struct pair *pair) {
    double least[2], calls[2];
    for (int side = 0; side < 2; side++) {
        least[side] = time_of(pair->each[side], 1);
        calls[side] = least[side] < SAMPLE ? 1 + (double)(long)(SAMPLE / (least[side] + 1)) : 1;
    }
    for (int sample = 0; sample < SAMPLES; sample++)
        for (int side = 0; side < 2; side++) {
            double each = time_of(pair->each[side], calls[side]);
            if (each < least[side]) least[side] = each;
        }
    printf("%s\t%.1f\t%.1f\n", pair->name, least[0], least[1]);
}

int main(int argc, char **argv) {
    bool is_clock = argc == 3 && strcmp(argv[2], "clock") == 0;
    if (!is_clock && (argc != 3 || strcmp(argv[2], "once") != 0)) {
        fprintf(stderr, "usage: beside DATA once|clock\n");
        return 2;
    }
    prepare(argv[1]);
    if (is_clock) compare_fields();
    for (size_t i = 0; i < sizeof pairs / sizeof *pairs; i++)
        if (is_clock) measure(pairs + i);
        else for (int side = 0; side < 2; side++) pairs[i].each[side]();
    return 0;
}
