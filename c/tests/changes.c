/* Changes by path: what they make of documents that are written as JSON, what is refused, and random ones beside a slow copy that looks
 * at each change for each element. */
#include "documents.h"

#include <stdio.h>
#include <stdlib.h>
#include <string.h>

static void is(int64_t number, int64_t wanted, const char *name) {
    expect(number == wanted, name, "another number");
}

/* The document that a text writes. */
static size_t document_of(const char *json, uint8_t *room, size_t room_len) {
    struct bsonraw_json_report r;
    expect(bsonraw_from_json(BSONRAW_STR(json), SIZE_MAX, 500, room, room_len, &r) == BSONRAW_OK, json, "it isn't read");
    return (size_t)r.count;
}

/* What changes make of a document: this status, and with BSONRAW_OK the document of this text. */
static void makes(const char *json, struct bsonraw_change *changes, size_t count, int32_t status, const char *wanted) {
    uint8_t bytes[1024], whole[1024];
    struct bsonraw_buffer b;
    size_t len = document_of(json, bytes, sizeof bytes), whole_len = wanted == NULL ? 0 : document_of(wanted, whole, sizeof whole);
    bsonraw_buffer_init(&b);
    is(bsonraw_buffer_edit(&b, bytes, len, changes, count), status, json);
    is(bsonraw_buffer_finish(&b), status, json);
    if (wanted != NULL) expect(b.len == whole_len && memcmp(b.bytes, whole, b.len) == 0, json, wanted);
    bsonraw_buffer_free(&b);
}

#define CUSTOMER "{\"name\": \"Emmy\", \"customer\": {\"ssn\": \"1882\", \"born\": 1882}, \"tags\": [\"x\", {\"y\": 1}, true], \"n\": null}"

static void look_at_changes(void) {
    struct bsonraw_change c[4];
    c[0] = bsonraw_change_remove("customer.ssn");
    makes(CUSTOMER, c, 1, BSONRAW_OK, "{\"name\": \"Emmy\", \"customer\": {\"born\": 1882}, \"tags\": [\"x\", {\"y\": 1}, true], \"n\": null}");
    is((int64_t)c[0].count, 1, "a number that is left out");
    c[0] = bsonraw_change_remove("customer.snn");
    makes(CUSTOMER, c, 1, BSONRAW_OK, CUSTOMER);
    is((int64_t)c[0].count, 0, "a path to nothing");
    c[0].count = 9;
    makes(CUSTOMER, c, 1, BSONRAW_OK, CUSTOMER);
    is((int64_t)c[0].count, 0, "a path to nothing, once more");
    c[0] = bsonraw_change_rename("customer.ssn", "id");
    c[1] = bsonraw_change_int64("tags.1.y", 5000000000);
    c[2] = bsonraw_change_remove("n");
    c[3] = bsonraw_change_rename("name", "first name");
    makes(CUSTOMER, c, 4, BSONRAW_OK,
          "{\"first name\": \"Emmy\", \"customer\": {\"id\": \"1882\", \"born\": 1882}, \"tags\": [\"x\", {\"y\": 5000000000}, true]}");
    is((int64_t)(c[0].count + c[1].count + c[2].count + c[3].count), 4, "four changes");
    c[0] = bsonraw_change_remove("tags.0");
    c[1] = bsonraw_change_utf8("tags.3", "new");
    c[2] = bsonraw_change_null("tags.4");
    makes(CUSTOMER, c, 3, BSONRAW_OK,
          "{\"name\": \"Emmy\", \"customer\": {\"ssn\": \"1882\", \"born\": 1882}, \"tags\": [{\"y\": 1}, true, \"new\", null], \"n\": null}");
    c[0] = bsonraw_change_bool("z.b.a", 7);
    c[1] = bsonraw_change_double("a", 1.5);
    c[2] = bsonraw_change_date_time("z.a", 1);
    c[3] = bsonraw_change_int32("z.b.c", -1);
    makes("{\"m\": 0}", c, 4, BSONRAW_OK, "{\"m\": 0, \"z\": {\"b\": {\"a\": true, \"c\": -1}, \"a\": {\"$date\": {\"$numberLong\": \"1\"}}}, \"a\": 1.5}");
    is((int64_t)(c[0].count + c[1].count + c[2].count + c[3].count), 4, "four new values");
    c[0] = bsonraw_change_value("", BSONRAW_TAG_DOCUMENT, "\5\0\0\0", 5, NULL, 0);
    c[1] = bsonraw_change_value("r", BSONRAW_TAG_REGEX, "^a", 2, "i", 1);
    makes("{\"\": 0}", c, 2, BSONRAW_OK, "{\"\": {}, \"r\": {\"$regularExpression\": {\"pattern\": \"^a\", \"options\": \"i\"}}}");
    makes("{\"\": 0}", NULL, 0, BSONRAW_OK, "{\"\": 0}");
}

/* Keys that repeat, and levels that do. */
static void look_at_repeated(void) {
    struct bsonraw_change c[2];
    c[0] = bsonraw_change_int32("a", 7);
    c[1] = bsonraw_change_remove("b.x");
    makes("{\"a\": 1, \"b\": {\"x\": 1}, \"a\": \"two\", \"b\": {\"x\": 2, \"y\": 3, \"x\": 4}}", c, 2, BSONRAW_OK,
          "{\"a\": 7, \"b\": {}, \"a\": 7, \"b\": {\"y\": 3}}");
    is((int64_t)c[0].count, 2, "both values");
    is((int64_t)c[1].count, 3, "what is left out of both levels");
    c[0] = bsonraw_change_rename("a", "b");
    c[1] = bsonraw_change_null("b.n");
    makes("{\"a\": 1, \"b\": {}, \"a\": 2, \"b\": {\"n\": 3}}", c, 2, BSONRAW_OK, "{\"b\": 1, \"b\": {\"n\": null}, \"b\": 2, \"b\": {\"n\": null}}");
}

static void look_at_refusals(void) {
    static const uint8_t bad_text[] = "\16\0\0\0\2a\0\2\0\0\0\377\0", stop[] = "\20\0\0\0\3a\0\10\0\0\0\31x\0\0";
    struct bsonraw_change c[2];
    struct bsonraw_buffer b;
    struct bsonraw_iter it;
    c[0] = bsonraw_change_int32("a.b", 1);
    makes("{\"a\": 1}", c, 1, BSONRAW_OTHER_KIND, NULL);
    c[0] = bsonraw_change_remove("a.b");
    makes("{\"a\": 1}", c, 1, BSONRAW_OK, "{\"a\": 1}");
    c[0] = bsonraw_change_int32("a.2", 1);
    makes("{\"a\": [0]}", c, 1, BSONRAW_BAD_OFFSET, NULL);
    c[0] = bsonraw_change_int32("a.01", 1);
    makes("{\"a\": [0]}", c, 1, BSONRAW_BAD_OFFSET, NULL);
    c[0] = bsonraw_change_rename("a.0", "b");
    makes("{\"a\": [0]}", c, 1, BSONRAW_MISUSE, NULL);
    c[0] = bsonraw_change_remove("a"), c[1] = bsonraw_change_int32("a.b", 1);
    makes("{\"a\": 1}", c, 2, BSONRAW_MISUSE, NULL);
    c[0] = bsonraw_change_int32("a.b", 1), c[1] = bsonraw_change_remove("a.b");
    makes("{\"x\": 1}", c, 2, BSONRAW_MISUSE, NULL);
    c[0] = bsonraw_change_remove("a"), c[1] = bsonraw_change_remove("a-b");
    makes("{\"a\": 1, \"a-b\": 2, \"ab\": 3}", c, 2, BSONRAW_OK, "{\"ab\": 3}");
    c[0] = bsonraw_change_remove(NULL);
    makes("{\"x\": 1}", c, 1, BSONRAW_NULL, NULL);
    c[0] = bsonraw_change_rename("x", NULL);
    makes("{\"x\": 1}", c, 1, BSONRAW_NULL, NULL);
    c[0] = bsonraw_change_utf8("x", NULL);
    makes("{\"x\": 1}", c, 1, BSONRAW_NULL, NULL);
    c[0] = bsonraw_change_utf8("x", "\xff");
    makes("{\"x\": 1}", c, 1, BSONRAW_FAULT, NULL);
    c[0] = bsonraw_change_rename("x", "\xff");
    makes("{\"x\": 1}", c, 1, BSONRAW_FAULT, NULL);
    memset(c, 0, sizeof c);
    c[0].path = "x";
    makes("{\"x\": 1}", c, 1, BSONRAW_OTHER_KIND, NULL);
    c[0] = bsonraw_change_remove("x");
    bsonraw_buffer_init(&b);
    is(bsonraw_buffer_edit(&b, NULL, 5, c, 1), BSONRAW_NULL, "bytes of NULL");
    bsonraw_buffer_reset(&b);
    is(bsonraw_buffer_edit(&b, stop, sizeof stop, NULL, 1), BSONRAW_NULL, "changes of NULL");
    bsonraw_buffer_reset(&b);
    is(bsonraw_buffer_edit(&b, NULL, 0, c, 1), BSONRAW_NO_DOCUMENT, "no bytes");
    bsonraw_buffer_reset(&b);
    is(bsonraw_buffer_edit(&b, stop, sizeof stop, c, 1), BSONRAW_OK, "a stop in a level that no path goes through");
    bsonraw_buffer_reset(&b);
    c[0] = bsonraw_change_remove("a.x");
    is(bsonraw_buffer_edit(&b, stop, sizeof stop, c, 1), BSONRAW_FAULT, "a stop in a level that is gone into");
    bsonraw_buffer_reset(&b);
    c[0] = bsonraw_change_rename("a", "b");
    is(bsonraw_buffer_edit(&b, bad_text, sizeof bad_text, c, 1), BSONRAW_FAULT, "a value with a fault gets another key");
    bsonraw_buffer_reset(&b);
    c[0] = bsonraw_change_remove("b");
    is(bsonraw_buffer_edit(&b, bad_text, sizeof bad_text, c, 1), BSONRAW_OK, "a value with a fault is copied");
    is(bsonraw_buffer_finish(&b), BSONRAW_OK, "a value with a fault is copied");
    expect(b.len == sizeof bad_text && memcmp(b.bytes, bad_text, b.len) == 0, "a value with a fault is copied", "other bytes");
    is(bsonraw_buffer_edit(&b, bad_text, sizeof bad_text, c, 1), BSONRAW_MISUSE, "a document that is finished");
    bsonraw_buffer_free(&b);
    is(bsonraw_iter_init_find(&it, bad_text, sizeof bad_text, BSONRAW_KEY("a")), BSONRAW_OK, "an element");
    is(bsonraw_change_iter("x", &it, bad_text, sizeof bad_text).status, BSONRAW_FAULT, "a value with a fault");
    is(bsonraw_change_iter("x", NULL, bad_text, sizeof bad_text).status, BSONRAW_NULL, "no cursor");
    is(bsonraw_change_value("x", BSONRAW_TAG_BINARY, NULL, 1, "", 1).status, BSONRAW_NULL, "a part of NULL");
    is(bsonraw_buffer_edit(NULL, bad_text, sizeof bad_text, c, 1), BSONRAW_NULL, "no buffer");
}

#define KINDS \
    "{\"d\": 1.5, \"s\": \"a\\u0000b\", \"o\": {\"x\": 1}, \"l\": [1, 2], \"b\": {\"$binary\": {\"base64\": \"eHk=\", \"subType\": \"80\"}}, " \
    "\"B\": {\"$binary\": {\"base64\": \"eHk=\", \"subType\": \"02\"}}, \"u\": {\"$undefined\": true}, \"i\": {\"$oid\": \"6162636465666768696a6b6c\"}, " \
    "\"f\": false, \"t\": {\"$date\": {\"$numberLong\": \"-1\"}}, \"n\": null, \"r\": {\"$regularExpression\": {\"pattern\": \"^a\", \"options\": \"im\"}}, " \
    "\"p\": {\"$dbPointer\": {\"$ref\": \"ns\", \"$id\": {\"$oid\": \"6162636465666768696a6b6c\"}}}, \"c\": {\"$code\": \"f\"}, \"y\": {\"$symbol\": \"z\"}, " \
    "\"w\": {\"$code\": \"f\", \"$scope\": {\"x\": 1}}, \"3\": 3, \"T\": {\"$timestamp\": {\"t\": 1, \"i\": 2}}, \"L\": {\"$numberLong\": \"5\"}, " \
    "\"D\": {\"$numberDecimal\": \"1.5\"}, \"+\": {\"$maxKey\": 1}, \"-\": {\"$minKey\": 1}}"

/* A value of each kind gets another key, and is copied by a cursor to another document. */
static void look_at_kinds(void) {
    uint8_t bytes[1024];
    size_t len = document_of(KINDS, bytes, sizeof bytes);
    struct bsonraw_buffer all, one;
    struct bsonraw_iter it, found;
    struct bsonraw_change c[1];
    int32_t status = bsonraw_iter_init(&it, bytes, len);
    bsonraw_buffer_init(&all);
    bsonraw_buffer_init(&one);
    while (status == BSONRAW_OK && (status = bsonraw_iter_next(&it, bytes, len)) == BSONRAW_OK) {
        const char *key = bsonraw_iter_key(&it, bytes, len);
        bsonraw_buffer_reset(&one);
        c[0] = bsonraw_change_rename(key, "another key");
        bsonraw_buffer_edit(&one, bytes, len, c, 1);
        is(bsonraw_buffer_finish(&one), BSONRAW_OK, key);
        is((int64_t)one.len, (int64_t)len + 10, key);
        is(bsonraw_iter_init_find(&found, one.bytes, one.len, BSONRAW_KEY("another key")), BSONRAW_OK, key);
        expect(found.tag == it.tag && found.payload_len == it.payload_len && memcmp(one.bytes + found.payload_at, bytes + it.payload_at, it.payload_len) == 0,
               key, "another value");
        c[0] = bsonraw_change_iter(key, &found, one.bytes, one.len);
        bsonraw_buffer_edit(&all, BSONRAW_KEY("\5\0\0\0\0"), c, 1);
    }
    is(bsonraw_buffer_finish(&all), BSONRAW_OK, "all kinds");
    expect(all.len == len && memcmp(all.bytes, bytes, len) == 0, "all kinds", "another document");
    bsonraw_buffer_free(&all);
    bsonraw_buffer_free(&one);
}

/* ---- beside a slow copy ---- */

static uint32_t any(uint32_t below) {
    static uint64_t state = 42;
    state = state * 6364136223846793005u + 1442695040888963407u;
    return (uint32_t)(state >> 33) % below;
}

static const char *const keys[] = {"a", "b", "ab", "a-", "", "0", "1", "\303\251"};

/* Elements of any kind, which hold others down to this many levels. */
static void fill(struct bsonraw_buffer *b, int levels, int is_array) {
    uint32_t count = any(5);
    while (count-- > 0) {
        const char *key = is_array ? NULL : keys[any(8)];
        uint32_t kind = any(levels > 0 ? 6 : 3);
        if (kind == 0) bsonraw_buffer_int32(b, key, (int32_t)any(100));
        else if (kind == 1) bsonraw_buffer_utf8(b, key, keys[any(8)]);
        else if (kind == 2) bsonraw_buffer_null(b, key);
        else if (kind < 5) bsonraw_buffer_begin_document(b, key), fill(b, levels - 1, 0), bsonraw_buffer_end(b);
        else bsonraw_buffer_begin_array(b, key), fill(b, levels - 1, 1), bsonraw_buffer_end(b);
    }
}

/* Whether a path begins with this one and a step more: what is after that, or NULL. */
static const char *rest_of(const char *path, const char *front, const char *step) {
    size_t front_len = strlen(front), len = strlen(step);
    if (strncmp(path, front, front_len) != 0 || strncmp(path + front_len, step, len) != 0) return NULL;
    path += front_len + len;
    return *path == 0 || *path == '.' ? path : NULL;
}

struct slow {
    struct bsonraw_change *changes;
    size_t count;
    int has_end; /* a status that a change ends with */
};

static void slow_new(struct slow *s, struct bsonraw_buffer *b, const char *front, uint64_t number, int is_array, const int *is_met);

/* Copies a level, whose path begins so, with a look at each change for each element. */
static void slow_level(struct slow *s, struct bsonraw_buffer *b, const uint8_t *bytes, size_t len, const char *front, int is_array) {
    struct bsonraw_iter it;
    uint64_t number = 0;
    int is_met[8] = {0, 0, 0, 0, 0, 0, 0, 0};
    int32_t status = bsonraw_iter_init(&it, bytes, len);
    while (status == BSONRAW_OK && (status = bsonraw_iter_next(&it, bytes, len)) == BSONRAW_OK) {
        const uint8_t *part = bytes + it.payload_at;
        const char *key = bsonraw_iter_key(&it, bytes, len), *step = key;
        char decimal[24], path[256];
        size_t at, through = 0, sets = 0;
        struct bsonraw_change *change = NULL;
        if (is_array) snprintf(decimal, sizeof decimal, "%u", (unsigned)number), step = decimal, key = NULL;
        number++;
        for (at = 0; at < s->count; at++) {
            const char *rest = rest_of(s->changes[at].path, front, step);
            if (rest == NULL) continue;
            is_met[at] = 1;
            if (*rest == 0) change = &s->changes[at];
            else through++, sets += s->changes[at].kind == BSONRAW_CHANGE_SET;
        }
        snprintf(path, sizeof path, "%s%s.", front, step);
        if (change != NULL && change->kind == BSONRAW_CHANGE_SET) bsonraw_buffer_int32(b, key, (int32_t)(change - s->changes));
        else if (change != NULL && change->kind == BSONRAW_CHANGE_RENAME && is_array) s->has_end = 1;
        else if (change != NULL && change->kind == BSONRAW_CHANGE_RENAME && it.tag == BSONRAW_TAG_DOCUMENT) bsonraw_buffer_document(b, "new", part, it.payload_len);
        else if (change != NULL && change->kind == BSONRAW_CHANGE_RENAME && it.tag == BSONRAW_TAG_ARRAY) bsonraw_buffer_array(b, "new", part, it.payload_len);
        else if (change != NULL && change->kind == BSONRAW_CHANGE_RENAME && it.tag == BSONRAW_TAG_STRING) bsonraw_buffer_text(b, "new", (const char *)part + 4, it.payload_len - 5);
        else if (change != NULL && change->kind == BSONRAW_CHANGE_RENAME) bsonraw_buffer_append(b, it.tag, "new", part, it.payload_len, NULL, 0);
        else if (change != NULL) continue;
        else if (through > 0 && (it.tag == BSONRAW_TAG_DOCUMENT || it.tag == BSONRAW_TAG_ARRAY)) {
            int is_inner = it.tag == BSONRAW_TAG_ARRAY;
            if (is_inner) bsonraw_buffer_begin_array(b, key);
            else bsonraw_buffer_begin_document(b, key);
            slow_level(s, b, part, it.payload_len, path, is_inner);
            bsonraw_buffer_end(b);
        } else if (sets > 0) s->has_end = 1;
        else bsonraw_buffer_iter(b, &it, bytes, len);
    }
    slow_new(s, b, front, number, is_array, is_met);
}

/* Appends the values whose paths begin so, and that no element was met for. */
static void slow_new(struct slow *s, struct bsonraw_buffer *b, const char *front, uint64_t number, int is_array, const int *is_met) {
    static const int none[8];
    size_t at, other, front_len = strlen(front);
    int done[8] = {0, 0, 0, 0, 0, 0, 0, 0};
    for (at = 0; at < s->count; at++) {
        char step[64], path[256], decimal[24];
        if (s->changes[at].kind != BSONRAW_CHANGE_SET || is_met[at] || done[at] || strncmp(s->changes[at].path, front, front_len) != 0) continue;
        snprintf(step, sizeof step, "%s", s->changes[at].path + front_len);
        if (strchr(step, '.') != NULL) *strchr(step, '.') = 0;
        snprintf(path, sizeof path, "%s%s.", front, step);
        snprintf(decimal, sizeof decimal, "%u", (unsigned)number++);
        if (is_array && strcmp(step, decimal) != 0) s->has_end = 1;
        for (other = 0; other < s->count; other++) done[other] |= rest_of(s->changes[other].path, front, step) != NULL;
        if (*rest_of(s->changes[at].path, front, step) == 0) {
            bsonraw_buffer_int32(b, is_array ? NULL : step, (int32_t)at);
        } else {
            bsonraw_buffer_begin_document(b, is_array ? NULL : step);
            slow_new(s, b, path, 0, 0, none);
            bsonraw_buffer_end(b);
        }
    }
}

/* Whether two paths are one, or one goes on after the other. */
static int is_conflict(const char *one, const char *other) {
    return rest_of(one, "", other) != NULL || rest_of(other, "", one) != NULL;
}

static void look_at_any(void) {
    struct bsonraw_buffer document, fast, slow;
    int turn, good = 0, ended = 0, conflicts = 0;
    bsonraw_buffer_init(&document);
    bsonraw_buffer_init(&fast);
    bsonraw_buffer_init(&slow);
    for (turn = 0; turn < 60000; turn++) {
        struct bsonraw_change changes[8];
        char paths[8][64];
        size_t count = any(8), at, other, steps;
        struct slow s = {changes, count, 0};
        int has_conflict = 0;
        for (at = 0; at < count; at++) {
            paths[at][0] = 0;
            for (steps = 1 + any(3); steps > 0; steps--) strcat(paths[at], keys[any(8)]), strcat(paths[at], steps > 1 ? "." : "");
            for (other = 0; other < at; other++) has_conflict |= is_conflict(paths[at], paths[other]);
            if (any(3) == 0) changes[at] = bsonraw_change_remove(paths[at]);
            else if (any(3) == 0) changes[at] = bsonraw_change_rename(paths[at], "new");
            else changes[at] = bsonraw_change_int32(paths[at], (int32_t)at);
        }
        bsonraw_buffer_reset(&document), bsonraw_buffer_reset(&fast), bsonraw_buffer_reset(&slow);
        fill(&document, 3, 0);
        is(bsonraw_buffer_finish(&document), BSONRAW_OK, "any document");
        bsonraw_buffer_edit(&fast, document.bytes, document.len, changes, count);
        if (has_conflict) {
            is(bsonraw_buffer_finish(&fast), BSONRAW_MISUSE, "paths that are one");
            conflicts++;
            continue;
        }
        slow_level(&s, &slow, document.bytes, document.len, "", 0);
        if (s.has_end) {
            is(bsonraw_buffer_finish(&fast) != BSONRAW_OK, 1, "a change that ends it");
            ended++;
            continue;
        }
        is(bsonraw_buffer_finish(&slow), BSONRAW_OK, "the slow copy");
        is(bsonraw_buffer_finish(&fast), BSONRAW_OK, "the edited copy");
        expect(fast.len == slow.len && memcmp(fast.bytes, slow.bytes, fast.len) == 0, "any changes", "another document");
        good++;
    }
    expect(good > 10000 && ended > 500 && conflicts > 500, "any changes", "too few of one sort");
    bsonraw_buffer_free(&document);
    bsonraw_buffer_free(&fast);
    bsonraw_buffer_free(&slow);
}

/* As many changes as a document has keys: 200,000 of each, at which the square of it takes minutes. */
static void look_at_many(void) {
    enum { MANY = 200000 };
    char (*names)[16] = needed(MANY * sizeof *names);
    struct bsonraw_change *changes = needed(MANY * sizeof *changes);
    const char **removed = needed(MANY * sizeof *removed);
    struct bsonraw_buffer document, b, wanted;
    int at;
    bsonraw_buffer_init(&document);
    bsonraw_buffer_init(&wanted);
    for (at = 0; at < MANY; at++) snprintf(names[at], sizeof *names, "k%d", at), bsonraw_buffer_int32(&document, names[at], at);
    for (at = 1; at < MANY; at += 2) bsonraw_buffer_int32(&wanted, names[at], MANY - 1 - at);
    is(bsonraw_buffer_finish(&wanted), BSONRAW_OK, "many keys");
    is(bsonraw_buffer_finish(&document), BSONRAW_OK, "many keys");
    for (at = 0; at < MANY; at++) changes[at] = at % 2 ? bsonraw_change_remove(names[MANY - 1 - at]) : bsonraw_change_int32(names[MANY - 1 - at], at), removed[at] = names[at];
    bsonraw_buffer_init(&b);
    bsonraw_buffer_edit(&b, document.bytes, document.len, changes, MANY);
    is(bsonraw_buffer_finish(&b), BSONRAW_OK, "many changes");
    expect(b.len == wanted.len && memcmp(b.bytes, wanted.bytes, b.len) == 0, "many changes", "another document");
    expect(changes[0].count == 1 && changes[MANY - 1].count == 1, "many changes", "another count");
    bsonraw_buffer_reset(&b);
    bsonraw_buffer_copy_without(&b, document.bytes, document.len, removed, MANY);
    is(bsonraw_buffer_finish(&b), BSONRAW_OK, "without many keys");
    is((int64_t)b.len, 5, "without many keys");
    bsonraw_buffer_reset(&b);
    bsonraw_buffer_copy_with(&b, document.bytes, document.len, document.bytes, document.len);
    is(bsonraw_buffer_finish(&b), BSONRAW_OK, "many keys laid over");
    expect(b.len == document.len && memcmp(b.bytes, document.bytes, b.len) == 0, "many keys laid over", "another document");
    bsonraw_buffer_free(&document);
    bsonraw_buffer_free(&b);
    bsonraw_buffer_free(&wanted);
    free(names), free(changes), free(removed);
}

/* A path of many steps takes no stack. */
static void look_at_deep(void) {
    enum { MANY = 300000 };
    char *path = needed(2 * MANY);
    struct bsonraw_change c[1];
    struct bsonraw_buffer b;
    int at;
    for (at = 0; at < MANY; at++) path[2 * at] = 'a', path[2 * at + 1] = '.';
    path[2 * MANY - 1] = 0;
    bsonraw_buffer_init(&b);
    c[0] = bsonraw_change_null(path);
    bsonraw_buffer_edit(&b, BSONRAW_KEY("\5\0\0\0\0"), c, 1);
    is(bsonraw_buffer_finish(&b), BSONRAW_OK, "a path of many steps");
    is((int64_t)b.len, 5 + 8 * (MANY - 1) + 3, "a path of many steps");
    bsonraw_buffer_free(&b);
    free(path);
}

/* The old names: keys may have dots and be there twice, and what is laid over may repeat one. */
static void look_at_old_names(void) {
    static const char *const without[] = {"a.b", "c", "c"};
    uint8_t bytes[64], over[64], wanted[64];
    struct bsonraw_buffer b;
    size_t len = document_of("{\"a.b\": 1, \"a\": {\"b\": 2}, \"c\": 3}", bytes, sizeof bytes), over_len, wanted_len;
    bsonraw_buffer_init(&b);
    bsonraw_buffer_copy_without(&b, bytes, len, without, 3);
    is(bsonraw_buffer_finish(&b), BSONRAW_OK, "without keys");
    wanted_len = document_of("{\"a\": {\"b\": 2}}", wanted, sizeof wanted);
    expect(b.len == wanted_len && memcmp(b.bytes, wanted, b.len) == 0, "without keys", "another document");
    over_len = document_of("{\"x.y\": 1, \"c\": 4, \"x.y\": 2, \"c\": 5}", over, sizeof over);
    bsonraw_buffer_reset(&b);
    bsonraw_buffer_copy_with(&b, bytes, len, over, over_len);
    is(bsonraw_buffer_finish(&b), BSONRAW_OK, "one laid over the other");
    wanted_len = document_of("{\"a.b\": 1, \"a\": {\"b\": 2}, \"c\": 4, \"x.y\": 1, \"x.y\": 2}", wanted, sizeof wanted);
    expect(b.len == wanted_len && memcmp(b.bytes, wanted, b.len) == 0, "one laid over the other", "another document");
    bsonraw_buffer_free(&b);
}

/* Memory that is refused at each request in turn is an error, and none is kept. */
struct limited {
    int left, out;
};

static void *resize(void *context, void *memory, size_t size) {
    struct limited *limited = context;
    if (size == 0) {
        limited->out -= memory != NULL;
        free(memory);
        return NULL;
    }
    if (limited->left-- <= 0) return NULL;
    limited->out += memory == NULL;
    return realloc(memory, size);
}

static void look_at_memory(void) {
    static const char *const without[] = {"a"};
    uint8_t bytes[64];
    size_t len = document_of("{\"a\": {\"b\": 2}, \"c\": 3}", bytes, sizeof bytes);
    struct bsonraw_buffer b;
    struct bsonraw_change c[1];
    int which, requests, refused = 0;
    for (which = 0; which < 3; which++)
        for (requests = 0; requests < 12; requests++) {
            struct limited limited;
            limited.left = requests, limited.out = 0;
            c[0] = bsonraw_change_int32("x.y", 1);
            bsonraw_buffer_init_with(&b, resize, &limited);
            if (which == 0) bsonraw_buffer_edit(&b, bytes, len, c, 1);
            else if (which == 1) bsonraw_buffer_copy_without(&b, bytes, len, without, 1);
            else bsonraw_buffer_copy_with(&b, bytes, len, bytes, len);
            expect(b.status == BSONRAW_OK || b.status == BSONRAW_NO_MEMORY, "memory is refused", "another status");
            refused += b.status == BSONRAW_NO_MEMORY;
            bsonraw_buffer_free(&b);
            is(limited.out, 0, "memory is kept");
        }
    expect(refused > 6 && refused < 30, "memory is refused", "another number of times");
}

int main(void) {
    look_at_changes();
    look_at_repeated();
    look_at_refusals();
    look_at_kinds();
    look_at_any();
    look_at_many();
    look_at_deep();
    look_at_old_names();
    look_at_memory();
    return result("changes");
}
