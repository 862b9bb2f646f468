/* Made and damaged documents beside libbson: which of them each takes, and the elements and values of those that have no fault.
 * Where the two differ, a rule of libbson's says why. */
#include "made.h"

#include <bson/bson.h>
#include <bsonraw.h>

#include <stdio.h>
#include <string.h>

static unsigned long wrong, elements, not_utf8, not_terminated, after_a_code;

static void expect(int is_so, const char *what) {
    size_t i;
    if (is_so || wrong++ >= 5) return;
    fprintf(stderr, "beside: %s of ", what);
    for (i = 0; i < made_len; i++) fprintf(stderr, "%02x", (unsigned)made[i]);
    fputc('\n', stderr);
}

/* Whether a code with scope is before this offset, at some level, or holds it. */
static int is_after_a_code(const struct bsonraw_iter *level, uint64_t offset) {
    struct bsonraw_iter it = *level, child;
    while (bsonraw_iter_next(&it, made, made_len) == BSONRAW_OK && it.key_at <= offset + 1) {
        if (it.tag == BSONRAW_TAG_JAVASCRIPT_WITH_SCOPE) return 1;
        if (bsonraw_iter_recurse(&it, made, made_len, &child) == BSONRAW_OK && is_after_a_code(&child, offset)) return 1;
    }
    return 0;
}

/* Counts the rule of libbson's by which it takes a document with this fault. */
static void explain(const struct bsonraw_iter *whole, const struct bsonraw_error *error) {
    if (error->kind == BSONRAW_NOT_UTF8) not_utf8++; /* it takes it, though it is asked to look at UTF-8 */
    else if (is_after_a_code(whole, error->offset)) after_a_code++; /* it ends its look at a code with scope */
    else if (error->reason == BSONRAW_NESTED_NOT_TERMINATED) not_terminated++; /* it looks for no 0 after a nested document */
    else expect(0, "libbson takes the fault");
}

/* The value of an element beside libbson's. */
static int is_same_value(const bson_iter_t *theirs, const struct bsonraw_value *v) {
    uint32_t size = 0, increment, seconds;
    const uint8_t *data = NULL;
    const char *text, *options;
    bson_subtype_t subtype;
    double real;
    switch (v->tag) {
    case BSONRAW_TAG_DOUBLE: real = bson_iter_double(theirs); return memcmp(&real, &v->bits, 8) == 0;
    case BSONRAW_TAG_INT32: return bson_iter_int32(theirs) == v->integer;
    case BSONRAW_TAG_INT64: return bson_iter_int64(theirs) == v->integer;
    case BSONRAW_TAG_BOOLEAN: return bson_iter_bool(theirs) == (v->integer == 1);
    case BSONRAW_TAG_DATETIME: return bson_iter_date_time(theirs) == v->integer;
    case BSONRAW_TAG_TIMESTAMP: bson_iter_timestamp(theirs, &seconds, &increment); return seconds == v->time && increment == v->increment;
    case BSONRAW_TAG_STRING: text = bson_iter_utf8(theirs, &size); return size == v->text_len && text == (const char *)made + v->text_at;
    case BSONRAW_TAG_SYMBOL: text = bson_iter_symbol(theirs, &size); return size == v->text_len && text == (const char *)made + v->text_at;
    case BSONRAW_TAG_JAVASCRIPT: text = bson_iter_code(theirs, &size); return size == v->text_len && text == (const char *)made + v->text_at;
    case BSONRAW_TAG_OBJECT_ID: return bson_iter_oid(theirs)->bytes == made + v->text_at;
    case BSONRAW_TAG_BINARY:
        bson_iter_binary(theirs, &subtype, &size, &data);
        return size == v->text_len && data == made + v->text_at && (uint32_t)subtype == v->subtype;
    case BSONRAW_TAG_REGEX: text = bson_iter_regex(theirs, &options); return text == (const char *)made + v->text_at && options == (const char *)made + v->more_at;
    default: return 1;
    }
}

/* The elements of a level and of those inside, which have no fault. */
static void compare_level(struct bsonraw_iter ours, bson_iter_t theirs) {
    struct bsonraw_iter child;
    struct bsonraw_value v;
    bson_iter_t inner;
    for (;; elements++) {
        int32_t status = bsonraw_iter_next(&ours, made, made_len);
        bool is_there = bson_iter_next(&theirs);
        expect((status == BSONRAW_OK) == is_there && (is_there || status == BSONRAW_NONE), "the end of a level");
        if (status != BSONRAW_OK || !is_there) return;
        expect((const char *)made + ours.key_at == bson_iter_key(&theirs) && ours.key_len == bson_iter_key_len(&theirs), "a key");
        expect(ours.tag == ((uint32_t)bson_iter_type(&theirs) & 255), "a tag");
        expect(bsonraw_iter_value(&ours, made, made_len, &v) == BSONRAW_OK && is_same_value(&theirs, &v), "a value");
        if (bsonraw_iter_recurse(&ours, made, made_len, &child) != BSONRAW_OK) continue;
        if (bson_iter_recurse(&theirs, &inner)) compare_level(child, inner);
        else expect(0, "a level");
    }
}

static void compare(void) {
    struct bsonraw_report r;
    struct bsonraw_iter ours;
    uint64_t path[1];
    bson_t document;
    bson_iter_t theirs;
    size_t at;
    bool is_one = bson_init_static(&document, made, made_len);
    bool is_taken = is_one && bson_validate(&document, BSON_VALIDATE_UTF8 | BSON_VALIDATE_UTF8_ALLOW_NULL, &at);
    int32_t status = bsonraw_first_fault(made, made_len, MOST, 100, &r, path, 0);
    expect((bsonraw_iter_init(&ours, made, made_len) == BSONRAW_OK) == is_one, "whether it is a document");
    if (status == BSONRAW_FAULT && is_taken) explain(&ours, &r.error);
    if (status != BSONRAW_OK) return;
    expect(is_taken, "libbson refuses what has no fault");
    if (is_one && bson_iter_init(&theirs, &document)) compare_level(ours, theirs);
}

int main(void) {
    int i;
    for (i = 0; i < 100000; i++) {
        make_next();
        compare();
    }
    printf("100000 documents are taken as by libbson, except %lu with a text that isn't UTF-8, %lu after a code with scope and %lu with a "
           "nested document without its 0; %lu elements are the same\n", not_utf8, after_a_code, not_terminated, elements);
    return wrong != 0 || elements == 0;
}
