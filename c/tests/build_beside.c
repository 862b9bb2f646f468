/* 20,000 made documents, of each kind and some levels deep, are the same bytes as libbson builds of the same calls. */
#include <bson/bson.h>
#include <bsonraw.h>

#include <stdio.h>
#include <string.h>

#define DOCUMENTS 20000

static uint8_t room[1 << 20];
static size_t elements;

static uint32_t random_number(uint32_t below) {
    static uint64_t state = 88172645463325252;
    state ^= state << 13;
    state ^= state >> 7;
    state ^= state << 17;
    return (uint32_t)(state >> 16) % below;
}

struct text {
    char bytes[80];
    int len;
};

/* Up to 24 characters, most of them of one byte, and none of them 0. */
static struct text some_text(void) {
    static const char *const wide[] = {"\xc3\xa9", "\xe2\x82\xac", "\xf0\x9f\x8d\x8e"};
    struct text t;
    uint32_t count = random_number(25);
    t.len = 0;
    while (count-- > 0) {
        const char *w = wide[random_number(3)];
        if (random_number(9) == 0) {
            memcpy(t.bytes + t.len, w, strlen(w));
            t.len += (int)strlen(w);
        } else {
            t.bytes[t.len++] = (char)(1 + random_number(127));
        }
    }
    t.bytes[t.len] = 0;
    return t;
}

#define OURS(t) (const uint8_t *)(t).bytes, (size_t)(t).len
#define INTO b, room, sizeof room, OURS(k)
#define BESIDE(call, mine) (void)(mine), all_well &= (call)

/* Appends as many random elements to both; says whether libbson took all of them. */
static bool fill(struct bsonraw_builder *b, bson_t *theirs, bool in_array, int depth) {
    bool all_well = true;
    uint32_t count = random_number(depth == 0 ? 20 : 14);
    for (uint32_t i = 0; i < count; i++) {
        struct text k = some_text(), t = some_text(), u = some_text();
        int64_t n = (int64_t)random_number(UINT32_MAX) * (int64_t)random_number(UINT32_MAX) - (int64_t)random_number(UINT32_MAX);
        double d = (double)n / 3;
        uint8_t *bytes = (uint8_t *)t.bytes;
        uint8_t id[16];
        char digits[16];
        const char *key = k.bytes;
        int key_len = k.len;
        bson_oid_t oid;
        bson_decimal128_t decimal;
        bson_subtype_t subtype = random_number(2) ? BSON_SUBTYPE_BINARY : BSON_SUBTYPE_BINARY_DEPRECATED;
        struct bsonraw_builder level;
        bson_t inner;
        if (in_array) key_len = (int)bson_uint32_to_string(i, &key, digits, sizeof digits);
        for (int at = 0; at < 16; at++) id[at] = (uint8_t)random_number(256);
        memcpy(oid.bytes, id, 12);
        memcpy(&decimal, id, 16);
        elements++;
        switch (random_number(depth < 4 ? 24 : 20)) {
        case 0: BESIDE(bson_append_int32(theirs, key, key_len, (int32_t)n), bsonraw_append_int32(INTO, (int32_t)n)); break;
        case 1: BESIDE(bson_append_int64(theirs, key, key_len, n), bsonraw_append_int64(INTO, n)); break;
        case 2: BESIDE(bson_append_double(theirs, key, key_len, d), bsonraw_append_double(INTO, d)); break;
        case 3: BESIDE(bson_append_bool(theirs, key, key_len, n & 1), bsonraw_append_bool(INTO, n & 1)); break;
        case 4: BESIDE(bson_append_null(theirs, key, key_len), bsonraw_append_null(INTO)); break;
        case 5: BESIDE(bson_append_undefined(theirs, key, key_len), bsonraw_append_undefined(INTO)); break;
        case 6: BESIDE(bson_append_minkey(theirs, key, key_len), bsonraw_append_minkey(INTO)); break;
        case 7: BESIDE(bson_append_maxkey(theirs, key, key_len), bsonraw_append_maxkey(INTO)); break;
        case 8: BESIDE(bson_append_date_time(theirs, key, key_len, n), bsonraw_append_date_time(INTO, n)); break;
        case 9:
            BESIDE(bson_append_timestamp(theirs, key, key_len, (uint32_t)n, (uint32_t)(n >> 32)),
                   bsonraw_append_timestamp(INTO, (uint32_t)n, (uint32_t)(n >> 32)));
            break;
        case 10:
        case 11:
        case 12: BESIDE(bson_append_utf8(theirs, key, key_len, t.bytes, t.len), bsonraw_append_utf8(INTO, OURS(t))); break;
        case 13: BESIDE(bson_append_symbol(theirs, key, key_len, t.bytes, t.len), bsonraw_append_symbol(INTO, OURS(t))); break;
        case 14: BESIDE(bson_append_code(theirs, key, key_len, t.bytes), bsonraw_append_code(INTO, OURS(t))); break;
        case 15:
            BESIDE(bson_append_binary(theirs, key, key_len, subtype, bytes, (uint32_t)t.len),
                   bsonraw_append_binary(INTO, (uint8_t)subtype, OURS(t)));
            break;
        case 16: BESIDE(bson_append_oid(theirs, key, key_len, &oid), bsonraw_append_oid(INTO, id)); break;
        case 17:
            BESIDE(bson_append_decimal128(theirs, key, key_len, &decimal), bsonraw_append_decimal128(INTO, id));
            break;
        case 18:
            BESIDE(bson_append_dbpointer(theirs, key, key_len, t.bytes, &oid), bsonraw_append_dbpointer(INTO, OURS(t), id));
            break;
        case 19: /* libbson puts the options in order */
            BESIDE(bson_append_regex_w_len(theirs, key, key_len, t.bytes, t.len, "im"),
                   bsonraw_append_regex(INTO, OURS(t), BSONRAW_KEY("im")));
            break;
        case 20:
            BESIDE(bson_append_document_begin(theirs, key, key_len, &inner), bsonraw_append_document_begin(INTO, &level));
            all_well &= fill(&level, &inner, false, depth + 1);
            BESIDE(bson_append_document_end(theirs, &inner), bsonraw_append_end(b, room, sizeof room, &level));
            break;
        case 21:
            BESIDE(bson_append_array_begin(theirs, key, key_len, &inner), bsonraw_append_array_begin(INTO, &level));
            all_well &= fill(&level, &inner, true, depth + 1);
            BESIDE(bson_append_array_end(theirs, &inner), bsonraw_append_end(b, room, sizeof room, &level));
            break;
        case 22:
            bson_init(&inner);
            bson_append_utf8(&inner, "u", 1, u.bytes, u.len);
            BESIDE(bson_append_document(theirs, key, key_len, &inner),
                   bsonraw_append_document(INTO, bson_get_data(&inner), inner.len));
            bson_destroy(&inner);
            break;
        default:
            bson_init(&inner);
            bson_append_utf8(&inner, "u", 1, u.bytes, u.len);
            BESIDE(bson_append_code_with_scope(theirs, key, key_len, t.bytes, &inner),
                   bsonraw_append_code_with_scope(INTO, OURS(t), bson_get_data(&inner), inner.len));
            bson_destroy(&inner);
        }
    }
    return all_well;
}

int main(void) {
    size_t bytes = 0;
    int wrong = 0;
    for (int i = 0; i < DOCUMENTS; i++) {
        struct bsonraw_builder b;
        bson_t theirs;
        bson_init(&theirs);
        bsonraw_builder_begin(&b, room, sizeof room);
        if (!fill(&b, &theirs, false, 0) || bsonraw_builder_end(&b, room, sizeof room) != BSONRAW_OK || b.len != theirs.len ||
            memcmp(room, bson_get_data(&theirs), b.len) != 0)
            wrong++;
        bytes += b.len;
        bson_destroy(&theirs);
    }
    printf("%d documents of %lu elements and %lu bytes are built as by libbson, except %d\n", DOCUMENTS,
           (unsigned long)elements, (unsigned long)bytes, wrong);
    return wrong != 0;
}
