/* The calls over libbson.
 *
 * bson_iter_next checks neither keys nor texts for UTF-8, and bson_iter_visit_all checks both. The others always check, so
 * bb_values and bb_visit use bson_iter_visit_all, and the _noutf8 operations bson_iter_next. bb_frames uses
 * bson_iter_next, and so does bb_get by bson_iter_init_find_w_len: libbson has no other way there. */
#include "calls.h"

#include <bson/bson.h>
#include <string.h>

static bool opened(bson_t *b, const uint8_t *doc, size_t len, bb_answer *out) {
    out->count = 0;
    out->sum = 0;
    out->status = bson_init_static(b, doc, len) ? BB_OK : BB_REFUSED;
    return out->status == BB_OK;
}

static uint64_t oid_word(const bson_oid_t *oid) {
    uint32_t w;
    memcpy(&w, oid->bytes, 4);
    return w;
}

/* ---- by bson_iter_next ---------------------------------------------------------------------------------------- */

static uint64_t word(const bson_iter_t *it) {
    uint32_t n, m;
    const uint8_t *p, *q;
    bson_subtype_t subtype;
    const bson_oid_t *oid;
    const char *options;
    switch (bson_iter_type_unsafe(it)) {
    case BSON_TYPE_DOUBLE: {
        double d = bson_iter_double(it);
        uint64_t w;
        memcpy(&w, &d, 8);
        return w;
    }
    case BSON_TYPE_UTF8:
        bson_iter_utf8(it, &n);
        return n;
    case BSON_TYPE_DOCUMENT:
        bson_iter_document(it, &n, &p);
        return n;
    case BSON_TYPE_ARRAY:
        bson_iter_array(it, &n, &p);
        return n;
    case BSON_TYPE_BINARY:
        bson_iter_binary(it, &subtype, &n, &p);
        return n + (uint64_t)subtype;
    case BSON_TYPE_OID:
        return oid_word(bson_iter_oid(it));
    case BSON_TYPE_BOOL:
        return bson_iter_bool(it);
    case BSON_TYPE_DATE_TIME:
        return (uint64_t)bson_iter_date_time(it);
    case BSON_TYPE_REGEX: {
        const char *pattern = bson_iter_regex(it, &options);
        return strlen(pattern) + strlen(options);
    }
    case BSON_TYPE_DBPOINTER: {
        const char *name;
        bson_iter_dbpointer(it, &n, &name, &oid);
        return n + oid_word(oid);
    }
    case BSON_TYPE_CODE:
        bson_iter_code(it, &n);
        return n;
    case BSON_TYPE_SYMBOL:
        bson_iter_symbol(it, &n);
        return n;
    case BSON_TYPE_CODEWSCOPE:
        bson_iter_codewscope(it, &n, &m, &q);
        return n + (uint64_t)m;
    case BSON_TYPE_INT32:
        return (uint64_t)(int64_t)bson_iter_int32(it);
    case BSON_TYPE_INT64:
        return (uint64_t)bson_iter_int64(it);
    case BSON_TYPE_TIMESTAMP:
        bson_iter_timestamp(it, &n, &m);
        return (uint64_t)n + m;
    case BSON_TYPE_DECIMAL128: {
        bson_decimal128_t d;
        bson_iter_decimal128(it, &d);
        return d.low;
    }
    default:
        return 0;
    }
}

static void values(bson_iter_t *it, bool in_array, bool nested, bb_answer *out) {
    while (bson_iter_next(it)) {
        bson_type_t type = bson_iter_type_unsafe(it);
        out->count++;
        out->sum += (uint8_t)type + (in_array ? 0 : 3 * (uint64_t)bson_iter_key_len(it)) + word(it);
        if (nested && (type == BSON_TYPE_DOCUMENT || type == BSON_TYPE_ARRAY)) {
            bson_iter_t child;
            if (!bson_iter_recurse(it, &child)) {
                out->status = BB_MALFORMED;
                return;
            }
            values(&child, type == BSON_TYPE_ARRAY, true, out);
        } else if (nested && type == BSON_TYPE_CODEWSCOPE) {
            uint32_t n, m;
            const uint8_t *scope;
            bson_iter_t child;
            bson_iter_codewscope(it, &n, &m, &scope);
            if (!bson_iter_init_from_data(&child, scope, m)) {
                out->status = BB_MALFORMED;
                return;
            }
            values(&child, false, true, out);
        }
    }
    if (it->err_off) {
        out->status = BB_MALFORMED;
    }
}

void bb_frames(const uint8_t *doc, size_t len, bb_answer *out) {
    bson_t b;
    bson_iter_t it;
    if (!opened(&b, doc, len, out) || !bson_iter_init(&it, &b)) {
        return;
    }
    while (bson_iter_next(&it)) {
        out->count++;
        out->sum += (uint8_t)bson_iter_type_unsafe(&it) + 3 * (uint64_t)bson_iter_key_len(&it) + (it.next_off - it.d1);
    }
    if (it.err_off) {
        out->status = BB_MALFORMED;
    }
}

void bb_values_noutf8(const uint8_t *doc, size_t len, bb_answer *out) {
    bson_t b;
    bson_iter_t it;
    if (opened(&b, doc, len, out) && bson_iter_init(&it, &b)) {
        values(&it, false, false, out);
    }
}

void bb_visit_noutf8(const uint8_t *doc, size_t len, bb_answer *out) {
    bson_t b;
    bson_iter_t it;
    if (opened(&b, doc, len, out) && bson_iter_init(&it, &b)) {
        values(&it, false, true, out);
    }
}

/* ---- by bson_iter_visit_all ----------------------------------------------------------------------------------- */

typedef struct {
    bb_answer *out;
    bool in_array, nested;
} state;

static bool descend(state *s, const bson_t *inside, bool in_array);

/* What each callback adds: the key's length is known to the iterator. */
static inline bool add(const bson_iter_t *it, void *data, uint8_t tag, uint64_t w) {
    state *s = data;
    s->out->count++;
    s->out->sum += tag + (s->in_array ? 0 : 3 * (uint64_t)bson_iter_key_len(it)) + w;
    return false;
}

#define PLAIN(NAME, TAG)                                                                                                      \
    static bool v_##NAME(const bson_iter_t *it, const char *key, void *data) {                                                \
        (void)key;                                                                                                            \
        return add(it, data, TAG, 0);                                                                                         \
    }
PLAIN(undefined, 0x06)
PLAIN(null, 0x0A)
PLAIN(maxkey, 0x7F)
PLAIN(minkey, 0xFF)

#define TEXT(NAME, TAG)                                                                                                       \
    static bool v_##NAME(const bson_iter_t *it, const char *key, size_t n, const char *s, void *data) {                       \
        (void)key;                                                                                                            \
        (void)s;                                                                                                              \
        return add(it, data, TAG, n);                                                                                         \
    }
TEXT(utf8, 0x02)
TEXT(code, 0x0D)
TEXT(symbol, 0x0E)

static bool v_double(const bson_iter_t *it, const char *key, double v, void *data) {
    (void)key;
    uint64_t w;
    memcpy(&w, &v, 8);
    return add(it, data, 0x01, w);
}

static bool v_document(const bson_iter_t *it, const char *key, const bson_t *v, void *data) {
    (void)key;
    state *s = data;
    add(it, data, 0x03, v->len);
    return s->nested && descend(s, v, false);
}

static bool v_array(const bson_iter_t *it, const char *key, const bson_t *v, void *data) {
    (void)key;
    state *s = data;
    add(it, data, 0x04, v->len);
    return s->nested && descend(s, v, true);
}

static bool v_binary(const bson_iter_t *it, const char *key, bson_subtype_t subtype, size_t n, const uint8_t *p, void *data) {
    (void)key;
    (void)p;
    return add(it, data, 0x05, n + (uint64_t)subtype);
}

static bool v_oid(const bson_iter_t *it, const char *key, const bson_oid_t *v, void *data) {
    (void)key;
    return add(it, data, 0x07, oid_word(v));
}

static bool v_bool(const bson_iter_t *it, const char *key, bool v, void *data) {
    (void)key;
    return add(it, data, 0x08, v);
}

static bool v_date_time(const bson_iter_t *it, const char *key, int64_t v, void *data) {
    (void)key;
    return add(it, data, 0x09, (uint64_t)v);
}

static bool v_regex(const bson_iter_t *it, const char *key, const char *pattern, const char *options, void *data) {
    (void)key;
    return add(it, data, 0x0B, strlen(pattern) + strlen(options));
}

static bool v_dbpointer(const bson_iter_t *it, const char *key, size_t n, const char *s, const bson_oid_t *v, void *data) {
    (void)key;
    (void)s;
    return add(it, data, 0x0C, n + oid_word(v));
}

static bool v_codewscope(const bson_iter_t *it, const char *key, size_t n, const char *code, const bson_t *scope, void *data) {
    (void)key;
    (void)code;
    state *s = data;
    add(it, data, 0x0F, n + scope->len);
    return s->nested && descend(s, scope, false);
}

static bool v_int32(const bson_iter_t *it, const char *key, int32_t v, void *data) {
    (void)key;
    return add(it, data, 0x10, (uint64_t)(int64_t)v);
}

static bool v_timestamp(const bson_iter_t *it, const char *key, uint32_t time, uint32_t increment, void *data) {
    (void)key;
    return add(it, data, 0x11, (uint64_t)time + increment);
}

static bool v_int64(const bson_iter_t *it, const char *key, int64_t v, void *data) {
    (void)key;
    return add(it, data, 0x12, (uint64_t)v);
}

static bool v_decimal128(const bson_iter_t *it, const char *key, const bson_decimal128_t *v, void *data) {
    (void)key;
    return add(it, data, 0x13, v->low);
}

static const bson_visitor_t visitor = {
    .visit_double = v_double,
    .visit_utf8 = v_utf8,
    .visit_document = v_document,
    .visit_array = v_array,
    .visit_binary = v_binary,
    .visit_undefined = v_undefined,
    .visit_oid = v_oid,
    .visit_bool = v_bool,
    .visit_date_time = v_date_time,
    .visit_null = v_null,
    .visit_regex = v_regex,
    .visit_dbpointer = v_dbpointer,
    .visit_code = v_code,
    .visit_symbol = v_symbol,
    .visit_codewscope = v_codewscope,
    .visit_int32 = v_int32,
    .visit_timestamp = v_timestamp,
    .visit_int64 = v_int64,
    .visit_maxkey = v_maxkey,
    .visit_minkey = v_minkey,
    .visit_decimal128 = v_decimal128,
};

/* Answers true where the visit is to stop. */
static bool descend(state *s, const bson_t *inside, bool in_array) {
    bson_iter_t it;
    state below = {s->out, in_array, true};
    if (!bson_iter_init(&it, inside) || bson_iter_visit_all(&it, &visitor, &below) || it.err_off) {
        s->out->status = BB_MALFORMED;
        return true;
    }
    return false;
}

static void visit(const uint8_t *doc, size_t len, bool nested, bb_answer *out) {
    bson_t b;
    bson_iter_t it;
    state s = {out, false, nested};
    if (!opened(&b, doc, len, out) || !bson_iter_init(&it, &b)) {
        return;
    }
    if (bson_iter_visit_all(&it, &visitor, &s) || it.err_off) {
        out->status = BB_MALFORMED;
    }
}

void bb_values(const uint8_t *doc, size_t len, bb_answer *out) {
    visit(doc, len, false, out);
}

void bb_visit(const uint8_t *doc, size_t len, bb_answer *out) {
    visit(doc, len, true, out);
}

/* ---- look-up -------------------------------------------------------------------------------------------------- */

void bb_get(const uint8_t *doc, size_t len, const uint8_t *key, size_t key_len, bb_answer *out) {
    bson_t b;
    bson_iter_t it;
    if (!opened(&b, doc, len, out)) {
        return;
    }
    if (!bson_iter_init_find_w_len(&it, &b, (const char *)key, (int)key_len)) {
        out->status = BB_ABSENT;
        return;
    }
    out->count = 1;
    out->sum = word(&it);
}

void bb_get_str(const uint8_t *doc, size_t len, const uint8_t *key, size_t key_len, bb_answer *out) {
    bson_t b;
    bson_iter_t it;
    uint32_t n;
    if (!opened(&b, doc, len, out)) {
        return;
    }
    if (!bson_iter_init_find_w_len(&it, &b, (const char *)key, (int)key_len) || !BSON_ITER_HOLDS_UTF8(&it)) {
        out->status = BB_ABSENT;
        return;
    }
    const char *s = bson_iter_utf8(&it, &n);
    if (!bson_utf8_validate(s, n, true)) { /* as get_str returns a checked &str */
        out->status = BB_UTF8;
        return;
    }
    out->count = 1;
    out->sum = n;
}

void bb_validate(const uint8_t *doc, size_t len, bb_answer *out) {
    bson_t b;
    size_t at;
    if (opened(&b, doc, len, out) && !bson_validate(&b, BSON_VALIDATE_UTF8, &at)) {
        out->status = BB_MALFORMED;
    }
}

/* ---- conversion and writing ------------------------------------------------------------------------------------ */

static void handed(bson_t *made, uint8_t *buf, size_t buf_len, bb_answer *out) {
    out->count = made->len;
    if (buf_len && made->len <= buf_len) {
        memcpy(buf, bson_get_data(made), made->len);
    } else if (buf_len && out->status == BB_OK) {
        out->status = BB_REFUSED;
    }
    bson_destroy(made);
}

static bool rebuild(bson_t *to, bson_iter_t *it) {
    while (bson_iter_next(it)) {
        const char *key = bson_iter_key_unsafe(it);
        int key_len = (int)bson_iter_key_len(it);
        bson_type_t type = bson_iter_type_unsafe(it);
        if (type == BSON_TYPE_DOCUMENT || type == BSON_TYPE_ARRAY) {
            bson_iter_t child;
            bson_t inside;
            bool ok = bson_iter_recurse(it, &child) &&
                      (type == BSON_TYPE_ARRAY ? bson_append_array_begin(to, key, key_len, &inside)
                                               : bson_append_document_begin(to, key, key_len, &inside));
            ok = ok && rebuild(&inside, &child);
            ok = ok && (type == BSON_TYPE_ARRAY ? bson_append_array_end(to, &inside) : bson_append_document_end(to, &inside));
            if (!ok) {
                return false;
            }
        } else if (!bson_append_iter(to, key, key_len, it)) {
            return false;
        }
    }
    return it->err_off == 0;
}

void bb_rebuild(const uint8_t *doc, size_t len, uint8_t *buf, size_t buf_len, bb_answer *out) {
    bson_t b, made;
    bson_iter_t it;
    if (!opened(&b, doc, len, out) || !bson_iter_init(&it, &b)) {
        return;
    }
    bson_init(&made);
    if (!rebuild(&made, &it)) {
        out->status = BB_MALFORMED;
    }
    handed(&made, buf, buf_len, out);
}

void bb_append(const uint8_t *keys, size_t keys_len, uint8_t *buf, size_t buf_len, bb_answer *out) {
    bson_t made;
    out->status = BB_OK;
    out->count = out->sum = 0;
    bson_init(&made);
    for (size_t i = 0; i < keys_len / 8; i++) {
        if (!bson_append_int32(&made, (const char *)keys + 8 * i, 8, (int32_t)i)) {
            out->status = BB_REFUSED;
            break;
        }
    }
    handed(&made, buf, buf_len, out);
}

void bb_push(uint64_t n, uint8_t *buf, size_t buf_len, bb_answer *out) {
    bson_t made;
    out->status = BB_OK;
    out->count = out->sum = 0;
    bson_init(&made);
    for (uint64_t i = 0; i < n; i++) {
        char room[16];
        const char *key;
        size_t key_len = bson_uint32_to_string((uint32_t)i, &key, room, sizeof room);
        if (!bson_append_int32(&made, key, (int)key_len, (int32_t)i)) {
            out->status = BB_REFUSED;
            break;
        }
    }
    handed(&made, buf, buf_len, out);
}
