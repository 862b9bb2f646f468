/* The calls by hand: what reading costs in C that is written for speed and checks all that the Rust crate checks (bounds,
 * terminators, tags, UTF-8 of keys and texts). It isn't a library: it has no error texts, no tree, and no rebuild. */
#include "calls.h"

#include <stdbool.h>
#include <stdlib.h>
#include <string.h>

#define INLINE static inline __attribute__((always_inline))
#define ONES 0x0101010101010101ull
#define HIGH 0x8080808080808080ull

INLINE uint64_t load8(const uint8_t *p) {
    uint64_t v;
    memcpy(&v, p, 8);
    return v;
}

INLINE uint32_t load4(const uint8_t *p) {
    uint32_t v;
    memcpy(&v, p, 4);
    return v;
}

/* Whether p[0 .. n) is UTF-8. */
static bool is_utf8(const uint8_t *p, size_t n) {
    size_t i = 0;
    while (i < n) {
        if (n - i >= 16 && ((load8(p + i) | load8(p + i + 8)) & HIGH) == 0) {
            i += 16;
            continue;
        }
        uint8_t a = p[i];
        if (a < 0x80) {
            i++;
        } else if (a < 0xC2) {
            return false;
        } else if (a < 0xE0) {
            if (n - i < 2 || (p[i + 1] & 0xC0) != 0x80) {
                return false;
            }
            i += 2;
        } else if (a < 0xF0) {
            if (n - i < 3 || (p[i + 1] & 0xC0) != 0x80 || (p[i + 2] & 0xC0) != 0x80 || (a == 0xE0 && p[i + 1] < 0xA0) ||
                (a == 0xED && p[i + 1] > 0x9F)) {
                return false;
            }
            i += 3;
        } else {
            if (a > 0xF4 || n - i < 4 || (p[i + 1] & 0xC0) != 0x80 || (p[i + 2] & 0xC0) != 0x80 || (p[i + 3] & 0xC0) != 0x80 ||
                (a == 0xF0 && p[i + 1] < 0x90) || (a == 0xF4 && p[i + 1] > 0x8F)) {
                return false;
            }
            i += 4;
        }
    }
    return true;
}

/* The bytes before the first 0 of p[0 .. n), or -1; *ascii: whether all of them are under 0x80. */
INLINE ptrdiff_t cstring(const uint8_t *p, size_t n, bool *ascii) {
    uint64_t seen = 0;
    size_t i = 0;
    for (; n - i >= 8; i += 8) {
        uint64_t v = load8(p + i);
        uint64_t zero = (v - ONES) & ~v & HIGH;
        if (zero) {
            unsigned at = (unsigned)__builtin_ctzll(zero); /* 8 * index + 7 */
            seen |= v & ((1ull << (at - 7)) - 1);
            *ascii = (seen & HIGH) == 0;
            return (ptrdiff_t)(i + at / 8);
        }
        seen |= v;
    }
    for (; i < n; i++) {
        if (p[i] == 0) {
            *ascii = (seen & HIGH) == 0;
            return (ptrdiff_t)i;
        }
        seen |= p[i];
    }
    return -1;
}

typedef struct {
    const uint8_t *doc;
    size_t len, at;
    const uint8_t *key;
    size_t key_len, payload, size;
    uint8_t tag;
} cursor;

INLINE int open(cursor *c, const uint8_t *doc, size_t len) {
    if (len < 5 || load4(doc) != len || doc[len - 1] != 0) {
        return BB_REFUSED;
    }
    c->doc = doc;
    c->len = len;
    c->at = 4;
    return BB_OK;
}

INLINE int str_size(const uint8_t *p, size_t left, size_t *size) {
    if (left < 4) {
        return BB_MALFORMED;
    }
    uint32_t n = load4(p);
    if (n == 0 || n > 0x7FFFFFFF || (size_t)n + 4 > left || p[3 + (size_t)n] != 0) {
        return BB_MALFORMED;
    }
    *size = (size_t)n + 4;
    return BB_OK;
}

/* 1: an element is framed; 0: the end; below 0: the stop. */
INLINE int step(cursor *c) {
    const uint8_t *d = c->doc;
    if (c->at + 1 >= c->len) {
        return c->at + 1 == c->len ? 0 : BB_MALFORMED;
    }
    bool ascii;
    c->tag = d[c->at];
    c->key = d + c->at + 1;
    ptrdiff_t k = cstring(c->key, c->len - c->at - 1, &ascii);
    if (k < 0) {
        return BB_MALFORMED;
    }
    if (!ascii && !is_utf8(c->key, (size_t)k)) {
        return BB_UTF8;
    }
    c->key_len = (size_t)k;
    c->payload = c->at + 2 + (size_t)k;
    size_t left = c->len - c->payload;
    const uint8_t *p = d + c->payload;
    int r;
    switch (c->tag) {
    case 0x01:
    case 0x09:
    case 0x11:
    case 0x12:
        c->size = 8;
        break;
    case 0x10:
        c->size = 4;
        break;
    case 0x08:
        c->size = 1;
        break;
    case 0x07:
        c->size = 12;
        break;
    case 0x13:
        c->size = 16;
        break;
    case 0x06:
    case 0x0A:
    case 0x7F:
    case 0xFF:
        c->size = 0;
        break;
    case 0x02:
    case 0x0D:
    case 0x0E:
        if ((r = str_size(p, left, &c->size)) < 0) {
            return r;
        }
        break;
    case 0x0C:
        if ((r = str_size(p, left, &c->size)) < 0) {
            return r;
        }
        c->size += 12;
        break;
    case 0x03:
    case 0x04: {
        if (left < 5) {
            return BB_MALFORMED;
        }
        uint32_t n = load4(p);
        if (n < 5 || n > left || p[n - 1] != 0) {
            return BB_MALFORMED;
        }
        c->size = n;
        break;
    }
    case 0x05:
    case 0x0F: {
        uint32_t n;
        if (left < 4 || (n = load4(p)) > 0x7FFFFFFF) {
            return BB_MALFORMED;
        }
        c->size = c->tag == 0x05 ? (size_t)n + 5 : n;
        break;
    }
    case 0x0B: {
        ptrdiff_t a, b;
        bool x, y;
        if ((a = cstring(p, left, &x)) < 0) {
            return BB_MALFORMED;
        }
        if (!x && !is_utf8(p, (size_t)a)) {
            return BB_UTF8;
        }
        if ((b = cstring(p + a + 1, left - (size_t)a - 1, &y)) < 0) {
            return BB_MALFORMED;
        }
        if (!y && !is_utf8(p + a + 1, (size_t)b)) {
            return BB_UTF8;
        }
        c->size = (size_t)(a + b + 2);
        break;
    }
    default:
        return BB_MALFORMED;
    }
    if (c->size > left) {
        return BB_MALFORMED;
    }
    c->at = c->payload + c->size;
    return 1;
}

/* The value's word; below 0 in *fault where the payload means a fault. */
INLINE uint64_t word(const cursor *c, int *fault) {
    const uint8_t *p = c->doc + c->payload;
    size_t n;
    switch (c->tag) {
    case 0x01:
    case 0x09:
    case 0x12:
    case 0x13:
        return load8(p);
    case 0x10:
        return (uint64_t)(int64_t)(int32_t)load4(p);
    case 0x11:
        return (uint64_t)load4(p) + load4(p + 4);
    case 0x07:
        return load4(p);
    case 0x08:
        if (*p > 1) {
            *fault = BB_MALFORMED;
        }
        return *p;
    case 0x02:
    case 0x0D:
    case 0x0E:
        n = c->size - 5;
        if (!is_utf8(p + 4, n)) {
            *fault = BB_UTF8;
        }
        return n;
    case 0x0C:
        n = c->size - 17;
        if (!is_utf8(p + 4, n)) {
            *fault = BB_UTF8;
        }
        return n + (uint64_t)load4(p + n + 5);
    case 0x03:
    case 0x04:
        return c->size;
    case 0x05:
        n = c->size - 5;
        if (p[4] == 2) {
            if (n < 4 || (uint64_t)load4(p + 5) + 4 != n) {
                *fault = BB_MALFORMED;
                return 0;
            }
            n -= 4;
        }
        return n + p[4];
    case 0x0B:
        return c->size - 2;
    case 0x0F: {
        size_t s;
        if (c->size < 14 || str_size(p + 4, c->size - 4, &s) < 0) {
            *fault = BB_MALFORMED;
            return 0;
        }
        if (!is_utf8(p + 8, s - 5)) {
            *fault = BB_UTF8;
            return 0;
        }
        cursor scope;
        if (open(&scope, p + 4 + s, c->size - 4 - s) < 0) {
            *fault = BB_MALFORMED;
            return 0;
        }
        return s - 5 + scope.len;
    }
    default:
        return 0;
    }
}

static int visit(const cursor *from_start, bool in_array, bool nested, bb_answer *out) {
    /* locals, so that they stay in registers */
    cursor c = *from_start;
    uint64_t count = 0, sum = 0;
    int r, fault = 0;
    while ((r = step(&c)) > 0) {
        uint64_t w = word(&c, &fault);
        if (fault) {
            r = fault;
            break;
        }
        count++;
        sum += c.tag + (in_array ? 0 : 3 * (uint64_t)c.key_len) + w;
        if (nested && (c.tag == 0x03 || c.tag == 0x04 || c.tag == 0x0F)) {
            cursor inside;
            size_t from = c.tag == 0x0F ? 8 + (size_t)load4(c.doc + c.payload + 4) : 0;
            if ((r = open(&inside, c.doc + c.payload + from, c.size - from)) < 0 ||
                (r = visit(&inside, c.tag == 0x04, true, out)) < 0) {
                break;
            }
        }
    }
    out->count += count;
    out->sum += sum;
    return r;
}

static void begin(bb_answer *out) {
    out->status = BB_OK;
    out->count = out->sum = 0;
}

void bb_frames(const uint8_t *doc, size_t len, bb_answer *out) {
    cursor c;
    begin(out);
    int r = open(&c, doc, len);
    uint64_t count = 0, sum = 0;
    if (r == BB_OK) {
        while ((r = step(&c)) > 0) {
            count++;
            sum += c.tag + 3 * (uint64_t)c.key_len + c.size;
        }
    }
    out->status = r;
    out->count = count;
    out->sum = sum;
}

void bb_values(const uint8_t *doc, size_t len, bb_answer *out) {
    cursor c;
    begin(out);
    int r = open(&c, doc, len);
    out->status = r < 0 ? r : visit(&c, false, false, out);
}

void bb_visit(const uint8_t *doc, size_t len, bb_answer *out) {
    cursor c;
    begin(out);
    int r = open(&c, doc, len);
    out->status = r < 0 ? r : visit(&c, false, true, out);
}

static int found(cursor *c, const uint8_t *doc, size_t len, const uint8_t *key, size_t key_len) {
    int r = open(c, doc, len);
    while (r >= 0 && (r = step(c)) > 0) {
        if (c->key_len == key_len && memcmp(c->key, key, key_len) == 0) {
            return BB_OK;
        }
    }
    return r < 0 ? r : BB_ABSENT;
}

void bb_get(const uint8_t *doc, size_t len, const uint8_t *key, size_t key_len, bb_answer *out) {
    cursor c;
    begin(out);
    int r = found(&c, doc, len, key, key_len);
    if (r == BB_OK) {
        out->sum = word(&c, &r);
        out->count = 1;
    }
    out->status = r;
}

void bb_get_str(const uint8_t *doc, size_t len, const uint8_t *key, size_t key_len, bb_answer *out) {
    cursor c;
    begin(out);
    int r = found(&c, doc, len, key, key_len);
    if (r == BB_OK && c.tag != 0x02) {
        r = BB_ABSENT;
    }
    if (r == BB_OK) {
        out->sum = word(&c, &r);
        out->count = 1;
    }
    out->status = r;
}

/* ---- writing: a block that doubles ----------------------------------------------------------------------------- */

typedef struct {
    uint8_t *p;
    size_t len, room;
} block;

static void append(block *b, const uint8_t *key, size_t key_len, uint32_t v) {
    size_t more = key_len + 6;
    if (b->room - b->len < more) {
        b->room = 2 * b->room + more;
        b->p = realloc(b->p, b->room);
    }
    uint8_t *at = b->p + b->len - 1;
    *at = 0x10;
    memcpy(at + 1, key, key_len);
    at[key_len + 1] = 0;
    memcpy(at + key_len + 2, &v, 4);
    at[key_len + 6] = 0;
    b->len += more;
    uint32_t total = (uint32_t)b->len;
    memcpy(b->p, &total, 4);
}

static void started(block *b) {
    b->room = 16;
    b->len = 5;
    b->p = malloc(b->room);
    memcpy(b->p, "\5\0\0\0\0", 5);
}

static void handed(block *b, uint8_t *buf, size_t buf_len, bb_answer *out) {
    begin(out);
    out->count = b->len;
    if (buf_len && b->len <= buf_len) {
        memcpy(buf, b->p, b->len);
    } else if (buf_len) {
        out->status = BB_REFUSED;
    }
    free(b->p);
}

void bb_append(const uint8_t *keys, size_t keys_len, uint8_t *buf, size_t buf_len, bb_answer *out) {
    block b;
    started(&b);
    for (size_t i = 0; i < keys_len / 8; i++) {
        append(&b, keys + 8 * i, 8, (uint32_t)i);
    }
    handed(&b, buf, buf_len, out);
}

void bb_push(uint64_t n, uint8_t *buf, size_t buf_len, bb_answer *out) {
    block b;
    started(&b);
    for (uint64_t i = 0; i < n; i++) {
        uint8_t text[20];
        size_t k = sizeof text;
        uint64_t v = i;
        do {
            text[--k] = (uint8_t)('0' + v % 10);
            v /= 10;
        } while (v);
        append(&b, text + k, sizeof text - k, (uint32_t)i);
    }
    handed(&b, buf, buf_len, out);
}
