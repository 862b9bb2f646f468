/* Runs the operations of calls.h, of the implementation that is linked with it, on the documents of documents.py.
 *
 * usage: driver IMPL DATA                     measures; a line of TSV for each operation and document:
 *                                             IMPL  op  document  elements  bytes  ns per call, the least  samples
 *                                             gauge beside that sample, in ns  page faults per call
 *        driver IMPL DATA check               each operation once on each document, with the checks
 *        driver IMPL DATA once OP DOCUMENT N  N calls and no clock, for callgrind --toggle-collect=bb_OP
 *
 * BB_SAMPLES (default 9) samples, each of BB_MICROS (default 3000) microseconds or one call if that is longer.
 * BB_OPS and BB_DOCS: lists with commas, to load and measure those alone.
 *
 * Each call's count and sum are compared with those of driver.c's own walk (walk, below): status 1 where one differs. */
#define _GNU_SOURCE
#include "calls.h"
#include "clock.h"

#include <stdbool.h>
#include <stdio.h>
#include <stdlib.h>
#include <string.h>
#include <sys/resource.h>

enum { APPENDS = 1000000 };

typedef struct {
    char name[64];
    uint8_t *bytes;
    size_t len;
    uint64_t top, all;
    char key[64];
    /* what an implementation has to return */
    uint64_t frames_sum, values_sum, visit_sum, get_sum;
} document;

static document docs[16];
static int n_docs;
static uint8_t *keys, *buf;
static size_t buf_len; /* what the operations are given: 0 while the clock runs */
static size_t room;
static int failures;

/* ---- the driver's own walk: the expected sums ----------------------------------------------------------------- */

static uint64_t le(const uint8_t *p, int n) {
    uint64_t v = 0;
    memcpy(&v, p, n);
    return v;
}

static size_t payload(uint8_t tag, const uint8_t *p) {
    switch (tag) {
    case 0x08:
        return 1;
    case 0x10:
        return 4;
    case 0x01:
    case 0x09:
    case 0x11:
    case 0x12:
        return 8;
    case 0x07:
        return 12;
    case 0x13:
        return 16;
    case 0x02:
    case 0x0D:
    case 0x0E:
        return 4 + le(p, 4);
    case 0x0C:
        return 4 + le(p, 4) + 12;
    case 0x03:
    case 0x04:
    case 0x0F:
        return le(p, 4);
    case 0x05:
        return 5 + le(p, 4);
    case 0x0B: {
        size_t a = strlen((const char *)p);
        return a + 2 + strlen((const char *)p + a + 1);
    }
    default:
        return 0;
    }
}

static uint64_t word(uint8_t tag, const uint8_t *p) {
    switch (tag) {
    case 0x08:
        return *p;
    case 0x10:
        return (uint64_t)(int64_t)(int32_t)le(p, 4);
    case 0x01:
    case 0x09:
    case 0x12:
    case 0x13:
        return le(p, 8);
    case 0x11:
        return le(p, 4) + le(p + 4, 4);
    case 0x07:
        return le(p, 4);
    case 0x02:
    case 0x0D:
    case 0x0E:
        return le(p, 4) - 1;
    case 0x0C:
        return le(p, 4) - 1 + le(p + 4 + le(p, 4), 4);
    case 0x03:
    case 0x04:
        return le(p, 4);
    case 0x0F:
        return le(p, 4) - 9;
    case 0x05:
        return p[4] == 2 ? le(p, 4) - 4 + 2 : le(p, 4) + p[4];
    case 0x0B:
        return payload(tag, p) - 2;
    default:
        return 0;
    }
}

static void walk(const uint8_t *d, size_t len, bool in_array, bool nested, bb_answer *frames, bb_answer *values,
                 document *doc) {
    size_t at = 4;
    while (at < len - 1) {
        uint8_t tag = d[at];
        const char *key = (const char *)d + at + 1;
        size_t key_len = strlen(key);
        at += key_len + 2;
        size_t size = payload(tag, d + at);
        uint64_t base = tag + (in_array ? 0 : 3 * key_len);
        if (!nested) {
            frames->count++;
            frames->sum += base + size;
        }
        values->count++;
        values->sum += base + word(tag, d + at);
        if (doc && strcmp(key, doc->key) == 0) {
            doc->get_sum = word(tag, d + at);
        }
        if (nested && (tag == 0x03 || tag == 0x04)) {
            walk(d + at, size, tag == 0x04, true, frames, values, NULL);
        } else if (nested && tag == 0x0F) {
            size_t code = 8 + le(d + at + 4, 4);
            walk(d + at + code, size - code, false, true, frames, values, NULL);
        }
        at += size;
    }
}

/* ---- the operations ------------------------------------------------------------------------------------------- */

typedef struct {
    const char *name;
    void (*run)(const document *d, bb_answer *out);
    bool (*right)(const document *d, const bb_answer *got);
    bool on_docs;     /* else on no document, APPENDS elements */
    bool all_levels;  /* its time is divided by the elements of all levels */
    const char *only; /* the documents that it is measured on; NULL: all */
} operation;

#define READ(NAME)                                                                                                            \
    static void run_##NAME(const document *d, bb_answer *out) {                                                               \
        bb_##NAME(d->bytes, d->len, out);                                                                                     \
    }
READ(frames)
READ(values)
READ(visit)
READ(values_noutf8)
READ(visit_noutf8)
READ(validate)
READ(tree)

static void run_get(const document *d, bb_answer *out) {
    bb_get(d->bytes, d->len, (const uint8_t *)d->key, strlen(d->key), out);
}

static void run_get_str(const document *d, bb_answer *out) {
    bb_get_str(d->bytes, d->len, (const uint8_t *)d->key, strlen(d->key), out);
}

static void run_round(const document *d, bb_answer *out) {
    bb_round(d->bytes, d->len, buf, buf_len, out);
}

static void run_rebuild(const document *d, bb_answer *out) {
    bb_rebuild(d->bytes, d->len, buf, buf_len, out);
}

static void run_append(const document *d, bb_answer *out) {
    (void)d;
    bb_append(keys, 8 * (size_t)APPENDS, buf, buf_len, out);
}

static void run_push(const document *d, bb_answer *out) {
    (void)d;
    bb_push(APPENDS, buf, buf_len, out);
}

static bool right_frames(const document *d, const bb_answer *got) {
    return got->count == d->top && got->sum == d->frames_sum;
}

static bool right_values(const document *d, const bb_answer *got) {
    return got->count == d->top && got->sum == d->values_sum;
}

static bool right_visit(const document *d, const bb_answer *got) {
    return got->count == d->all && got->sum == d->visit_sum;
}

static bool right_get(const document *d, const bb_answer *got) {
    return got->count == 1 && got->sum == d->get_sum;
}

static bool right_validate(const document *d, const bb_answer *got) {
    (void)d;
    return got->status == BB_OK;
}

static bool right_tree(const document *d, const bb_answer *got) {
    return got->count == d->top;
}

static bool right_bytes(const document *d, const bb_answer *got) {
    return got->count == d->len && memcmp(buf, d->bytes, d->len) == 0;
}

static bool right_append(const document *d, const bb_answer *got) {
    (void)d;
    size_t len = 5 + (size_t)APPENDS * 14;
    bool ok = got->count == len && le(buf, 4) == len && buf[len - 1] == 0;
    for (size_t i = 0; ok && i < APPENDS; i++) {
        const uint8_t *p = buf + 4 + 14 * i;
        ok = p[0] == 0x10 && memcmp(p + 1, keys + 8 * i, 8) == 0 && p[9] == 0 && le(p + 10, 4) == i;
    }
    return ok;
}

static bool right_push(const document *d, const bb_answer *got) {
    (void)d;
    const uint8_t *p = buf + 4;
    char text[24];
    bool ok = true;
    for (size_t i = 0; ok && i < APPENDS; i++) {
        int n = sprintf(text, "%zu", i);
        ok = p[0] == 0x10 && memcmp(p + 1, text, n + 1) == 0 && le(p + n + 2, 4) == i;
        p += n + 6;
    }
    return ok && *p == 0 && got->count == (size_t)(p + 1 - buf) && le(buf, 4) == got->count;
}

static const operation ops[] = {
    {"frames", run_frames, right_frames, true, false, NULL},
    {"values", run_values, right_values, true, false, NULL},
    {"values_noutf8", run_values_noutf8, right_values, true, false, NULL},
    {"visit", run_visit, right_visit, true, true, NULL},
    {"visit_noutf8", run_visit_noutf8, right_visit, true, true, NULL},
    {"get", run_get, right_get, true, false, "tiny,typical,last_key,flat_wide,strings,strings_utf8"},
    {"get_str", run_get_str, right_get, true, false, "tiny,typical,strings"},
    {"validate", run_validate, right_validate, true, true, NULL},
    {"tree", run_tree, right_tree, true, true, NULL},
    {"round", run_round, right_bytes, true, true, NULL},
    {"rebuild", run_rebuild, right_bytes, true, true, NULL},
    {"append", run_append, right_append, false, true, NULL},
    {"push", run_push, right_push, false, true, NULL},
};

/* ---- measuring ------------------------------------------------------------------------------------------------ */

static long setting(const char *name, long otherwise) {
    const char *s = getenv(name);
    return s && *s ? atol(s) : otherwise;
}

static bool named(const char *list, const char *name) {
    size_t n = strlen(name);
    for (const char *p = list; list && (p = strstr(p, name)); p++) {
        if ((p == list || p[-1] == ',') && (p[n] == ',' || p[n] == 0)) {
            return true;
        }
    }
    return list == NULL || *list == 0;
}

static long page_faults(void) {
    struct rusage used;
    getrusage(RUSAGE_SELF, &used);
    return used.ru_minflt;
}

/* Returns whether the operation is supported. */
static bool checked(const char *impl, const operation *op, const document *d) {
    bb_answer got = {0, 0, 0};
    memset(buf, 0xEE, d->len + 16 <= room ? d->len + 16 : room);
    buf_len = room;
    op->run(d, &got);
    buf_len = 0;
    if (got.status == BB_UNSUPPORTED) {
        return false;
    }
    if (got.status != BB_OK || !op->right(d, &got)) {
        fprintf(stderr, "%s: %s of %s is wrong: status %lld count %llu sum %llx\n", impl, op->name, d->name,
                (long long)got.status, (unsigned long long)got.count, (unsigned long long)got.sum);
        failures++;
        return false;
    }
    return true;
}

static void measure(const char *impl, const operation *op, const document *d) {
    bb_answer got;
    long samples = setting("BB_SAMPLES", 9);
    double want = 1000.0 * setting("BB_MICROS", 3000);
    double t = now();
    op->run(d, &got);
    t = now() - t;
    long calls = t >= want ? 1 : (long)(want / (t < 20 ? 20 : t)) + 1;
    double least = 1e300, all_calls = 0, before, after = gauge(), gauged = 0;
    long faults = page_faults();
    for (long s = 0; s < samples; s++) {
        before = after;
        double t0 = now();
        for (long c = 0; c < calls; c++) {
            op->run(d, &got);
        }
        double each = (now() - t0) / calls;
        after = gauge();
        all_calls += calls;
        if (each < least) {
            least = each;
            gauged = before > after ? before : after;
        }
        if (s == 0) { /* the first call was cold, so the number of calls was too low */
            calls = each >= want ? 1 : (long)(want / (each < 5 ? 5 : each)) + 1;
        }
    }
    uint64_t elements = !op->on_docs ? APPENDS : op->all_levels ? d->all : d->top;
    size_t bytes = op->on_docs ? d->len : got.count;
    printf("%s\t%s\t%s\t%llu\t%zu\t%.2f\t%ld\t%.0f\t%.1f\n", impl, op->name, d->name, (unsigned long long)elements, bytes, least, samples, gauged,
           (page_faults() - faults) / all_calls);
    fflush(stdout);
}

static void load(const char *folder, bool writes) {
    char path[512], line[512];
    snprintf(path, sizeof path, "%s/manifest.tsv", folder);
    FILE *f = fopen(path, "r");
    if (!f) {
        fprintf(stderr, "driver: no %s; run documents.py first\n", path);
        exit(2);
    }
    while (n_docs < 16 && fgets(line, sizeof line, f)) {
        document *d = &docs[n_docs++];
        unsigned long long len, top, all;
        int at = 0;
        if (sscanf(line, "%63s %llu %llu %llu%n", d->name, &len, &top, &all, &at) != 4) {
            exit(2);
        }
        if (!named(getenv("BB_DOCS"), d->name)) {
            n_docs--;
            continue;
        }
        snprintf(d->key, sizeof d->key, "%.*s", (int)strcspn(line + at + 1, "\n"), line + at + 1);
        d->len = len;
        d->top = top;
        d->all = all;
        d->bytes = malloc(len);
        snprintf(path, sizeof path, "%s/%s.bson", folder, d->name);
        FILE *b = fopen(path, "rb");
        if (!b || fread(d->bytes, 1, len, b) != len) {
            fprintf(stderr, "driver: %s isn't as the manifest says\n", path);
            exit(2);
        }
        fclose(b);
        bb_answer frames = {0, 0, 0}, values = {0, 0, 0}, visit = {0, 0, 0}, none = {0, 0, 0};
        walk(d->bytes, d->len, false, false, &frames, &values, d);
        walk(d->bytes, d->len, false, true, &none, &visit, NULL);
        d->frames_sum = frames.sum;
        d->values_sum = values.sum;
        d->visit_sum = visit.sum;
        if (values.count != top || visit.count != all) {
            fprintf(stderr, "driver: %s has other counts than the manifest\n", d->name);
            exit(2);
        }
    }
    fclose(f);
    /* under callgrind the large buffers cost more than what is measured */
    size_t n_keys = writes ? APPENDS : 0;
    keys = malloc(8 * n_keys + 1);
    for (int i = 0; i < (int)n_keys; i++) {
        uint8_t *k = keys + 8 * (size_t)i;
        k[0] = 'k';
        for (int at = 7, v = i; at > 0; at--, v /= 10) {
            k[at] = (uint8_t)('0' + v % 10);
        }
    }
    room = writes ? 32 << 20 : 16;
    buf = malloc(room);
    memset(buf, 1, room);
}

int main(int argc, char **argv) {
    if (argc < 3) {
        fprintf(stderr, "usage: driver IMPL DATA [check | once OP DOCUMENT N]\n");
        return 2;
    }
    static const document none = {.name = "1000000"};
    const char *mode = argc > 3 ? argv[3] : "";
    load(argv[2], strcmp(mode, "once") != 0 || (argc > 5 && strcmp(argv[5], none.name) == 0));
    for (size_t o = 0; o < sizeof ops / sizeof *ops; o++) {
        for (int i = 0; i < (ops[o].on_docs ? n_docs : 1); i++) {
            const document *d = ops[o].on_docs ? &docs[i] : &none;
            if (ops[o].only && !named(ops[o].only, d->name)) {
                continue;
            }
            if (strcmp(mode, "once") == 0) {
                if (argc > 6 && strcmp(argv[4], ops[o].name) == 0 && strcmp(argv[5], d->name) == 0) {
                    bb_answer got;
                    for (long c = atol(argv[6]); c > 0; c--) {
                        ops[o].run(d, &got);
                    }
                    printf("%lld %llu %llx\n", (long long)got.status, (unsigned long long)got.count,
                           (unsigned long long)got.sum);
                }
                continue;
            }
            if (!named(getenv("BB_OPS"), ops[o].name)) {
                continue;
            }
            if (checked(argv[1], &ops[o], d) && strcmp(mode, "check") != 0) {
                measure(argv[1], &ops[o], d);
            }
        }
    }
    return failures != 0;
}
