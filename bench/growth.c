/* The calls of daily use of the C library on one document, each in a function of its own, for growth.py.
 *
 * usage: growth DOCUMENT once               each call once, for callgrind, which counts the functions op_NAME
 *        growth DOCUMENT clock              a line of each: NAME, a tab, nanoseconds of the processor, the least of some samples
 *        growth DOCUMENT memory NAME DEPTH  of one, with this limit of depth: seconds of the processor, the least of three, a tab, MiB at
 *                                           the first one's peak over what was there before
 *
 * A call that the document isn't fit for is left out. Aborts where one doesn't return what it has to. */
#define _GNU_SOURCE
#include <bsonraw.h>
#include <stdio.h>
#include <stdlib.h>
#include <string.h>

#include "clock.h"

#define ALL ((size_t)2147483647)
#define OP __attribute__((noinline, used)) static void
#define SAMPLE 2e6 /* nanoseconds of the processor that a sample takes at least */
#define SAMPLES 7
#define MOST_TIME 2e9 /* after this many no further sample is taken */

struct bytes {
    uint8_t *at;
    size_t len;
};

static struct bytes document, repeated, text, path, room;
static struct bsonraw_report report;
static struct bsonraw_token *tokens;
static size_t token_count, top_count;
static struct bsonraw_iter *levels;
static size_t level_count;
static struct bsonraw_buffer buffer;

static void wants(int holds, const char *what) {
    if (holds) return;
    fprintf(stderr, "growth: %s doesn't return what it has to\n", what);
    abort();
}

static struct bytes memory(size_t len) {
    struct bytes made = {malloc(len + 1), len};
    wants(made.at != NULL, "malloc");
    memset(made.at, 1, len + 1);
    return made;
}

/* ---- the calls ---- */

OP op_next(void) {
    struct bsonraw_iter it;
    size_t found = 0;
    wants(bsonraw_iter_init(&it, document.at, document.len) == BSONRAW_OK, "bsonraw_iter_init");
    while (bsonraw_iter_next(&it, document.at, document.len) == BSONRAW_OK) found++;
    wants(found == top_count, "bsonraw_iter_next");
}

OP op_find(void) {
    struct bsonraw_iter it;
    wants(bsonraw_iter_init(&it, document.at, document.len) == BSONRAW_OK, "bsonraw_iter_init");
    wants(bsonraw_iter_find_descendant(&it, document.at, document.len, path.at, path.len, 0) == BSONRAW_OK, "bsonraw_iter_find_descendant");
}

OP op_walk(void) {
    size_t found = 0, depth = 0;
    wants(bsonraw_iter_init(levels, document.at, document.len) == BSONRAW_OK, "bsonraw_iter_init");
    for (;;) {
        struct bsonraw_iter *it = levels + depth;
        if (bsonraw_iter_next(it, document.at, document.len) == BSONRAW_OK) {
            found++;
            if (bsonraw_iter_recurse(it, document.at, document.len, it + 1) == BSONRAW_OK) depth++;
        } else if (depth-- == 0) {
            break;
        }
    }
    wants(found == token_count, "bsonraw_iter_recurse");
}

static void put_tokens(void) {
    wants(bsonraw_flatten(document.at, document.len, ALL, ALL, tokens, token_count, &report, NULL, 0) == BSONRAW_OK, "bsonraw_flatten");
}

OP op_flatten(void) { put_tokens(); }

static size_t most_deep = ALL;

/* Whether a call went well. A document may be too deep where a limit is given. */
static int is_well(int32_t status) {
    return status == BSONRAW_OK || (status == BSONRAW_TOO_DEEP && most_deep < ALL);
}

OP op_first_fault(void) {
    wants(is_well(bsonraw_first_fault(document.at, document.len, ALL, most_deep, &report, NULL, 0)), "bsonraw_first_fault");
}

OP op_check(void) {
    int32_t status = bsonraw_check(document.at, document.len, ALL, most_deep, &report, NULL, 0);
    wants(is_well(status) || (status == BSONRAW_BREACH && report.cause == BSONRAW_REPEATED_KEY), "bsonraw_check");
}

static void form_of(struct bytes bytes) {
    wants(is_well(bsonraw_canonical(bytes.at, bytes.len, ALL, most_deep, room.at, room.len, &report, NULL, 0)), "bsonraw_canonical");
}

OP op_form(void) { form_of(document); }
OP op_form_repeated(void) { form_of(repeated); }

static void put_text(void) {
    wants(bsonraw_json(document.at, document.len, ALL, ALL, 0, 0, text.at, text.len + 1, &report, NULL, 0) == BSONRAW_OK, "bsonraw_json");
}

OP op_json(void) { put_text(); }

OP op_from_json(void) {
    struct bsonraw_json_report found;
    wants(bsonraw_from_json(text.at, text.len, ALL, ALL, room.at, room.len, &found) == BSONRAW_OK, "bsonraw_from_json");
}

/* One element of its parts; the tags are those that growth.py writes. */
static void append(const struct bsonraw_token *token, int in_array) {
    const char *key = in_array ? NULL : (const char *)document.at + token->key_at;
    const uint8_t *payload = document.at + token->payload_at;
    size_t head = token->tag == BSONRAW_TAG_STRING ? 4 : 0;
    if (token->tag == BSONRAW_TAG_DOCUMENT) bsonraw_buffer_begin_document(&buffer, key);
    else if (token->tag == BSONRAW_TAG_ARRAY) bsonraw_buffer_begin_array(&buffer, key);
    else bsonraw_buffer_append(&buffer, token->tag, key, payload + head, token->payload_len - (head ? 5 : 0), NULL, 0);
}

OP op_build(void) {
    uint32_t depth = 0;
    size_t i;
    wants(bsonraw_buffer_init(&buffer) == BSONRAW_OK, "bsonraw_buffer_init");
    for (i = 0; i < token_count; i++) {
        for (; depth > tokens[i].depth; depth--) bsonraw_buffer_end(&buffer);
        append(tokens + i, buffer.level.tag == BSONRAW_TAG_ARRAY);
        if (tokens[i].tag == BSONRAW_TAG_DOCUMENT || tokens[i].tag == BSONRAW_TAG_ARRAY) depth++;
    }
    for (; depth > 0; depth--) bsonraw_buffer_end(&buffer);
    wants(bsonraw_buffer_finish(&buffer) == BSONRAW_OK && buffer.len == document.len, "bsonraw_buffer_finish");
    bsonraw_buffer_free(&buffer);
}

/* ---- what they are given ---- */

static void read_document(const char *name) {
    FILE *file = fopen(name, "rb");
    wants(file && fseek(file, 0, SEEK_END) == 0, name);
    document = memory((size_t)ftell(file));
    rewind(file);
    wants(fread(document.at, 1, document.len, file) == document.len, name);
    fclose(file);
    room = memory(document.len);
}

static void flatten(void) {
    size_t i;
    wants(bsonraw_flatten(document.at, document.len, ALL, ALL, NULL, 0, &report, NULL, 0) == BSONRAW_SMALL_BUFFER, "bsonraw_flatten");
    token_count = (size_t)report.count;
    tokens = calloc(token_count, sizeof *tokens);
    wants(tokens != NULL, "calloc");
    put_tokens();
    for (i = 0; i < token_count; i++) {
        top_count += tokens[i].depth == 0;
        if (tokens[i].depth + 2 > level_count) level_count = tokens[i].depth + 2;
    }
    levels = calloc(level_count, sizeof *levels);
    wants(levels != NULL, "calloc");
}

/* The path to the last element, and to the last one in it, and so on, with 0 between its steps. */
static void choose_path(void) {
    size_t begin = 0, end = token_count, len = 0, last;
    path = memory(document.len);
    while (begin < end) {
        for (last = begin; last + 1 + tokens[last].inside < end; last += 1 + tokens[last].inside) {}
        if (begin > 0) path.at[len++] = 0;
        memcpy(path.at + len, document.at + tokens[last].key_at, tokens[last].key_len);
        len += tokens[last].key_len;
        begin = last + 1;
        end = begin + tokens[last].inside;
    }
    path.len = len;
}

/* The document with its first key in place of its last one, where both are as long. */
static void repeat_key(void) {
    struct bsonraw_iter it;
    uint32_t first_at, first_len, last_at = 0, last_len = 0;
    wants(bsonraw_iter_init(&it, document.at, document.len) == BSONRAW_OK && bsonraw_iter_next(&it, document.at, document.len) == BSONRAW_OK,
          "bsonraw_iter_next");
    first_at = it.key_at;
    first_len = it.key_len;
    while (bsonraw_iter_next(&it, document.at, document.len) == BSONRAW_OK) {
        last_at = it.key_at;
        last_len = it.key_len;
    }
    if (last_at == 0 || last_len != first_len) return;
    repeated = memory(document.len);
    memcpy(repeated.at, document.at, document.len);
    memcpy(repeated.at + last_at, document.at + first_at, first_len);
}

static void print_text(void) {
    wants(bsonraw_json(document.at, document.len, ALL, ALL, 0, 0, NULL, 0, &report, NULL, 0) == BSONRAW_SMALL_BUFFER, "bsonraw_json");
    text = memory((size_t)report.count);
    put_text();
}

/* ---- how they are measured ---- */

static const struct op {
    const char *name;
    void (*run)(void);
} ops[] = {
    {"next", op_next},   {"find", op_find},   {"walk", op_walk},
    {"build", op_build}, {"flatten", op_flatten}, {"first_fault", op_first_fault},
    {"check", op_check}, {"form", op_form},   {"form_repeated", op_form_repeated},
    {"json", op_json},   {"from_json", op_from_json},
};

static double least_time(void (*run)(void)) {
    double begun = now(), least = time_of(run, 1), each;
    double calls = least < SAMPLE ? 1 + (double)(long)(SAMPLE / (least + 1)) : 1;
    int sample;
    for (sample = 0; sample < SAMPLES && now() - begun < MOST_TIME; sample++)
        if ((each = time_of(run, calls)) < least) least = each;
    return least;
}

/* Of this program alone: what getrusage says begins with the peak of the process that started it. */
static double peak_mib(void) {
    char line[128];
    double kib = 0;
    FILE *status = fopen("/proc/self/status", "r");
    wants(status != NULL, "/proc/self/status");
    while (fgets(line, sizeof line, status) && sscanf(line, "VmHWM: %lf", &kib) != 1) {}
    fclose(status);
    return kib / 1024;
}

static int measure_memory(const struct op *op) {
    double before, peak, least, again;
    int i;
    if (op->run == op_form_repeated) {
        repeat_key();
        if (!repeated.at) return 0;
    }
    before = peak_mib();
    least = time_of(op->run, 1);
    peak = peak_mib();
    for (i = 0; i < 2; i++)
        if ((again = time_of(op->run, 1)) < least) least = again;
    printf("%.3f\t%.1f\n", least / 1e9, peak - before);
    return 0;
}

static const struct op *op_named(const char *name) {
    size_t i;
    for (i = 0; i < sizeof ops / sizeof *ops; i++)
        if (strcmp(ops[i].name, name) == 0) return ops + i;
    return NULL;
}

int main(int argc, char **argv) {
    size_t i;
    int is_clock = argc == 3 && strcmp(argv[2], "clock") == 0;
    const struct op *one = argc == 5 && strcmp(argv[2], "memory") == 0 ? op_named(argv[3]) : NULL;
    if (!one && !is_clock && (argc != 3 || strcmp(argv[2], "once") != 0)) {
        fprintf(stderr, "usage: growth DOCUMENT once|clock|memory NAME DEPTH\n");
        return 2;
    }
    read_document(argv[1]);
    if (one) {
        most_deep = strtoul(argv[4], NULL, 10);
        return measure_memory(one);
    }
    flatten();
    choose_path();
    repeat_key();
    print_text();
    for (i = 0; i < sizeof ops / sizeof *ops; i++) {
        if (ops[i].run == op_form_repeated && !repeated.at) continue;
        if (is_clock) printf("%s\t%.1f\n", ops[i].name, least_time(ops[i].run));
        else ops[i].run();
    }
    return 0;
}
