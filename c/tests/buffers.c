/* Every buffer one item short, at its exact size and one over, with memory on both sides that has to stay as it was, or
 * that can't be touched; documents and keys likewise; and what is said of lengths, offsets and limits at their edges. */
#include "documents.h"

#include <stdio.h>
#include <string.h>
#include <sys/mman.h>

#define PAGE 4096
#define PAGES 20 /* between two that can't be touched */

/* Some memory which begins, or ends, where memory that can't be touched ends, or begins. */
struct mapped {
    uint8_t *pages; /* those that may be touched */
    uint8_t *bytes; /* what was asked for */
    size_t len;
};

enum edge { AT_FRONT, AT_END };

static struct mapped map(size_t len, enum edge edge) {
    struct mapped m;
    uint8_t *all = mmap(NULL, (PAGES + 2) * PAGE, PROT_READ | PROT_WRITE, MAP_PRIVATE | MAP_ANONYMOUS, -1, 0);
    expect(all != MAP_FAILED && len <= PAGES * PAGE, "memory", "none");
    mprotect(all, PAGE, PROT_NONE);
    mprotect(all + (PAGES + 1) * PAGE, PAGE, PROT_NONE);
    m.pages = all + PAGE;
    memset(m.pages, 0xa5, PAGES * PAGE);
    m.bytes = edge == AT_FRONT ? m.pages : m.pages + PAGES * PAGE - len;
    m.len = len;
    return m;
}

static void unmap(struct mapped m) {
    munmap(m.pages - PAGE, (PAGES + 2) * PAGE);
}

/* These bytes, which can't be written. */
static struct mapped map_copy(const uint8_t *bytes, size_t len, enum edge edge) {
    struct mapped m = map(len, edge);
    memcpy(m.bytes, bytes, len);
    mprotect(m.pages, PAGES * PAGE, PROT_READ);
    return m;
}

/* Whether all but this many bytes at the front of what was asked for is as it was. */
static int is_left(struct mapped m, size_t len) {
    for (uint8_t *at = m.pages; at < m.pages + PAGES * PAGE; at++)
        if ((at < m.bytes || at >= m.bytes + len) && *at != 0xa5) return 0;
    return 1;
}

/* How many bytes a call needs for its form; a text has a 0 after it, which isn't counted. */
static size_t wanted(call *run, const struct whole *told) {
    return (size_t)told->report.count + (run == call_json && told->status == BSONRAW_OK);
}

/* A call with this room for the form and for the path, both at this edge; told is what it returns with ample rooms. */
static void fills_rooms(const struct document *d, call *run, const struct whole *told, const uint8_t *form, size_t form_room,
                        size_t path_room, enum edge edge) {
    struct mapped forms = map(form_room, edge), path = map(path_room * sizeof *told->path, edge);
    struct bsonraw_report r;
    int32_t status = run(d, forms.bytes, form_room, &r, (void *)path.bytes, path_room);
    size_t steps = told->report.path_len < path_room ? (size_t)told->report.path_len : path_room;
    size_t form_len = wanted(run, told);
    int fits = form_len <= form_room;
    expect(status == (told->status == BSONRAW_OK && !fits ? BSONRAW_SMALL_BUFFER : told->status), d->name, "another status with other room");
    expect(memcmp(&r, &told->report, sizeof r) == 0, d->name, "another report with other room");
    expect(!fits || memcmp(forms.bytes, form, form_len) == 0, d->name, "another form with other room");
    expect(is_left(forms, fits ? form_len : 0), d->name, "a byte is written that isn't to be written");
    expect(memcmp(path.bytes, told->path, steps * sizeof *told->path) == 0, d->name, "another path with other room");
    expect(is_left(path, steps * sizeof *told->path), d->name, "a number too many is written");
    unmap(forms);
    unmap(path);
}

static void fills(const struct document *d, call *run) {
    static struct whole ample;
    static uint8_t form[ROOM];
    size_t len, steps;
    ample.status = run(d, form, ROOM, &ample.report, ample.path, STEPS);
    len = wanted(run, &ample), steps = (size_t)ample.report.path_len;
    for (enum edge edge = AT_FRONT; edge <= AT_END; edge++) {
        fills_rooms(d, run, &ample, form, len, steps, edge);
        fills_rooms(d, run, &ample, form, len + 1, steps + 1, edge);
        fills_rooms(d, run, &ample, form, len ? len - 1 : 0, steps ? steps - 1 : 0, edge);
        fills_rooms(d, run, &ample, form, 0, 0, edge);
    }
}

/* Nothing but its bytes is read of a document, and none is written. */
static void reads_its_bytes(const struct document *d, enum edge edge) {
    static struct answers plain, mapped;
    struct mapped m = map_copy(d->bytes, d->len, edge);
    ask(&plain, d->bytes, d->len);
    ask(&mapped, m.bytes, d->len);
    expect(memcmp(&plain, &mapped, sizeof plain) == 0, d->name, "other answers from other memory");
    unmap(m);
}

/* The look-up of a key finds the first element of the walk that has it, and reads nothing but the key's bytes. */
static void finds(const struct document *d, enum edge edge) {
    static struct answers a;
    ask(&a, d->bytes, d->len);
    for (size_t at = 0; at < MOST && a.stepped[at] == BSONRAW_OK; at++) {
        const struct bsonraw_iter *e = &a.steps[at];
        struct bsonraw_iter f;
        size_t first = 0;
        while (a.steps[first].key_len != e->key_len ||
               memcmp(d->bytes + a.steps[first].key_at, d->bytes + e->key_at, e->key_len) != 0)
            first++;
        struct mapped key = map_copy(d->bytes + e->key_at, e->key_len, edge);
        expect(bsonraw_iter_init_find(&f, d->bytes, d->len, key.bytes, key.len) == BSONRAW_OK, d->name, "a key isn't found");
        expect(memcmp(&f, &a.found[at], sizeof f) == 0, d->name, "a key in other memory is found elsewhere");
        expect(memcmp(&f, &a.steps[first], sizeof f) == 0, d->name, "another element is found than by the walk");
        unmap(key);
    }
}

static int is_document(const struct document *d) {
    struct bsonraw_iter it;
    return bsonraw_iter_init(&it, d->bytes, d->len) == BSONRAW_OK;
}

/* A cursor at an offset before the first element or past the end is told, and no other. */
static void checks_offsets(const struct document *d) {
    struct bsonraw_iter begun, it;
    expect(bsonraw_iter_init(&begun, d->bytes, d->len) == BSONRAW_OK, d->name, "a document isn't begun");
    for (size_t at = 0; at < d->len + 3; at++) {
        it = begun;
        it.next = (uint32_t)at;
        int is_bad = bsonraw_iter_next(&it, d->bytes, d->len) == BSONRAW_BAD_OFFSET;
        expect(is_bad == (at < 4 || at > d->len), d->name, "an offset is checked wrongly");
    }
    it = begun;
    it.next = 4294967295u;
    expect(bsonraw_iter_next(&it, d->bytes, d->len) == BSONRAW_BAD_OFFSET, d->name, "the last offset is taken");
}

/* Whether a call over all levels says that these are no document, for this reason. */
static int says(const struct whole *w, uint32_t reason, size_t len) {
    struct bsonraw_report r;
    memset(&r, 0, sizeof r);
    r.key_at = len;
    r.error.kind = BSONRAW_MALFORMED;
    r.error.reason = reason;
    return w->status == BSONRAW_NO_DOCUMENT && memcmp(&r, &w->report, sizeof r) == 0;
}

/* All calls but one that needs no document say that these are no document, and why. */
static void refuses(const uint8_t *bytes, size_t len, uint32_t reason, const char *name) {
    static struct answers a;
    struct bsonraw_iter it;
    ask(&a, bytes, len);
    expect(a.stepped[0] == BSONRAW_NO_DOCUMENT && a.steps[0].error.reason == reason, name, "a cursor takes it");
    expect(bsonraw_iter_init_find(&it, bytes, len, (const uint8_t *)"", 0) == BSONRAW_NO_DOCUMENT && it.error.reason == reason, name,
           "a look-up takes it");
    expect(says(&a.form, reason, len), name, "canonical takes it");
    expect(says(&a.text, reason, len), name, "json takes it");
    expect(says(&a.fault, reason, len), name, "first_fault takes it");
    expect(says(&a.verdict, reason, len), name, "check takes it");
    expect(says(&a.flat, reason, len), name, "flatten takes it");
}

/* A document one byte short and one over is none. */
static void checks_lengths(const struct document *d, enum edge edge) {
    struct mapped longer = map(d->len + 1, edge), shorter = map_copy(d->bytes, d->len - 1, edge);
    memcpy(longer.bytes, d->bytes, d->len);
    longer.bytes[d->len] = 0;
    refuses(shorter.bytes, d->len - 1, d->len == 5 ? BSONRAW_TOO_SHORT : BSONRAW_LENGTH_INCORRECT, d->name);
    refuses(longer.bytes, d->len + 1, BSONRAW_LENGTH_INCORRECT, d->name);
    unmap(longer);
    unmap(shorter);
}

/* The document is within a limit of just its bytes, and not within one byte less, nor within no levels. */
static void checks_limits(const struct document *d) {
    uint8_t room = 0;
    struct bsonraw_report r;
    uint64_t path[1] = {7};
    expect(bsonraw_canonical(d->bytes, d->len, d->len, 500, &room, 0, &r, path, 0) != BSONRAW_TOO_MANY_BYTES, d->name,
           "its own length is too many bytes for a form");
    expect(bsonraw_canonical(d->bytes, d->len, d->len - 1, 500, &room, 0, &r, path, 1) == BSONRAW_TOO_MANY_BYTES, d->name,
           "a byte less than its length isn't too many for a form");
    expect(bsonraw_check(d->bytes, d->len, d->len, 500, &r, path, 0) != BSONRAW_TOO_MANY_BYTES, d->name, "its own length is too many to check");
    expect(bsonraw_check(d->bytes, d->len, d->len - 1, 500, &r, path, 1) == BSONRAW_TOO_MANY_BYTES, d->name, "a byte less is checked");
    expect(bsonraw_first_fault(d->bytes, d->len, d->len - 1, 0, &r, path, 1) == BSONRAW_TOO_MANY_BYTES, d->name, "a byte less has a fault");
    expect(bsonraw_first_fault(d->bytes, d->len, d->len, 0, &r, path, 1) == BSONRAW_TOO_DEEP, d->name, "no level is allowed, and it isn't too deep");
    expect(bsonraw_check(d->bytes, d->len, d->len, 0, &r, path, 1) == BSONRAW_TOO_DEEP, d->name, "no level is allowed, and it is checked");
    expect(path[0] == 7 && r.path_len == 0, d->name, "a limit has a path");
}

/* As many tokens, and as many numbers of a path, as there is room for, at this edge; the rest is as it was. */
static void flattens_in(const struct document *d, size_t room, size_t path_room, enum edge edge) {
    static struct bsonraw_token ample[ROOM];
    uint64_t ample_path[ROOM];
    struct bsonraw_report told, r;
    struct mapped tokens = map(room * sizeof *ample, edge), path = map(path_room * sizeof *ample_path, edge);
    struct mapped bytes = map_copy(d->bytes, d->len, edge);
    int32_t status = bsonraw_flatten(d->bytes, d->len, 1 << 24, 500, ample, ROOM, &told, ample_path, ROOM);
    int32_t other = bsonraw_flatten(bytes.bytes, d->len, 1 << 24, 500, (void *)tokens.bytes, room, &r, (void *)path.bytes, path_room);
    size_t fit = status != BSONRAW_OK ? 0 : told.count < room ? (size_t)told.count : room;
    size_t steps = told.path_len < path_room ? (size_t)told.path_len : path_room;
    expect(memcmp(&told, &r, sizeof r) == 0, d->name, "another report with other room");
    expect(other == (status == BSONRAW_OK && fit < told.count ? BSONRAW_SMALL_BUFFER : status), d->name, "tokens end otherwise");
    expect(memcmp(tokens.bytes, ample, fit * sizeof *ample) == 0, d->name, "other tokens with other room");
    expect(memcmp(path.bytes, ample_path, steps * sizeof *ample_path) == 0, d->name, "another path with other room");
    expect(status != BSONRAW_OK || is_left(tokens, fit * sizeof *ample), d->name, "a token too many is written");
    expect(is_left(path, steps * sizeof *ample_path), d->name, "a number too many is written");
    unmap(tokens);
    unmap(path);
    unmap(bytes);
}

static void flattens(const struct document *d) {
    static struct bsonraw_token ample[ROOM];
    uint64_t path[ROOM];
    struct bsonraw_report told;
    size_t count, steps;
    if (bsonraw_flatten(d->bytes, d->len, 1 << 24, 500, ample, ROOM, &told, path, ROOM) == BSONRAW_SMALL_BUFFER) return;
    count = (size_t)told.count, steps = (size_t)told.path_len;
    for (enum edge edge = AT_FRONT; edge <= AT_END; edge++) {
        flattens_in(d, count, steps, edge);
        flattens_in(d, count + 1, steps + 1, edge);
        flattens_in(d, count ? count - 1 : 0, steps ? steps - 1 : 0, edge);
        flattens_in(d, 0, 0, edge);
    }
}

static void look_at(const struct document *d) {
    fills(d, call_canonical);
    fills(d, call_json);
    fills(d, call_first_fault);
    fills(d, call_check);
    flattens(d);
    for (enum edge edge = AT_FRONT; edge <= AT_END; edge++) {
        reads_its_bytes(d, edge);
        finds(d, edge);
        if (is_document(d)) checks_lengths(d, edge);
    }
    if (!is_document(d)) return;
    checks_offsets(d);
    checks_limits(d);
}

int main(void) {
    static struct documents all;
    read_documents(&all);
    for (size_t at = 0; at < all.count; at++) look_at(&all.items[at]);
    /* no bytes, at an address that can't be read */
    struct mapped none = map(0, AT_END);
    refuses(none.bytes, 0, BSONRAW_TOO_SHORT, "no bytes");
    unmap(none);
    expect(bsonraw_version() == BSONRAW_VERSION, "version", "another than the header's");
    expect(bsonraw_layout_2() == 2, "layout", "another than its name says");
    return result("buffers");
}
