/* Each request for memory that a call makes, refused in turn, alone and with all that follow it: what comes with enough memory,
 * or BSONRAW_NO_MEMORY, and then the rooms are as they were. No call keeps a block, and all but twelve ask for none. */
#include "documents.h"

#include <stdio.h>
#include <stdlib.h>
#include <string.h>

void *__libc_malloc(size_t size);
void *__libc_realloc(void *old, size_t size);
void __libc_free(void *block);
size_t malloc_usable_size(void *block);

static size_t asked, refused; /* since the call began; the number of the request that is refused, or 0 */
static int from_there_on;     /* whether all that follow it are refused, too */
static size_t made, given_back;
static size_t in_use, peak; /* bytes */

static int is_refused(void) {
    asked++;
    return asked == refused || (from_there_on && refused != 0 && asked > refused);
}

static void use(size_t more, size_t less) {
    in_use += more - less;
    if (in_use > peak) peak = in_use;
}

void *malloc(size_t size) {
    void *block = is_refused() ? NULL : __libc_malloc(size);
    made += block != NULL;
    use(malloc_usable_size(block), 0);
    return block;
}

void *realloc(void *old, size_t size) {
    size_t before = malloc_usable_size(old);
    void *block = is_refused() ? NULL : __libc_realloc(old, size);
    made += old == NULL && block != NULL;
    if (block != NULL) use(malloc_usable_size(block), before);
    return block;
}

void free(void *block) {
    given_back += block != NULL;
    use(0, malloc_usable_size(block));
    __libc_free(block);
}

/* What a call returns, and what it leaves in its rooms. */
struct outcome {
    struct whole whole;
    uint8_t form[ROOM];
};

/* The call with its request of this number refused, or none for 0; it keeps no block. */
static void refuse(const struct document *d, call *run, size_t number, struct outcome *to) {
    memset(to, 0, sizeof *to);
    made = given_back = asked = 0;
    refused = number;
    to->whole.status = run(d, to->form, ROOM, &to->whole.report, to->whole.path, STEPS);
    refused = 0;
    expect(made == given_back, d->name, "a block is kept");
}

/* Whether nothing is reported, and nothing written. */
static int is_empty(const struct document *d, const struct outcome *o) {
    static struct outcome none;
    none.whole.status = BSONRAW_NO_MEMORY;
    none.whole.report.key_at = d->len;
    return memcmp(o, &none, sizeof none) == 0;
}

/* Refuses each request of a call in turn; how often memory ran out. */
static size_t refuse_each(const struct document *d, call *run) {
    static struct outcome ample, lacking;
    size_t ran_out = 0;
    refuse(d, run, 0, &ample);
    expect(ample.whole.status != BSONRAW_NO_MEMORY, d->name, "no memory, where there is some");
    for (size_t number = 1, requests = asked; number <= requests; number++) {
        refuse(d, run, number, &lacking);
        if (lacking.whole.status == BSONRAW_NO_MEMORY) {
            ran_out++;
            expect(is_empty(d, &lacking), d->name, "something is written, though there is no memory");
        } else {
            expect(memcmp(&ample, &lacking, sizeof ample) == 0, d->name, "another result, where a request is refused");
        }
    }
    return ran_out;
}

static size_t refuse_both_ways(const struct document *d, call *run) {
    size_t ran_out;
    from_there_on = 0;
    ran_out = refuse_each(d, run);
    from_there_on = 1;
    return ran_out + refuse_each(d, run);
}

/* A cursor and all that it does. */
static void go_through(const struct document *d) {
    struct bsonraw_entry entries[2];
    struct bsonraw_iter it, other;
    struct bsonraw_value value;
    uint64_t count;
    int32_t status = bsonraw_iter_init(&it, d->bytes, d->len);
    while (status == BSONRAW_OK) {
        status = bsonraw_iter_next(&it, d->bytes, d->len);
        (void)!bsonraw_iter_value(&it, d->bytes, d->len, &value);
        (void)!bsonraw_iter_recurse(&it, d->bytes, d->len, &other);
        (void)!bsonraw_iter_init_at(&other, d->bytes, d->len, value.more_at, value.more_len);
        (void)!bsonraw_iter_init_find(&other, d->bytes, d->len, d->bytes + it.key_at, it.key_len);
        (void)!bsonraw_iter_find(&other, d->bytes, d->len, BSONRAW_KEY("x"));
    }
    if (bsonraw_iter_init(&it, d->bytes, d->len) != BSONRAW_OK) return;
    other = it;
    (void)!bsonraw_iter_find_descendant(&other, d->bytes, d->len, BSONRAW_KEY("a.0"), '.');
    while (bsonraw_iter_next_many(&it, d->bytes, d->len, entries, 2, &count) == BSONRAW_OK) continue;
}

/* A document that is built of this one's elements, and of it. */
static void build(const struct document *d) {
    static uint8_t room[ROOM];
    struct bsonraw_builder builder, level;
    struct bsonraw_iter it;
    bsonraw_builder_begin(&builder, room, ROOM);
    bsonraw_append_array_begin(&builder, room, ROOM, BSONRAW_KEY("a"), &level);
    bsonraw_append_document(&level, room, ROOM, BSONRAW_NO_KEY, d->bytes, d->len);
    bsonraw_append_end(&builder, room, ROOM, &level);
    if (bsonraw_iter_init(&it, d->bytes, d->len) == BSONRAW_OK)
        while (bsonraw_iter_next(&it, d->bytes, d->len) == BSONRAW_OK) bsonraw_append_iter(&builder, room, ROOM, &it, d->bytes, d->len);
    (void)!bsonraw_builder_end(&builder, room, ROOM);
}

/* A flattening, whose tokens are its form: what is in the room for them is said of a document that has them. */
static int32_t call_flatten(const struct document *d, uint8_t *form, size_t form_len, struct bsonraw_report *report,
                            uint64_t *path, size_t path_room) {
    static struct bsonraw_token tokens[MOST];
    int32_t status = bsonraw_flatten(d->bytes, d->len, 1 << 24, LEVELS, tokens, MOST, report, path, path_room);
    if (status == BSONRAW_OK && report->count * sizeof *tokens <= form_len) memcpy(form, tokens, report->count * sizeof *tokens);
    return status;
}

/* Where documents go on after damage before this one; the report is the reader's place and what the search cost. */
static int32_t call_resync(const struct document *d, uint8_t *form, size_t form_len, struct bsonraw_report *report, uint64_t *path,
                           size_t path_room) {
    static uint8_t bytes[3 * ROOM];
    struct bsonraw_reader reader = {0, 0, 0, {0, 0, 0, 0, 0}};
    struct bsonraw_resync resync = {0, 0, 0, 0};
    int32_t status;
    (void)form, (void)form_len, (void)path, (void)path_room;
    memset(bytes, 255, 5);
    memcpy(bytes + 5, d->bytes, d->len);
    memcpy(bytes + 5 + d->len, d->bytes, d->len);
    status = bsonraw_reader_resync(&reader, bytes, 5 + 2 * d->len, ROOM, LEVELS, &resync);
    memset(report, 0, sizeof *report);
    report->count = reader.next, report->key_len = resync.spent, report->path_len = resync.reach, report->cause = resync.left_out;
    if (status == BSONRAW_NO_MEMORY) report->key_at = d->len;
    return status;
}

typedef int32_t reading(const uint8_t *text, size_t len, uint8_t *form, size_t form_len, struct bsonraw_json_report *report);

/* What is said of a text, as the report of a whole document by its place alone. */
static int32_t said(const struct document *d, int32_t status, const struct bsonraw_json_report *r, struct bsonraw_report *report) {
    memset(report, 0, sizeof *report);
    if (status == BSONRAW_NO_MEMORY) {
        expect(r->count == 0 && r->line > 0 && r->column > 0 && r->offset <= ROOM && r->json_reason == 0 && r->wrapper == 0, d->name, "out of memory has no place");
        report->key_at = d->len;
    } else {
        expect(status == BSONRAW_OK, d->name, "its text isn't read");
        report->count = r->count, report->error.offset = r->offset;
    }
    return status;
}

/* The document that the text of this one writes. */
static int32_t read_text(reading *read, const struct document *d, uint8_t *form, size_t form_len, struct bsonraw_report *report, uint64_t *path,
                         size_t path_room) {
    static uint8_t text[ROOM];
    struct bsonraw_json_report r;
    size_t number = refused;
    int32_t status;
    refused = 0;
    status = bsonraw_json(d->bytes, d->len, 1 << 24, LEVELS, 1, 0, text, ROOM, report, path, path_room);
    if (status != BSONRAW_OK) return status;
    asked = 0, refused = number;
    return said(d, read(text, (size_t)report->count, form, form_len, &r), &r, report);
}

/* What is in new memory, which is given back. */
static void give_back(uint8_t *own, int32_t status, uint64_t len, uint8_t *form, size_t form_len, const char *name) {
    expect((own != NULL) == (status == BSONRAW_OK), name, "it is in no new memory");
    if (own != NULL && len <= form_len) memcpy(form, own, (size_t)len);
    free(own);
}

static int32_t call_new_form(const struct document *d, uint8_t *form, size_t form_len, struct bsonraw_report *report, uint64_t *path,
                             size_t path_room) {
    uint8_t *own = d->bytes;
    int32_t status = bsonraw_canonical_new(d->bytes, d->len, 1 << 24, LEVELS, &own, report);
    (void)path, (void)path_room;
    give_back(own, status, report->count, form, form_len, d->name);
    return status;
}

static int32_t call_new_text(const struct document *d, uint8_t *form, size_t form_len, struct bsonraw_report *report, uint64_t *path,
                             size_t path_room) {
    char *own = NULL;
    int32_t status = bsonraw_json_new(d->bytes, d->len, 1 << 24, LEVELS, BSONRAW_JSON_CANONICAL | BSONRAW_JSON_INDENTED, &own, report);
    (void)path, (void)path_room;
    give_back((uint8_t *)own, status, report->count + 1, form, form_len, d->name);
    return status;
}

static int32_t read_new(const uint8_t *text, size_t len, uint8_t *form, size_t form_len, struct bsonraw_json_report *report) {
    uint8_t *own = NULL;
    int32_t status = bsonraw_from_json_new((const char *)text, len, 1 << 24, LEVELS, &own, report);
    give_back(own, status, report->count, form, form_len, "a document in new memory");
    return status;
}

static int32_t read_into(const uint8_t *text, size_t len, uint8_t *form, size_t form_len, struct bsonraw_json_report *report) {
    return bsonraw_from_json(text, len, 1 << 24, LEVELS, form, form_len, report);
}

static int32_t call_from_json(const struct document *d, uint8_t *form, size_t form_len, struct bsonraw_report *report, uint64_t *path,
                              size_t path_room) {
    return read_text(read_into, d, form, form_len, report, path, path_room);
}

static int32_t call_new_document(const struct document *d, uint8_t *form, size_t form_len, struct bsonraw_report *report, uint64_t *path,
                                 size_t path_room) {
    return read_text(read_new, d, form, form_len, report, path, path_room);
}

/* A document that is longer than most are by their texts. */
static int32_t call_new_list(const struct document *d, uint8_t *form, size_t form_len, struct bsonraw_report *report, uint64_t *path,
                             size_t path_room) {
    static const char text[] = "{\"a\":[1,1,1,1,1,1,1,1,1,1]}";
    struct bsonraw_json_report r;
    (void)path, (void)path_room;
    return said(d, read_new((const uint8_t *)text, sizeof text - 1, form, form_len, &r), &r, report);
}

/* The text in pieces, as far as it fits into the room. */
struct room {
    uint8_t *text;
    size_t len, room;
};

static int32_t put(void *context, const char *text, size_t len) {
    struct room *r = context;
    size_t left = r->room - r->len;
    memcpy(r->text + r->len, text, len < left ? len : left);
    r->len += len < left ? len : left;
    return BSONRAW_OK;
}

static int32_t call_pieces(const struct document *d, uint8_t *form, size_t form_len, struct bsonraw_report *report, uint64_t *path,
                           size_t path_room) {
    struct room r = {form, 0, form_len};
    return bsonraw_json_write(d->bytes, d->len, 1 << 24, LEVELS, BSONRAW_JSON_INDENTED, put, &r, report, path, path_room);
}

/* The last element's value as text. */
static int32_t call_value(const struct document *d, uint8_t *form, size_t form_len, struct bsonraw_report *report, uint64_t *path,
                          size_t path_room) {
    struct bsonraw_iter it, last = {0, 0, 0, 0, 0, 0, 0, 0, {0, 0, 0, 0, 0}};
    int32_t status = bsonraw_iter_init(&it, d->bytes, d->len);
    (void)path, (void)path_room;
    while (status == BSONRAW_OK && (status = bsonraw_iter_next(&it, d->bytes, d->len)) == BSONRAW_OK) last = it;
    return bsonraw_iter_json(&last, d->bytes, d->len, LEVELS, BSONRAW_JSON_INDENTED, (char *)form, form_len, report);
}

/* The calls that are asked for a length alone. */
static int32_t call_form_len(const struct document *d, uint8_t *form, size_t form_len, struct bsonraw_report *report, uint64_t *path,
                             size_t path_room) {
    (void)form_len;
    return call_canonical(d, form, 0, report, path, path_room);
}

static int32_t call_text_len(const struct document *d, uint8_t *form, size_t form_len, struct bsonraw_report *report, uint64_t *path,
                             size_t path_room) {
    (void)form_len;
    return call_json(d, form, 0, report, path, path_room);
}

/* Whether a call that was made took at most this many bytes. */
static void took(size_t before, size_t most, const char *name) {
    expect(peak - before <= most, name, "it takes more memory");
    peak = before;
}

/* Nulls in the innermost of this many levels, whose indented text has as many times their bytes. It is counted, and given in pieces, in
 * little memory; where a room is too small, no more is taken than twice that besides. */
static void look_at_text(size_t levels, size_t count) {
    const size_t len = 5 + (levels - 1) * 7 + count * 2, outer = (levels - 1) * 6 + levels * 2 + 2 * (levels - 1) * levels;
    const size_t text = outer + count * (1 + 2 * levels + 8 + 1), room = 1 << 20, little = (1 << 18) + 256 * levels;
    struct document d = {"deep nulls", needed(len), len};
    uint8_t *to = needed(room);
    struct bsonraw_report r;
    struct room none = {d.bytes, 0, 0};
    uint64_t path[1];
    size_t at, level, before;
    memset(d.bytes, 0, len);
    for (level = 0, at = 0; level < levels; level++, at += 6) {
        size_t size = len - level * 7;
        d.bytes[at] = (uint8_t)size, d.bytes[at + 1] = (uint8_t)(size >> 8), d.bytes[at + 2] = (uint8_t)(size >> 16);
        if (level < levels - 1) d.bytes[at + 4] = BSONRAW_TAG_DOCUMENT;
    }
    for (at -= 2; at < len - levels; at += 2) d.bytes[at] = BSONRAW_TAG_NULL;
    before = peak = in_use;
    expect(bsonraw_json_write(d.bytes, len, SIZE_MAX, levels, BSONRAW_JSON_INDENTED, NULL, NULL, &r, path, 1) == BSONRAW_OK && r.count == text, d.name, "it isn't counted");
    took(before, little, d.name);
    expect(bsonraw_json_write(d.bytes, len, SIZE_MAX, levels, BSONRAW_JSON_INDENTED, put, &none, &r, path, 1) == BSONRAW_OK, d.name, "it isn't given");
    took(before, little, d.name);
    expect(bsonraw_json(d.bytes, len, SIZE_MAX, levels, 0, 1, to, 0, &r, path, 1) == BSONRAW_SMALL_BUFFER && r.count == text, d.name, "its length isn't said");
    took(before, little, d.name);
    expect(bsonraw_json(d.bytes, len, SIZE_MAX, levels, 0, 1, to, room, &r, path, 1) == BSONRAW_SMALL_BUFFER && r.count == text, d.name, "its length isn't said of a room");
    took(before, little + 2 * room, d.name);
    free(to);
    free(d.bytes);
}

/* A large canonical document, whose length is that of its form, is asked for that in little memory. */
static void look_at_form(void) {
    const size_t len = 1 << 24, inner = len - 12;
    struct document d = {"large string", needed(len), len};
    struct bsonraw_report r;
    uint64_t path[1];
    size_t before;
    memset(d.bytes, 'a', len);
    memcpy(d.bytes, "\0\0\0\1\2a", 7);
    d.bytes[7] = (uint8_t)inner, d.bytes[8] = (uint8_t)(inner >> 8), d.bytes[9] = (uint8_t)(inner >> 16), d.bytes[10] = 0;
    d.bytes[len - 2] = d.bytes[len - 1] = 0;
    before = peak = in_use;
    expect(bsonraw_canonical(d.bytes, len, SIZE_MAX, 1, NULL, 0, &r, path, 1) == BSONRAW_SMALL_BUFFER && r.count == len, d.name, "another length");
    took(before, 1 << 10, d.name);
    free(d.bytes);
}

/* All but the calls over whole documents make no request. */
static void asks_for_nothing(const struct document *d) {
    struct bsonraw_reader reader = {0, 0, 0, {0, 0, 0, 0, 0}};
    asked = 0;
    go_through(d);
    build(d);
    (void)!bsonraw_reader_read(&reader, d->bytes, d->len);
    bsonraw_version();
    expect(asked == 0, d->name, "a call asks for memory that needs none");
}

int main(void) {
    static struct documents all;
    size_t forms = 0, form_lens = 0, texts = 0, text_lens = 0, faults = 0, verdicts = 0, rows = 0, reads = 0, searches = 0, pieces = 0, values = 0, made_anew = 0;
    read_documents(&all);
    for (size_t at = 0; at < all.count; at++) {
        const struct document *d = &all.items[at];
        forms += refuse_both_ways(d, call_canonical);
        form_lens += refuse_both_ways(d, call_form_len);
        texts += refuse_both_ways(d, call_json);
        text_lens += refuse_both_ways(d, call_text_len);
        faults += refuse_both_ways(d, call_first_fault);
        verdicts += refuse_both_ways(d, call_check);
        rows += refuse_both_ways(d, call_flatten);
        reads += refuse_both_ways(d, call_from_json);
        searches += refuse_both_ways(d, call_resync);
        pieces += refuse_both_ways(d, call_pieces);
        values += refuse_both_ways(d, call_value);
        made_anew += refuse_both_ways(d, call_new_form) > 0 && refuse_both_ways(d, call_new_text) > 0 && refuse_both_ways(d, call_new_document) > 0 &&
                     refuse_both_ways(d, call_new_list) > 0;
        asks_for_nothing(d);
    }
    expect(forms > 0 && form_lens > 0 && texts > 0 && text_lens > 0 && faults > 0 && verdicts > 0 && rows > 0 && reads > 0 && searches > 0 && pieces > 0 && values > 0 && made_anew > 0,
           "memory", "a call never ran out of it");
    look_at_text(500, 400000);
    look_at_text(12300, 20000);
    look_at_form();
    return result("memory");
}
