#include "documents.h"

#include <stdio.h>
#include <stdlib.h>
#include <string.h>

static size_t looked_at, gone_wrong;

void expect(int is_so, const char *name, const char *what) {
    looked_at++;
    if (is_so) return;
    gone_wrong++;
    fprintf(stderr, "%s: %s\n", name, what);
}

int result(const char *test) {
    if (looked_at == 0) fprintf(stderr, "%s: nothing was looked at\n", test);
    printf("%s: %lu looked at, %lu wrong\n", test, (unsigned long)looked_at, (unsigned long)gone_wrong);
    return gone_wrong != 0 || looked_at == 0;
}

void *needed(size_t len) {
    void *block = malloc(len + (len == 0));
    if (block == NULL) abort();
    return block;
}

static int digit(int character) {
    if ('0' <= character && character <= '9') return character - '0';
    if ('a' <= character && character <= 'f') return character - 'a' + 10;
    return -1;
}

/* Reads a name and the blank after it; 0 at the end of the input. */
static int read_name(struct document *to) {
    size_t len = 0;
    int character;
    while ((character = getchar()) != EOF && character != ' ')
        if (len + 1 < sizeof to->name) to->name[len++] = (char)character;
    to->name[len] = 0;
    return character == ' ';
}

static void read_bytes(struct document *to) {
    int high;
    to->bytes = needed(ROOM);
    to->len = 0;
    while ((high = digit(getchar())) >= 0 && to->len < ROOM)
        to->bytes[to->len++] = (uint8_t)(16 * high + digit(getchar()));
}

void read_documents(struct documents *to) {
    to->count = 0;
    while (to->count < 128 && read_name(&to->items[to->count])) read_bytes(&to->items[to->count++]);
    expect(to->count > 0, "standard input", "no documents");
}

int32_t call_canonical(const struct document *d, uint8_t *form, size_t form_len, struct bsonraw_report *report, uint64_t *path,
                       size_t path_room) {
    return bsonraw_canonical(d->bytes, d->len, 1 << 24, LEVELS, form, form_len, report, path, path_room);
}

int32_t call_json(const struct document *d, uint8_t *form, size_t form_len, struct bsonraw_report *report, uint64_t *path,
                  size_t path_room) {
    return bsonraw_json(d->bytes, d->len, 1 << 24, LEVELS, 1, 0, form, form_len, report, path, path_room);
}

int32_t call_first_fault(const struct document *d, uint8_t *form, size_t form_len, struct bsonraw_report *report,
                         uint64_t *path, size_t path_room) {
    (void)form, (void)form_len;
    return bsonraw_first_fault(d->bytes, d->len, 1 << 24, LEVELS, report, path, path_room);
}

int32_t call_check(const struct document *d, uint8_t *form, size_t form_len, struct bsonraw_report *report, uint64_t *path,
                   size_t path_room) {
    (void)form, (void)form_len;
    return bsonraw_check(d->bytes, d->len, 1 << 24, LEVELS, report, path, path_room);
}

/* The walk, up to its end or to MOST steps; the value, the look-up and the inside of each; and what is built of them. */
static void walk(struct answers *to, const uint8_t *bytes, size_t len) {
    struct bsonraw_iter it;
    int32_t status = bsonraw_iter_init(&it, bytes, len);
    size_t number = 0;
    bsonraw_builder_begin(&to->builder, to->built, ROOM);
    do {
        if (status == BSONRAW_OK) status = bsonraw_iter_next(&it, bytes, len);
        to->stepped[number] = status;
        to->steps[number] = it;
        if (it.key_at < len)
            to->looked_up[number] = bsonraw_iter_init_find(&to->found[number], bytes, len, bytes + it.key_at, it.key_len);
        to->valued[number] = bsonraw_iter_value(&it, bytes, len, &to->values[number]);
        to->entered[number] = bsonraw_iter_recurse(&it, bytes, len, &to->inside[number]);
        if (status == BSONRAW_OK) bsonraw_append_iter(&to->builder, to->built, ROOM, &it, bytes, len);
    } while (++number < MOST && status == BSONRAW_OK);
    (void)!bsonraw_builder_end(&to->builder, to->built, ROOM);
}

/* The same elements in one call, and the first document of the bytes. */
static void list(struct answers *to, const uint8_t *bytes, size_t len) {
    struct bsonraw_iter it;
    to->listed = bsonraw_iter_init(&it, bytes, len);
    if (to->listed == BSONRAW_OK) to->listed = bsonraw_iter_next_many(&it, bytes, len, to->entries, MOST, &to->entry_count);
    to->read = bsonraw_reader_read(&to->reader, bytes, len);
}

void ask(struct answers *to, const uint8_t *bytes, size_t len) {
    struct document d;
    memset(to, 0, sizeof *to);
    d.bytes = (uint8_t *)(uintptr_t)bytes;
    d.len = len;
    walk(to, bytes, len);
    list(to, bytes, len);
    to->form.status = call_canonical(&d, to->form_bytes, ROOM, &to->form.report, to->form.path, STEPS);
    to->text.status = call_json(&d, to->text_bytes, ROOM, &to->text.report, to->text.path, STEPS);
    to->fault.status = call_first_fault(&d, NULL, 0, &to->fault.report, to->fault.path, STEPS);
    to->verdict.status = call_check(&d, NULL, 0, &to->verdict.report, to->verdict.path, STEPS);
    to->flat.status = bsonraw_flatten(bytes, len, 1 << 24, LEVELS, to->tokens, MOST, &to->flat.report, to->flat.path, STEPS);
}
