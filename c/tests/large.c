/* Documents and dumps of sizes at which numbers of 31 and of 32 bits end, and one of very many levels on a small stack. Memory
 * that nothing is written to takes none. */
#include <bsonraw.h>

#include <pthread.h>
#include <stdio.h>
#include <string.h>
#include <sys/mman.h>

#define GREETING "\23\0\0\0\2hi\0\6\0\0\0y\47all\0"
#define MOST 2147483647u            /* the greatest length of a document */
#define FAR (((size_t)1 << 32) + 19) /* more than 32 bits say */
#define LEVELS 2000000u
#define STACK (256u * 1024)
#define ROOM (16u * 1024 * 1024) /* for a document of this many levels, its form or its text */

static int status;

static void expect(int is_so, const char *what) {
    if (is_so) return;
    fprintf(stderr, "large: %s\n", what);
    status = 1;
}

static void put_32(uint8_t *at, uint32_t number) {
    int i;
    for (i = 0; i < 4; i++) at[i] = (uint8_t)(number >> 8 * i);
}

/* The longest document, of one binary, whose elements all calls find. */
static void look_at_longest(uint8_t *bytes) {
    uint32_t size = MOST - 4 - 3 - 5 - 1;
    struct bsonraw_iter it;
    struct bsonraw_entry entry;
    struct bsonraw_value value;
    struct bsonraw_report r;
    struct bsonraw_token token;
    uint64_t count, path[1];
    memset(bytes, 0, 32);
    put_32(bytes, MOST);
    memcpy(bytes + 4, "\5b", 3);
    put_32(bytes + 7, size);
    expect(bsonraw_iter_init(&it, bytes, MOST) == BSONRAW_OK && it.document_len == MOST, "the longest document");
    expect(bsonraw_iter_next_many(&it, bytes, MOST, &entry, 1, &count) == BSONRAW_OK && entry.payload_len == size + 5, "its entry");
    expect(bsonraw_iter_next(&it, bytes, MOST) == BSONRAW_NONE && it.key_at == MOST && it.next == MOST - 1, "its end");
    expect(bsonraw_iter_init_find(&it, bytes, MOST, (const uint8_t *)"b", 1) == BSONRAW_OK && it.next == MOST - 1, "its element");
    expect(bsonraw_iter_value(&it, bytes, MOST, &value) == BSONRAW_OK && value.text_at == 12 && value.text_len == size, "its value");
    expect(bsonraw_first_fault(bytes, MOST, MOST, 1, &r, path, 1) == BSONRAW_OK && r.key_at == MOST, "its faults");
    expect(bsonraw_check(bytes, MOST, MOST, 1, &r, path, 1) == BSONRAW_OK, "whether it is canonical");
    expect(bsonraw_flatten(bytes, MOST, MOST, 1, &token, 1, &r, path, 1) == BSONRAW_OK && r.count == 1 && token.payload_len == size + 5, "its token");
    put_32(bytes + 7, size + 1);
    expect(bsonraw_iter_init(&it, bytes, MOST) == BSONRAW_OK, "a binary that takes the final 0");
    expect(bsonraw_iter_next(&it, bytes, MOST) == BSONRAW_OK && it.next == MOST, "its element");
    expect(bsonraw_iter_next(&it, bytes, MOST) == BSONRAW_FAULT && it.error.reason == BSONRAW_OVERFLOWED && it.error.offset == MOST, "its stop");
    expect(bsonraw_first_fault(bytes, MOST, MOST, 1, &r, path, 1) == BSONRAW_FAULT && r.error.offset == MOST && path[0] == 1, "where it stops");
    expect(bsonraw_check(bytes, MOST, MOST, 1, &r, path, 1) == BSONRAW_BREACH && r.cause == BSONRAW_STOP && r.error.offset == MOST, "that it stops");
    expect(bsonraw_iter_init(&it, bytes, (size_t)MOST + 1) == BSONRAW_NO_DOCUMENT, "a byte more than the length says");
}

/* A document of very many levels, each but the innermost holding the next under the empty key. */
static void *look_at_deepest(void *memory) {
    uint8_t *bytes = memory, *at = bytes;
    uint32_t inside, len = 5 + 7 * (LEVELS - 1);
    struct bsonraw_report r;
    struct bsonraw_token token;
    uint64_t path[1];
    for (inside = LEVELS - 1; inside > 0; inside--, at += 6) {
        put_32(at, 5 + 7 * inside);
        at[4] = 3;
        at[5] = 0;
    }
    put_32(at, 5);
    expect(bsonraw_flatten(bytes, len, len, LEVELS, &token, 1, &r, path, 1) == BSONRAW_SMALL_BUFFER && r.count == LEVELS - 1, "the deepest document");
    expect(token.depth == 0 && token.inside == LEVELS - 2, "its first token");
    expect(bsonraw_flatten(bytes, len, len, LEVELS - 1, &token, 1, &r, path, 1) == BSONRAW_TOO_DEEP && r.path_len == LEVELS - 1, "where it is too deep");
    expect(bsonraw_first_fault(bytes, len, len, LEVELS, &r, path, 1) == BSONRAW_OK, "the faults of the deepest document");
    expect(bsonraw_check(bytes, len, len, LEVELS, &r, path, 1) == BSONRAW_OK, "whether the deepest document is canonical");
    return NULL;
}

/* A document of very many levels, each but the innermost holding the next under the empty key, that one these many nulls under one
 * key. Returns its length. */
static uint32_t nest(uint8_t *bytes, uint32_t nulls) {
    uint8_t *at = bytes;
    uint32_t inside;
    for (inside = LEVELS - 1; inside > 0; inside--, at += 6) {
        put_32(at, 5 + 3 * nulls + 7 * inside);
        at[4] = 3;
        at[5] = 0;
    }
    put_32(at, 5 + 3 * nulls);
    for (at += 4; nulls > 0; nulls--, at += 3) memcpy(at, "\12a", 3);
    memset(at, 0, LEVELS);
    return (uint32_t)(at - bytes) + LEVELS;
}

/* What is written of such documents: of one that is canonical, and of one that differs from its form in its innermost level. */
static void *write_deepest(void *memory) {
    uint8_t *bytes = memory, *wanted = bytes + ROOM, *form = wanted + ROOM;
    char *text = (char *)(form + ROOM);
    uint32_t form_len = nest(wanted, 1), nulls;
    struct bsonraw_report r;
    uint64_t path[1];
    for (nulls = 1; nulls <= 2; nulls++) {
        uint32_t len = nest(bytes, nulls), text_len = 5 * (LEVELS - 1) + 9 * nulls + 1;
        expect(bsonraw_canonical(bytes, len, len, LEVELS, form, ROOM, &r, path, 1) == BSONRAW_OK && r.count == form_len, "the deepest form");
        expect(memcmp(form, wanted, form_len) == 0, "its bytes");
        expect(bsonraw_canonical(bytes, len, len, LEVELS - 1, form, ROOM, &r, path, 1) == BSONRAW_TOO_DEEP, "a form that is too deep");
        expect(bsonraw_json(bytes, len, len, LEVELS, 0, 0, (uint8_t *)text, ROOM, &r, path, 1) == BSONRAW_OK && r.count == text_len, "the deepest text");
        expect(memcmp(text, "{\"\":{\"\":", 8) == 0 && memcmp(text + text_len - 8, "}}}}}}}}", 8) == 0, "its braces");
        expect(memcmp(text + 4 * (LEVELS - 1), nulls == 1 ? "{\"a\":null}" : "{\"a\":null,", 10) == 0, "its innermost level");
    }
    return NULL;
}

static void on_a_small_stack(void *(*look)(void *), void *memory) {
    pthread_attr_t small;
    pthread_t thread;
    int runs = pthread_attr_init(&small) == 0 && pthread_attr_setstacksize(&small, STACK) == 0 && pthread_create(&thread, &small, look, memory) == 0;
    expect(runs && pthread_join(thread, NULL) == 0, "a thread with a small stack");
}

/* Bytes of which 32 bits would say 19. */
static void look_at_far(uint8_t *bytes) {
    struct bsonraw_iter it;
    struct bsonraw_reader reader;
    struct bsonraw_report r;
    uint64_t path[1];
    uint8_t form[19];
    memset(&reader, 0, sizeof reader);
    memcpy(bytes, GREETING, 19);
    memcpy(bytes + FAR - 19, GREETING, 19);
    expect(bsonraw_iter_init(&it, bytes, FAR) == BSONRAW_NO_DOCUMENT && it.error.reason == BSONRAW_LENGTH_INCORRECT, "too many bytes");
    expect(it.key_at == 4294967295u && it.key_len == 0, "an offset that isn't there");
    expect(bsonraw_first_fault(bytes, FAR, FAR, 9, &r, path, 1) == BSONRAW_NO_DOCUMENT && r.key_at == FAR, "their first fault");
    expect(bsonraw_check(bytes, FAR, FAR, 9, &r, path, 1) == BSONRAW_NO_DOCUMENT && r.error.reason == BSONRAW_LENGTH_INCORRECT, "their check");
    expect(bsonraw_canonical(bytes, FAR, FAR, 9, form, 19, &r, path, 1) == BSONRAW_NO_DOCUMENT && r.count == 0, "their form");
    expect(bsonraw_iter_init_at(&it, bytes, FAR, 0, 19) == BSONRAW_OK && bsonraw_iter_next(&it, bytes, FAR) == BSONRAW_OK && it.tag == 2, "the greeting");
    expect(bsonraw_iter_init_at(&it, bytes, FAR, 4294967290u, 19) == BSONRAW_BAD_OFFSET, "an offset that 32 bits don't say");
    expect(bsonraw_reader_read(&reader, bytes, FAR) == BSONRAW_OK && reader.document_len == 19 && reader.next == 19, "a dump");
    reader.next = FAR - 19;
    expect(bsonraw_reader_read(&reader, bytes, FAR) == BSONRAW_OK && reader.document_at == FAR - 19 && reader.next == FAR, "its last document");
    expect(bsonraw_reader_read(&reader, bytes, FAR) == BSONRAW_NONE && reader.document_at == FAR, "its end");
    reader.next = FAR + 1;
    expect(bsonraw_reader_read(&reader, bytes, FAR) == BSONRAW_BAD_OFFSET, "an offset past the end");
}

int main(void) {
    uint8_t *bytes = mmap(NULL, FAR, PROT_READ | PROT_WRITE, MAP_PRIVATE | MAP_ANONYMOUS | MAP_NORESERVE, -1, 0);
    if (bytes == MAP_FAILED) {
        printf("large: no address space is there for it\n");
        return 0;
    }
    look_at_longest(bytes);
    on_a_small_stack(look_at_deepest, bytes);
    on_a_small_stack(write_deepest, bytes);
    look_at_far(bytes);
    if (status == 0) printf("documents and dumps are read up to the greatest lengths, and 2,000,000 levels are read and written on a small stack\n");
    return status;
}
