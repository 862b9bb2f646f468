/* Damaged buffers: documents go on where a slow search by the header's rule finds that they do, and what lies whole in a buffer is
 * kept. The damage is of the kinds that dumps have: lengths, bits, pages, cuts, insertions. What it costs is bounded. */
#include "documents.h"

#include <stdlib.h>
#include <string.h>

enum { MOST_DOCUMENTS = 300, LONGEST = 4096, SIZE = MOST_DOCUMENTS * LONGEST, DEEPEST = 50, KINDS = 15 };

static size_t count = MOST_DOCUMENTS;

static uint64_t seed = 1;

static uint32_t any(uint32_t below) {
    seed = seed * 6364136223846793005u + 1442695040888963407u;
    return (uint32_t)((seed >> 33) % below);
}

static uint8_t *whole, *data; /* the documents one after the other, and a damaged copy */
static size_t starts[MOST_DOCUMENTS + 1], len;

static void fill(uint8_t *to, size_t many, int letters) {
    while (many-- > 0) *to++ = (uint8_t)(letters ? 'a' + any(26) : any(256));
}

/* A document with an identifier of its own, and some more; the kind holders have three documents in a binary. */
static size_t make(uint8_t *room, uint32_t number, int is_holder) {
    static uint8_t some[LONGEST], inner[3 * 256];
    struct bsonraw_builder b, level;
    size_t at = 0;
    uint32_t i;
    bsonraw_builder_begin(&b, room, LONGEST);
    fill(some, 12, 0);
    bsonraw_append_oid(&b, room, LONGEST, BSONRAW_KEY("_id"), some);
    bsonraw_append_int32(&b, room, LONGEST, BSONRAW_KEY("n"), (int32_t)number);
    fill(some, 900, any(2) == 0);
    if (is_holder) {
        for (i = 0; i < 3; i++) {
            struct bsonraw_builder held;
            bsonraw_builder_begin(&held, inner + at, 256);
            bsonraw_append_utf8(&held, inner + at, 256, BSONRAW_KEY("held"), (const uint8_t *)"held in a binary", 16);
            if (bsonraw_builder_end(&held, inner + at, 256) == BSONRAW_OK) at += held.len;
        }
        bsonraw_append_binary(&b, room, LONGEST, BSONRAW_KEY("b"), 0, inner, at);
    } else if (any(3) == 0) {
        bsonraw_append_binary(&b, room, LONGEST, BSONRAW_KEY("blob"), 0, some, any(900));
    } else {
        bsonraw_append_array_begin(&b, room, LONGEST, BSONRAW_KEY("lines"), &level);
        for (i = any(9); i > 0; i--) bsonraw_append_double(&level, room, LONGEST, BSONRAW_NO_KEY, any(1000) / 8.0);
        bsonraw_append_end(&b, room, LONGEST, &level);
    }
    expect(bsonraw_builder_end(&b, room, LONGEST) == BSONRAW_OK, "resync", "a document isn't built");
    return b.len;
}

static void make_all(int are_holders) {
    starts[0] = 0;
    for (size_t i = 0; i < count; i++) starts[i + 1] = starts[i] + make(whole + starts[i], (uint32_t)i, are_holders);
}

static void put_length(size_t at, uint32_t number) {
    for (int i = 0; i < 4; i++) data[at + (size_t)i] = (uint8_t)(number >> 8 * i);
}

/* Some bytes are taken out, and others put in. */
static void splice(size_t at, size_t cut, size_t put, int letters) {
    memmove(data + at + put, data + at + cut, len - at - cut);
    fill(data + at, put, letters);
    len = len - cut + put;
}

static void spoil_lengths(int kind) {
    for (size_t i = 0; i < count; i++) {
        uint32_t own = (uint32_t)(starts[i + 1] - starts[i]);
        if (kind == 0 && i % 3 == 0) put_length(starts[i], 0x7fffffff);
        if (kind == 1 && i % 3 == 1) put_length(starts[i], 0u - own);
        if (kind == 2 && i % 20 == 0) put_length(starts[i], own + 7);
        if (kind == 3 && i % 10 == 5) put_length(starts[i], own - 3);
        if (kind == 4 && i == count / 7) put_length(starts[i], (uint32_t)(len / 2));
        if (kind == 5 && i % 50 == 9 && i + 2 <= count) put_length(starts[i], (uint32_t)(starts[i + 2] - starts[i]));
        if (kind == 13 && i % 2 == 0) data[starts[i] + 4] = 0x66;
    }
}

static void spoil(int kind) {
    len = starts[count];
    memcpy(data, whole, len);
    spoil_lengths(kind == 14 ? 13 : kind);
    if (kind == 6)
        for (int i = 0; i < 10; i++) data[starts[any((uint32_t)count)] + any(4)] ^= (uint8_t)(1u << any(8));
    if (kind == 7)
        for (int i = 0; i < 50; i++) data[any((uint32_t)len)] ^= (uint8_t)(1u << any(8));
    for (int i = 0; i < 4; i++) {
        size_t at = any((uint32_t)len - 3000);
        if (kind == 8 || kind == 9) memset(data + at, kind == 8 ? 0 : 255, 2048);
        if (kind == 10) splice(at, 777, 0, 0);
        if (kind == 11) splice(at, 0, 1 + any(2000), 0);
    }
    if (kind == 12) len -= 25;
}

/* ---- the rule, by a slow search */

static size_t piece(size_t at) {
    uint32_t said = 0;
    if (at + 5 > len) return 0;
    for (int i = 3; i >= 0; i--) said = said << 8 | data[at + (size_t)i];
    return said >= 5 && said <= len - at ? said : 0;
}

static size_t sound(size_t at) {
    struct bsonraw_report r;
    uint64_t path[1];
    size_t n = piece(at);
    return n != 0 && bsonraw_first_fault(data + at, n, n, DEEPEST, &r, path, 0) == BSONRAW_OK ? n : 0;
}

/* Whether bytes are UTF-8. */
static int is_text(const uint8_t *text, size_t n) {
    static const uint32_t least[] = {0, 0x80, 0x800, 0x10000};
    for (size_t i = 0; i < n;) {
        size_t more = text[i] < 0x80 ? 0 : text[i] < 0xe0 ? 1 : text[i] < 0xf0 ? 2 : 3;
        uint32_t code = more == 0 ? text[i] : text[i] & (0x3fu >> more);
        if ((text[i] >= 0x80 && text[i] < 0xc2) || text[i] > 0xf4 || i + more >= n) return 0;
        for (size_t k = 1; k <= more; k++) {
            if ((text[i + k] & 0xc0) != 0x80) return 0;
            code = code << 6 | (text[i + k] & 0x3f);
        }
        if (code < least[more] || code > 0x10ffff || (code >= 0xd800 && code < 0xe000)) return 0;
        i += more + 1;
    }
    return 1;
}

/* Whether a tag 3, 4 or 16, a key of 1 to 64 bytes, none under 32, and its 0 are right before a place, after the damage. */
static int is_behind_key(size_t damage, size_t at) {
    size_t key = at - 1;
    if (data[at - 1] != 0) return 0;
    while (key > damage && at - 1 - key <= 64 && data[key - 1] >= 32) key--;
    if (key == damage || key == at - 1 || at - 1 - key > 64) return 0;
    return (data[key - 1] == 3 || data[key - 1] == 4 || data[key - 1] == 16) && is_text(data + key, at - 1 - key);
}

static int goes_on(size_t damage, size_t at) {
    return at == len || (piece(at) > 8 && !is_behind_key(damage, at) && sound(at) != 0);
}

/* Whether the elements of the outermost level follow one another up to the final 0. */
static int is_framed(size_t at, size_t n) {
    struct bsonraw_iter it;
    int32_t status = bsonraw_iter_init(&it, data + at, n);
    while (status == BSONRAW_OK) status = bsonraw_iter_next(&it, data + at, n);
    return status == BSONRAW_NONE;
}

static int is_believed(size_t at, size_t n) {
    if (is_framed(at, n)) return 1;
    for (size_t inner = at + 1; inner < at + n; inner++)
        if (goes_on(at, inner)) return 0;
    return at + n == len || (piece(at + n) > 8 && sound(at + n) != 0);
}

static size_t onward(size_t damage) {
    size_t n = piece(damage), at = damage + 1;
    if (n != 0 && is_believed(damage, n)) return damage + n;
    while (!goes_on(damage, at)) at++;
    return at;
}

/* How many of the documents are in the buffer as they were, in their order. */
static size_t lie_whole(void) {
    size_t at = 0, found = 0;
    for (size_t i = 0; i < count; i++) {
        size_t n = starts[i + 1] - starts[i], place = at;
        while (place + n <= len && (data[place] != whole[starts[i]] || memcmp(data + place, whole + starts[i], n) != 0)) place++;
        if (place + n > len) continue;
        found++;
        at = place + n;
    }
    return found;
}

/* Whether this is one of the documents from a number on, which then is the number after it. */
static int is_next(const uint8_t *document, size_t n, size_t *number) {
    for (size_t i = *number; i < count; i++)
        if (n == starts[i + 1] - starts[i] && memcmp(document, whole + starts[i], n) == 0) return *number = i + 1, 1;
    return 0;
}

static void goes_on_as(struct bsonraw_reader *reader, struct bsonraw_resync *resync, size_t damage, const char *name) {
    struct bsonraw_reader before = *reader;
    int32_t status = bsonraw_reader_resync(reader, data, len, LONGEST * 100, DEEPEST, resync);
    expect(status == BSONRAW_OK && resync->left_out == 0, name, "a search fails");
    expect(reader->next == onward(damage), name, "documents go on elsewhere");
    expect(resync->believed == (reader->next == damage + piece(damage) && is_believed(damage, piece(damage))), name, "a length is believed wrong");
    expect(resync->spent <= 8 * resync->reach && resync->reach <= len, name, "too much is charged");
    before.next = reader->next;
    expect(memcmp(&before, reader, sizeof before) == 0, name, "more is changed than where documents go on");
}

/* What lies whole is kept, except one in fifty at most: one after bytes that end as a key does, or in one that nobody wrote. */
static void rescue(const char *name) {
    struct bsonraw_reader reader = {0, 0, 0, {0, 0, 0, 0, 0}};
    struct bsonraw_resync resync = {0, 0, 0, 0};
    size_t kept = 0, number = 0, found = lie_whole();
    int32_t status;
    while ((status = bsonraw_reader_read(&reader, data, len)) != BSONRAW_NONE && kept <= count) {
        size_t damage = (size_t)(status == BSONRAW_OK ? reader.document_at : reader.error.offset);
        if (status == BSONRAW_OK && sound(damage) == reader.document_len)
            kept += (size_t)is_next(data + damage, (size_t)reader.document_len, &number);
        else
            goes_on_as(&reader, &resync, damage, name);
    }
    expect(kept <= found && kept * 50 >= found * 49, name, "documents that lie whole aren't kept");
}

/* Documents that begin one in the other's text and end together, where none is UTF-8: to look into each would cost too much. */
static void costs_too_much(void) {
    enum { STEPS_IN = 200, HEAD = 11 };
    struct bsonraw_reader reader = {0, 0, 0, {0, 0, 0, 0, 0}};
    struct bsonraw_resync resync = {0, 0, 0, 0};
    size_t end = 4 + STEPS_IN * HEAD + 3;
    len = end;
    memset(data, 'x', len);
    put_length(0, 0xffffffff);
    for (size_t at = 4; at + HEAD + 3 <= end; at += HEAD) {
        put_length(at, (uint32_t)(end - at));
        data[at + 4] = 2, data[at + 5] = 0;
        put_length(at + 6, (uint32_t)(end - at - HEAD));
    }
    memcpy(data + end - 3, "\377\0", 3);
    expect(bsonraw_reader_read(&reader, data, len) == BSONRAW_NO_DOCUMENT, "cost", "there is a document");
    expect(bsonraw_reader_resync(&reader, data, len, len, DEEPEST, &resync) == BSONRAW_OK, "cost", "a search fails");
    expect(resync.left_out == 1 && resync.believed == 0 && reader.next == len, "cost", "no place is left out");
    expect(resync.spent <= 8 * resync.reach && resync.reach <= len, "cost", "too much is charged");
}

/* Fields that name no place, or no search that could have been. */
static void refuses(uint64_t fault_at, uint64_t document_at, uint64_t document_len, uint64_t spent, uint64_t reach) {
    struct bsonraw_reader reader = {0, 0, 7, {1, 2, 3, 4, 0}}, before;
    struct bsonraw_resync resync = {0, 0, 5, 6}, old;
    reader.error.offset = fault_at, reader.document_at = document_at, reader.document_len = document_len;
    resync.spent = spent, resync.reach = reach;
    before = reader, old = resync;
    expect(bsonraw_reader_resync(&reader, data, 9, 100, 100, &resync) == BSONRAW_BAD_OFFSET, "fields", "they are taken");
    expect(memcmp(&before, &reader, sizeof reader) == 0 && memcmp(&old, &resync, sizeof old) == 0, "fields", "they are changed");
}

/* With an argument, of fewer documents. */
int main(int many, char **words) {
    (void)words;
    if (many > 1) count = 60;
    whole = needed(SIZE), data = needed(2 * SIZE);
    for (int kind = 0; kind < KINDS; kind++) {
        char name[] = "kind a";
        name[5] = (char)('a' + kind);
        make_all(kind == 14);
        spoil(kind);
        rescue(name);
    }
    costs_too_much();
    refuses(9, 0, 0, 0, 0);
    refuses(0, 9, 1, 0, 0);
    refuses(0, 0, 0, 1, 0);
    refuses(0, 0, 0, 73, 9);
    refuses(0, 0, 0, 0, 10);
    refuses((uint64_t)-1, 0, 0, (uint64_t)-1, (uint64_t)-1);
    return result("resync");
}
