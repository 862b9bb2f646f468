/* Damaged files: after damage a stream goes on where a reader of all bytes in memory does, whatever of the file it has in memory; and of a
 * large file with some lengths damaged it keeps all but a few documents. */
#include "documents.h"

#include <stdio.h>
#include <stdlib.h>
#include <string.h>
#include <unistd.h>

#define NOT_BLOCKING 2048 /* O_NONBLOCK */

int pipe2(int ends[2], int flags);

enum { SIZE = 2000000, FOUND = 100000, DEEPEST = 50 };

static uint8_t *data; /* the file */
static size_t len;

static void is(int64_t number, int64_t wanted, const char *name) {
    expect(number == wanted, name, "another number");
}

static uint32_t any(uint32_t below) {
    static uint64_t state = 11;
    state = state * 6364136223846793005u + 1442695040888963407u;
    return (uint32_t)((state >> 33) % below);
}

static void put_length(size_t at, uint32_t number) {
    int i;
    for (i = 0; i < 4; i++) data[at + (size_t)i] = (uint8_t)(number >> 8 * i);
}

/* Puts a document of about this many bytes after the others. */
static void put_document(size_t size) {
    uint8_t id[12], *at = data + len;
    size_t i;
    for (i = 0; i < sizeof id; i++) id[i] = (uint8_t)any(256);
    put_length(len, (uint32_t)(4 + 17 + 8 + size + 1));
    memcpy(at + 4, "\7_id", 5), memcpy(at + 9, id, 12);
    memcpy(at + 21, "\5b", 3), put_length(len + 24, (uint32_t)size);
    at[28] = 128;
    for (i = 0; i < size; i++) at[29 + i] = (uint8_t)(any(4) ? 0 : any(256));
    at[29 + size] = 0;
    len += 30 + size;
}

/* Bytes that are no document: all one number, any, or lengths that may be. */
static void put_junk(size_t size) {
    uint32_t kind = any(4);
    for (; size > 0; size--, len++) data[len] = (uint8_t)(kind == 0 ? 0 : kind == 1 ? 255 : kind == 2 ? any(256) : any(3) == 0 ? any(40) : 0);
}

/* A file of documents, some of which have a wrong length, or an element of no kind, and junk between some. */
static void make(size_t most, int damaged, size_t junk) {
    len = 0;
    while (len < SIZE - 5 * most - junk) {
        size_t at = len;
        put_document(any((uint32_t)most - 30));
        switch (any(60) < (uint32_t)damaged ? any(7) : 9) {
        case 0: put_length(at, any(0x7fffffff)); break;
        case 1: put_length(at, 0u - any(1000)); break;
        case 2: put_length(at, (uint32_t)(len - at) + any(100)); break;
        case 3: put_length(at, 5 + any((uint32_t)most)); break;
        case 4: data[at + 4] = 0x66; break;
        case 5: data[len - 1] = 1; break;
        case 6: put_junk(any((uint32_t)junk) + 1); break;
        default: break;
        }
    }
    len -= any(40);
}

static uint64_t found[FOUND], found_len[FOUND];

static int has_fault(const uint8_t *bytes, size_t bytes_len, size_t most) {
    struct bsonraw_report r;
    return bsonraw_first_fault(bytes, bytes_len, most, DEEPEST, &r, NULL, 0) != BSONRAW_OK;
}

/* Where the documents without a fault are by a reader of all; 0 where a place was left out, as cost bounds the search. */
static size_t find_all(size_t most, int *is_all) {
    struct bsonraw_reader reader = {0, 0, 0, {0, 0, 0, 0, 0}};
    struct bsonraw_resync resync = {0, 0, 0, 0};
    size_t count = 0;
    int32_t status;
    *is_all = 1;
    while ((status = bsonraw_reader_read(&reader, data, len)) != BSONRAW_NONE) {
        if (status == BSONRAW_OK && reader.document_len <= most && !has_fault(data + reader.document_at, reader.document_len, most)) {
            found[count] = reader.document_at, found_len[count++] = reader.document_len;
            continue;
        }
        is(bsonraw_reader_resync(&reader, data, len, most, DEEPEST, &resync), BSONRAW_OK, "a search in memory");
        if (resync.left_out) *is_all = 0;
    }
    return count;
}

/* Whether a stream finds the same. */
static void finds_all(struct bsonraw_stream *s, size_t count, size_t most, const char *name) {
    size_t at = 0;
    int32_t status;
    s->max_bytes = most;
    while ((status = bsonraw_stream_read(s)) != BSONRAW_NONE) {
        if (status == BSONRAW_OK && !has_fault(s->bytes, s->len, most)) {
            expect(at < count && found[at] == s->offset && found_len[at] == s->len && memcmp(data + found[at], s->bytes, s->len) == 0, name, "another document");
            at++;
            continue;
        }
        status = bsonraw_stream_resync(s, most, DEEPEST);
        is(status, BSONRAW_OK, name);
        if (status != BSONRAW_OK) break;
        is(bsonraw_stream_resync(s, most, DEEPEST), BSONRAW_BAD_OFFSET, "a second search");
    }
    is((int64_t)at, (int64_t)count, name);
    is((int64_t)s->offset, (int64_t)len, "where the file ends");
    bsonraw_stream_free(s);
}

static FILE *file_of(void) {
    FILE *file = tmpfile();
    expect(file != NULL && fwrite(data, 1, len, file) == len, "a file", "none");
    rewind(file);
    return file;
}

static void look_at_damage(void) {
    static const size_t sizes[] = {64, 300, 4096, 70000};
    int turn, all = 0;
    for (turn = 0; turn < 24; turn++) {
        size_t most = sizes[turn % 4], count;
        struct bsonraw_stream s;
        FILE *file;
        int is_all;
        make(most, turn % 3 == 0 ? 60 : turn % 3 == 1 ? 3 : 20, turn % 5 == 0 ? 400000 : 900);
        count = find_all(most, &is_all);
        if (!is_all) continue;
        all++;
        file = file_of();
        is(turn % 2 ? bsonraw_stream_from_fd(&s, fileno(file)) : bsonraw_stream_from_file(&s, file), BSONRAW_OK, "a file");
        finds_all(&s, count, most, "a damaged file");
        fclose(file);
    }
    expect(all > 12, "damaged files", "too few are looked at in full");
}

/* Where the first search ends, a length that may be is before two documents, and another one is after it: it isn't believed, since the
 * damage comes before it. */
static void look_at_length(void) {
    size_t at = 65536, count, i;
    struct bsonraw_stream s;
    FILE *file;
    int is_all;
    memset(data, 0, at + 4);
    len = at + 4;
    put_document(0), put_document(0);
    data[len++] = 0;
    put_length(at, (uint32_t)(len - at));
    for (i = 0; i < 20; i++) put_document(i);
    count = find_all(100, &is_all);
    is((int64_t)count, 22, "a length where a search ends");
    is((int64_t)found[0], (int64_t)at + 4, "a length where a search ends");
    file = file_of();
    bsonraw_stream_from_fd(&s, fileno(file));
    finds_all(&s, count, 100, "a length where a search ends");
    fclose(file);
}

/* Of 100,000 documents with 20 lengths damaged, these 20 are lost. */
static void look_at_many(void) {
    enum { MANY = 100000, DAMAGED = 20 };
    struct bsonraw_stream s;
    FILE *file;
    size_t number, kept = 0;
    int32_t status;
    len = 0;
    free(data);
    data = needed(MANY * 64);
    for (number = 0; number < MANY; number++) {
        size_t at = len;
        put_document(10 + number % 20);
        if (number % (MANY / DAMAGED) == 17) put_length(at, number % 2 ? 0x7fffffff : 3);
    }
    file = file_of();
    bsonraw_stream_from_fd(&s, fileno(file));
    s.max_bytes = 1 << 16;
    while ((status = bsonraw_stream_read(&s)) != BSONRAW_NONE) {
        if (status == BSONRAW_OK) kept++;
        else if (bsonraw_stream_resync(&s, 1 << 16, 100) != BSONRAW_OK) break;
    }
    is((int64_t)kept, MANY - DAMAGED, "many documents");
    bsonraw_stream_free(&s);
    fclose(file);
}

/* Where a file has no bytes yet, a search is called once more; and where no damage is, there is none. */
static void look_at_waiting(void) {
    struct bsonraw_stream s;
    int ends[2], turns = 0;
    size_t at, wrong;
    int32_t status;
    is(bsonraw_stream_resync(NULL, 9, 9), BSONRAW_NULL, "no stream");
    len = 0;
    put_document(9), wrong = len, put_document(9), put_document(9), put_document(9);
    put_length(wrong, 0);
    is(pipe2(ends, NOT_BLOCKING), 0, "a pipe");
    is(bsonraw_stream_from_fd(&s, ends[0]), BSONRAW_OK, "a pipe");
    is(bsonraw_stream_resync(&s, 99, 9), BSONRAW_BAD_OFFSET, "a search before a document is read");
    is(bsonraw_stream_read(&s), BSONRAW_NOT_READ, "no byte yet");
    is(bsonraw_stream_resync(&s, 99, 9), BSONRAW_NOT_READ, "no byte yet");
    is(write(ends[1], data, wrong + 4), (int64_t)wrong + 4, "bytes");
    is(bsonraw_stream_read(&s), BSONRAW_OK, "a document");
    is(bsonraw_stream_read(&s), BSONRAW_NO_DOCUMENT, "a wrong length");
    for (at = wrong + 4; (status = bsonraw_stream_resync(&s, 99, 9)) == BSONRAW_NOT_READ; at += 7, turns++) {
        if (at < len) is(write(ends[1], data + at, len - at < 7 ? len - at : 7), len - at < 7 ? (int64_t)(len - at) : 7, "bytes");
        else if (ends[1] >= 0) close(ends[1]), ends[1] = -1;
    }
    is(status, BSONRAW_OK, "a search that waited");
    expect(turns > 10, "a search that waited", "it didn't wait");
    is(bsonraw_stream_read(&s), BSONRAW_OK, "the next document");
    is((int64_t)s.offset, (int64_t)(wrong + (len - wrong) / 3), "the next document");
    is(bsonraw_stream_read(&s), BSONRAW_OK, "the last document");
    is(bsonraw_stream_read(&s), BSONRAW_NONE, "the end");
    is(bsonraw_stream_resync(&s, 99, 9), BSONRAW_NONE, "the end");
    bsonraw_stream_free(&s);
    close(ends[0]);
}

/* A cut of any length at the end. */
static void look_at_cuts(void) {
    size_t cut, whole;
    len = 0;
    put_document(9), put_document(20);
    whole = len;
    for (cut = 1; cut < 50; cut++) {
        struct bsonraw_stream s;
        FILE *file;
        len = whole - cut;
        file = file_of();
        bsonraw_stream_from_file(&s, file);
        is(bsonraw_stream_read(&s), BSONRAW_OK, "a document before a cut");
        is(bsonraw_stream_read(&s), BSONRAW_CUT, "a cut");
        is(bsonraw_stream_resync(&s, 100, 9), BSONRAW_OK, "after a cut");
        is(bsonraw_stream_read(&s), BSONRAW_NONE, "after a cut");
        is((int64_t)s.offset, (int64_t)len, "after a cut");
        bsonraw_stream_free(&s);
        fclose(file);
    }
}

static const uint8_t one[] = "\14\0\0\0\20a\0\1\0\0\0\0";

/* Where a search goes on, at the end of the first 65,536 bytes, a damaged document holds one, which isn't passed over with it. */
static void look_at_step(void) {
    struct bsonraw_stream s;
    FILE *file;
    len = 65536 + 200;
    memset(data, 0, len);
    put_length(0, 0xFFFFFFFFu), put_length(65536, 29);
    memcpy(data + 65540, "\5b\0\14\0\0\0\0", 8), memcpy(data + 65548, one, 12), memcpy(data + 65560, "\10t\0\2", 4);
    memcpy(data + 65600, one, 12);
    file = file_of();
    bsonraw_stream_from_file(&s, file);
    is(bsonraw_stream_read(&s), BSONRAW_NO_DOCUMENT, "a wrong length");
    is(bsonraw_stream_resync(&s, 99, 9), BSONRAW_OK, "a search in two steps");
    is(bsonraw_stream_read(&s), BSONRAW_OK, "the first document");
    is((int64_t)s.offset, 65548, "the first document");
    bsonraw_stream_free(&s);
    fclose(file);
}

/* A document goes on after what is read first. */
static void look_at_last_bytes(void) {
    struct bsonraw_stream s;
    FILE *file;
    len = 65536 + 300;
    memset(data, 0, len);
    put_length(0, 0xFFFFFFFFu);
    memcpy(data + 65536 + 2 * 99 - 6, one, 12);
    file = file_of();
    bsonraw_stream_from_file(&s, file);
    is(bsonraw_stream_read(&s), BSONRAW_NO_DOCUMENT, "a wrong length");
    is(bsonraw_stream_resync(&s, 99, 9), BSONRAW_OK, "a search that reads on");
    is(bsonraw_stream_read(&s), BSONRAW_OK, "a document that goes on");
    is((int64_t)s.offset, 65536 + 2 * 99 - 6, "a document that goes on");
    bsonraw_stream_free(&s);
    fclose(file);
}

/* Where a search goes on, there is the key of a document that is nested, or the 0 after it; that document isn't one of the dump. */
static void look_at_key(size_t zero) {
    struct bsonraw_stream s;
    FILE *file;
    len = 65536 + 200;
    memset(data, 0, len);
    put_length(0, 0xFFFFFFFFu);
    data[zero - 10] = 3, memset(data + zero - 9, 'k', 9);
    memcpy(data + zero + 1, one, 12), memcpy(data + 65600, one, 12);
    file = file_of();
    bsonraw_stream_from_file(&s, file);
    is(bsonraw_stream_read(&s), BSONRAW_NO_DOCUMENT, "a wrong length");
    is(bsonraw_stream_resync(&s, 99, 9), BSONRAW_OK, "a search over a key");
    is(bsonraw_stream_read(&s), BSONRAW_OK, "the document after the nested one");
    is((int64_t)s.offset, 65600, "the document after the nested one");
    bsonraw_stream_free(&s);
    fclose(file);
}

int main(void) {
    data = needed(SIZE);
    look_at_damage();
    look_at_length();
    look_at_waiting();
    look_at_cuts();
    look_at_step();
    look_at_last_bytes();
    look_at_key(65540);
    look_at_key(65536);
    look_at_many();
    free(data);
    return result("streams");
}
