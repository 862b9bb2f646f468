/* Documents from a file of bsonraw.h, over the calls that the library exports. Tested, not proved. */
#define BSONRAW_UNCHECKED
#include "bsonraw.h"

#include <errno.h>
#include <stdlib.h>
#include <unistd.h>

#define LONGEST 2147483647u /* bytes of a document */
#define STEP 65536u         /* bytes that are read at once, at least */
#define LONGEST_KEY 64u     /* bytes of a key that says of the document after it that it is nested */

/* The length that four bytes say. */
static uint32_t length_at(const uint8_t *bytes) {
    return (uint32_t)bytes[0] | (uint32_t)bytes[1] << 8 | (uint32_t)bytes[2] << 16 | (uint32_t)bytes[3] << 24;
}

static int32_t begin_stream(struct bsonraw_stream *stream, FILE *file, int fd) {
    if (stream == NULL) return BSONRAW_NULL;
    memset(stream, 0, sizeof *stream);
    stream->max_bytes = LONGEST;
    stream->file = file;
    stream->fd = fd;
    return BSONRAW_OK;
}

int32_t bsonraw_stream_from_fd(struct bsonraw_stream *stream, int fd) {
    return begin_stream(stream, NULL, fd);
}

int32_t bsonraw_stream_from_file(struct bsonraw_stream *stream, FILE *file) {
    int32_t status = begin_stream(stream, file, -1);
    return status == BSONRAW_OK && file == NULL ? stream->status = BSONRAW_NULL : status;
}

void bsonraw_stream_free(struct bsonraw_stream *stream) {
    if (stream == NULL) return;
    free(stream->memory);
    memset(stream, 0, sizeof *stream);
    stream->status = BSONRAW_NONE;
}

/* Makes room after what was read: moves it to the front where that moves no more than was passed by, or takes twice the memory. */
static int32_t make_room(struct bsonraw_stream *stream) {
    size_t room = stream->room < STEP ? STEP : 2 * stream->room;
    uint8_t *memory;
    if (stream->ends < stream->room) return BSONRAW_OK;
    if (stream->begins > 0 && stream->begins >= stream->ends - stream->begins) {
        memmove(stream->memory, stream->memory + stream->begins, stream->ends - stream->begins);
        stream->ends -= stream->begins;
        stream->begins = 0;
        return BSONRAW_OK;
    }
    memory = realloc(stream->memory, room);
    if (memory == NULL) return BSONRAW_NO_MEMORY;
    stream->memory = memory;
    stream->room = room;
    return BSONRAW_OK;
}

/* Reads what comes next, of a FILE no more than is needed: BSONRAW_NONE at the end. */
static int32_t read_on(struct bsonraw_stream *stream, size_t wanted) {
    uint8_t *to = stream->memory + stream->ends;
    size_t room = stream->room - stream->ends;
    ssize_t count;
    if (stream->file != NULL) {
        count = (ssize_t)fread(to, 1, wanted < room ? wanted : room, stream->file);
        if (count == 0 && ferror(stream->file)) return BSONRAW_NOT_READ;
    } else {
        do count = read(stream->fd, to, room);
        while (count < 0 && errno == EINTR);
        if (count < 0) return BSONRAW_NOT_READ;
    }
    stream->ends += (size_t)count;
    return count == 0 ? BSONRAW_NONE : BSONRAW_OK;
}

/* Reads until this many bytes of the document are there. */
static int32_t fill(struct bsonraw_stream *stream, size_t wanted) {
    int32_t status = BSONRAW_OK;
    while (status == BSONRAW_OK && stream->ends - stream->begins < wanted) {
        status = make_room(stream);
        if (status == BSONRAW_OK) status = read_on(stream, wanted - (stream->ends - stream->begins));
    }
    return status;
}

/* What comes of a document where this much of it is there, and no more. */
static int32_t show(struct bsonraw_stream *stream, size_t wanted, int32_t status) {
    size_t there = stream->ends - stream->begins;
    stream->bytes = stream->memory + stream->begins;
    stream->len = there < wanted ? there : wanted;
    return status == BSONRAW_NONE && there > 0 ? BSONRAW_CUT : status;
}

static int32_t next_document(struct bsonraw_stream *stream) {
    struct bsonraw_iter it;
    uint32_t len;
    int32_t status = fill(stream, 4);
    if (status != BSONRAW_OK) return status == BSONRAW_NONE ? show(stream, 4, status) : status;
    len = length_at(stream->memory + stream->begins);
    if (len < 5 || len > LONGEST) {
        stream->error.kind = BSONRAW_MALFORMED;
        stream->error.reason = BSONRAW_LENGTH_INCORRECT;
        stream->error.offset = stream->offset;
        return BSONRAW_NO_DOCUMENT;
    }
    if (len > stream->max_bytes) return BSONRAW_TOO_MANY_BYTES;
    status = fill(stream, len);
    if (status != BSONRAW_OK && status != BSONRAW_NONE) return status;
    status = show(stream, len, status);
    if (status != BSONRAW_OK) return status;
    status = bsonraw_iter_init(&it, stream->bytes, len);
    stream->error = it.error;
    if (status != BSONRAW_OK) stream->error.offset = stream->offset;
    return status;
}

int32_t bsonraw_stream_read(struct bsonraw_stream *stream) {
    static const struct bsonraw_error none;
    if (stream == NULL) return BSONRAW_NULL;
    if (stream->status != BSONRAW_OK && stream->status != BSONRAW_NOT_READ &&
        (stream->status != BSONRAW_NO_DOCUMENT || stream->error.reason != BSONRAW_NOT_TERMINATED))
        return stream->status;
    stream->begins += stream->len;
    stream->offset += stream->len;
    stream->bytes = NULL;
    stream->len = 0;
    stream->error = none;
    return stream->status = next_document(stream);
}

/* ---- after damage ---- */

/* Whether these bytes say a length that a document of at most this many bytes may have. */
static int is_length(const uint8_t *bytes, size_t left, size_t most) {
    return left >= 4 && length_at(bytes) >= 5 && length_at(bytes) <= most;
}

/* Where documents go on in what was read, after its first byte; what the searches cost is counted from the stream's first byte on. */
static int32_t search(struct bsonraw_stream *stream, size_t most, size_t max_depth, size_t *next) {
    struct bsonraw_reader reader = {0, 0, 0, {BSONRAW_MALFORMED, BSONRAW_LENGTH_INCORRECT, 0, 0, 0}};
    struct bsonraw_resync resync = {0, 0, 0, 0}, *all = &stream->resync;
    uint64_t passed = stream->offset;
    int32_t status;
    if (all->reach > passed) resync.reach = all->reach - passed;
    if (all->reach > passed && all->spent > 8 * passed) resync.spent = all->spent - 8 * passed;
    all->spent -= resync.spent;
    status = bsonraw_reader_resync(&reader, stream->memory + stream->begins, stream->ends - stream->begins, most, max_depth, &resync);
    all->spent += resync.spent;
    if (resync.reach + passed > all->reach) all->reach = resync.reach + passed;
    all->believed = resync.believed;
    all->left_out |= resync.left_out;
    *next = (size_t)reader.next;
    return status;
}

/* Goes on to a place further on in what was read. */
static void pass(struct bsonraw_stream *stream, size_t count) {
    stream->begins += count;
    stream->offset += count;
}

/* Whether no key that begins before a place ends after it, so that the search needs no byte before it: there is a control
 * character, or one and then a 0, or no 0 for as long as a key can be. */
static int cuts_no_key(const uint8_t *bytes, size_t at, size_t left) {
    if (bytes[at] < 32) return bytes[at] != 0 || (at > 0 && bytes[at - 1] < 32);
    return memchr(bytes + at, 0, left - at < LONGEST_KEY + 2 ? left - at : LONGEST_KEY + 2) == NULL;
}

/* Whether a search may begin at a place: it says no length, and the search finds what one from an earlier place does. */
static int begins_afresh(const uint8_t *bytes, size_t at, size_t left, size_t most) {
    return !is_length(bytes + at, left - at, most) && cuts_no_key(bytes, at, left);
}

/* Searches until two documents after the place where they go on were read, so that it doesn't depend on what wasn't read yet. What was
 * searched is passed by, where it may be, up to a place where a search may begin. */
static int32_t search_on(struct bsonraw_stream *stream, size_t most, size_t max_depth) {
    size_t step = most < STEP ? STEP : most, wanted = 2 * most + step, next, left, at;
    int32_t status, filled = fill(stream, 4);
    if (filled == BSONRAW_OK && is_length(stream->memory + stream->begins, 4, most)) wanted += length_at(stream->memory + stream->begins);
    while (filled == BSONRAW_OK || filled == BSONRAW_NONE) {
        filled = fill(stream, wanted);
        if (filled != BSONRAW_OK && filled != BSONRAW_NONE) break;
        status = search(stream, most, max_depth, &next);
        left = stream->ends - stream->begins;
        if (status != BSONRAW_OK) return status;
        if (filled == BSONRAW_NONE || next + 2 * most <= left) return pass(stream, next), BSONRAW_OK;
        at = left - 2 * most;
        while (at > 0 && !begins_afresh(stream->memory + stream->begins, at, left, most)) at--;
        pass(stream, at);
        wanted = left - at + step;
    }
    return filled;
}

int32_t bsonraw_stream_resync(struct bsonraw_stream *stream, size_t max_bytes, size_t max_depth) {
    int32_t status;
    if (stream == NULL) return BSONRAW_NULL;
    if (stream->status == BSONRAW_OK && stream->bytes == NULL) return BSONRAW_BAD_OFFSET;
    if (stream->status != BSONRAW_OK && stream->status != BSONRAW_NO_DOCUMENT && stream->status != BSONRAW_TOO_MANY_BYTES &&
        stream->status != BSONRAW_CUT)
        return stream->status;
    stream->resync.believed = stream->resync.left_out = 0;
    status = search_on(stream, max_bytes < LONGEST ? max_bytes : LONGEST, max_depth);
    stream->bytes = status == BSONRAW_OK ? NULL : stream->memory + stream->begins;
    stream->len = 0;
    if (status == BSONRAW_OK) stream->status = BSONRAW_OK;
    return status;
}

int32_t bsonraw_reader_is_cut(const struct bsonraw_reader *reader, const uint8_t *bytes, size_t len) {
    uint32_t wanted;
    if (reader == NULL || bytes == NULL || reader->error.kind == 0 || reader->error.offset >= len) return 0;
    if (len - reader->error.offset < 4) return 1;
    wanted = length_at(bytes + reader->error.offset);
    return wanted <= LONGEST && wanted > len - reader->error.offset;
}
