/* Dumps: documents one after the other. */
#ifndef BSONRAW_DUMPS_H
#define BSONRAW_DUMPS_H

#include "native.h"

#define BLOCK (1 << 20) /* how much of a file is read at a time */

typedef struct {
    PyObject_HEAD
    struct state *state;
    Source *source; /* of a buffer; NULL for a file */
    PyObject *read; /* the file's read */
    struct bytes block;
    size_t next; /* where in the block the next document begins */
    size_t max_bytes;
    uint64_t before;  /* how many bytes of the dump are before the block */
    uint64_t to_drop; /* how many bytes of a document that is passed over aren't read yet */
    uint8_t *room;    /* of a file: what was read of it and isn't given yet is at the front */
    size_t room_len;
    uint8_t *copy; /* of a document that others may write */
    size_t copy_len;
    struct breath breath;
    struct bsonraw_resync resync; /* what it cost so far to find where documents go on after damage */
    int resyncs, is_at_end, is_busy;
} Documents;

enum cut {
    CUT_NONE,      /* no byte is left */
    CUT_ONE,       /* a document */
    CUT_SHORT,     /* too few bytes are left */
    CUT_UNSOUND,   /* the length is under 5, or more than what is left */
    CUT_TOO_LARGE, /* the length is more than what is allowed */
    CUT_FAILED     /* an error is set */
};

/* What is at the front of bytes, by its length alone. */
enum cut cut_next(const uint8_t *at, size_t left, size_t max_bytes, size_t *len);
uint32_t cut_reason(enum cut cut);

/* Cuts the next document, and goes on after it. Of a file, no block is read for a document that is too large. */
enum cut next_cut(Documents *all, size_t *at, size_t *len);
/* Goes on after a document that is too large: 1; 0 where it isn't there whole; -1 with an error set. */
int documents_pass(Documents *all, size_t len);
PyObject *cut_error(const Documents *all, enum cut cut);
/* Goes on where documents do after damage at this place of a buffer: 0, or -1 with an error set. */
int documents_resync(Documents *all, size_t at, size_t max_depth);

Documents *documents_of(const struct state *state, PyObject *documents); /* NULL with an error set */
int documents_begin(Documents *all);
void documents_end(Documents *all);

/* Takes a document, which begins this many bytes from the dump's first one: 0, or -1 with an error set. */
typedef int document_taker(void *to, const struct bytes *document, const struct options *options, uint64_t before);
/* Has each of the rest of the documents taken. */
int take_each(Documents *all, const struct options *options, document_taker *take, void *to);
/* The value of the next document, as decode gives it: 1; 1, too, with NULL, where it is passed over; 0 at the end; -1 with an error set. */
int take_next(Documents *all, const struct options *options, PyObject **value);
/* What is made of the rest of documents, which end with it. Ends the options. */
PyObject *made_of(PyObject *documents, struct options *options, PyObject *make(Documents *, const struct options *));

#endif
