/* Columns of one kind as buffers. */
#ifndef BSONRAW_TYPED_H
#define BSONRAW_TYPED_H

#include "native.h"

enum typed_kind { OF_NOTHING, OF_BOOL, OF_INT64, OF_DOUBLE, OF_DATETIME, OF_TEXT };

/* Bytes that grow. */
struct room {
    uint8_t *at;
    size_t len, size;
};

/* The values of a column that are all of one kind. Where none is, there is a 0, and of texts no byte. */
struct typed {
    enum typed_kind kind; /* OF_NOTHING before the first value */
    size_t count, missing;
    struct room values; /* numbers of eight bytes, bools of one, or the bytes of texts */
    struct room ends;   /* of texts where each ends, in eight bytes, with a 0 before them */
    struct room valid;  /* a bit for each place, the lowest first: whether a value is there */
};

void typed_free(struct typed *typed);
int typed_skip(struct typed *typed); /* A place without a value: 0, or -1 with an error set. */
void typed_drop(struct typed *typed); /* Takes the last place away. */
/* Puts the value of a token after the others, or for a null a place without one: 1; 0 where it isn't of their kind; -1 with an
 * error set. */
int typed_put(struct typed *typed, const uint8_t *bytes, const struct bsonraw_token *token);
size_t typed_size(enum typed_kind kind); /* of a value; 0 of a text */
PyObject *typed_list(const struct state *state, const struct typed *typed, size_t first, size_t behind, int is_naive); /* values, and None where none is */
/* What a Column is made of: its kind's number, how many places there are, how many of them without a value, the values, and of
 * texts the ends; and the bits. Each of the last two is None where it isn't needed. */
PyObject *typed_parts(const struct typed *typed);

#endif
