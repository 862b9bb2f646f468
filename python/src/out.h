/* Bytes that are written one after the other. */
#ifndef BSONRAW_OUT_H
#define BSONRAW_OUT_H

#include "native.h"

#define KEPT_ROOM (1 << 20)

/* Sets the error of what is too long: -1. */
NOT_INLINE int out_refuse_length(const struct out *out) {
    set_refused(out->state, TOO_LONG, INT32_MAX, NULL);
    return -1;
}

NOT_INLINE int out_grow(struct out *out, size_t more) {
    size_t size = out->size * 2 > out->len + more ? out->size * 2 : out->len + more + 1024;
    uint8_t *at;
    if (more > out->max - out->len) {
        set_refused(out->state, TOO_MANY_BYTES, out->max, NULL);
        return -1;
    }
    at = PyMem_Realloc(out->at, size);
    if (at == NULL) {
        PyErr_NoMemory();
        return -1;
    }
    out->at = at;
    out->size = size;
    out->room = size < out->max ? size : out->max;
    return 0;
}

/* Takes the room that the module keeps, or none; and gives it back. */
static inline void out_open(struct state *state, struct out *out, size_t max) {
    *out = state->out;
    memset(&state->out, 0, sizeof state->out);
    out->state = state;
    out->len = 0;
    out->max = max;
    out->room = out->size < max ? out->size : max;
}

static inline void out_close(struct out *out) {
    if (out->state->out.at == NULL && out->size <= KEPT_ROOM) out->state->out = *out;
    else PyMem_Free(out->at);
}

static inline int need(struct out *out, size_t more) { return out->room - out->len < more ? out_grow(out, more) : 0; }

INLINE int put(struct out *out, const void *bytes, size_t len) {
    if (need(out, len) < 0) return -1;
    memcpy(out->at + out->len, bytes, len);
    out->len += len;
    return 0;
}

static inline int put_i32(struct out *out, int32_t number) { return put(out, &number, 4); }
static inline int put_i64(struct out *out, int64_t number) { return put(out, &number, 8); }

static inline int put_length(struct out *out, size_t len) {
    return len <= INT32_MAX ? put_i32(out, (int32_t)len) : out_refuse_length(out);
}

/* The length of what was written from here on, into its first four bytes. */
static inline int end_length(struct out *out, size_t from) {
    size_t len = out->len - from;
    int32_t number = (int32_t)len;
    if (len > INT32_MAX) return out_refuse_length(out);
    memcpy(out->at + from, &number, 4);
    return 0;
}

/* The decimal of an element's number in its array. */
static inline int put_number(struct out *out, size_t number) {
    uint8_t digits[24], *at = digits + sizeof digits;
    *--at = 0;
    do *--at = (uint8_t)('0' + number % 10);
    while ((number /= 10) > 0);
    return put(out, at, (size_t)(digits + sizeof digits - at));
}

/* ---- encode.c ---- */

/* Writes the tag and the payload of the value for a path: 0, or -1 with an error set, whose place begins with the path. */
int put_tagged(struct out *out, PyObject *value, PyObject *other, PyObject *path);

#endif
