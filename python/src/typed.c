/* Columns of one kind: filled, and as Python's values. */
#include "typed.h"

#define EXACT (INT64_C(1) << 53) /* a double is exactly each int up to this one */

/* ---- room ---- */

/* Room for this many bytes more, where the next ones go; NULL with an error set. */
static inline uint8_t *more(struct room *room, size_t len) {
    if (room->at == NULL || room->size - room->len < len) {
        size_t size = 2 * room->size + len + 64;
        uint8_t *at = PyMem_Realloc(room->at, size);
        if (at == NULL) PyErr_NoMemory();
        if (at == NULL) return NULL;
        room->at = at;
        room->size = size;
    }
    room->len += len;
    return room->at + room->len - len;
}

/* Puts zeros after what is there. */
static int put_zeros(struct room *room, size_t len) {
    uint8_t *at = more(room, len);
    if (at != NULL) memset(at, 0, len);
    return at == NULL ? -1 : 0;
}

static inline int put_eight(struct room *room, const void *eight) {
    uint8_t *at = more(room, 8);
    if (at != NULL) memcpy(at, eight, 8);
    return at == NULL ? -1 : 0;
}

void typed_free(struct typed *typed) {
    PyMem_Free(typed->values.at);
    PyMem_Free(typed->ends.at);
    PyMem_Free(typed->valid.at);
    memset(typed, 0, sizeof *typed);
}

/* ---- places ---- */

size_t typed_size(enum typed_kind kind) { return kind == OF_NOTHING || kind == OF_TEXT ? 0 : kind == OF_BOOL ? 1 : 8; }

/* One place more, whose value was put already. */
static inline int count_one(struct typed *typed, int is_there) {
    if (typed->count % 8 == 0 && put_zeros(&typed->valid, 1) < 0) return -1;
    typed->valid.at[typed->count / 8] |= (uint8_t)(is_there << typed->count % 8);
    typed->count++;
    typed->missing += !is_there;
    return 1;
}

static int put_end(struct typed *typed) {
    int64_t end = (int64_t)typed->values.len;
    return put_eight(&typed->ends, &end);
}

int typed_skip(struct typed *typed) {
    if (put_zeros(&typed->values, typed_size(typed->kind)) < 0 || (typed->kind == OF_TEXT && put_end(typed) < 0)) return -1;
    return count_one(typed, 0) < 0 ? -1 : 0;
}

static int is_there(const struct typed *typed, size_t number) {
    return typed->missing == 0 || typed->valid.at[number / 8] >> number % 8 & 1;
}

static size_t end_of(const struct typed *typed, size_t number) { return (size_t)le_i64(typed->ends.at + 8 * number); }

void typed_drop(struct typed *typed) {
    size_t last = --typed->count;
    typed->missing -= !is_there(typed, last);
    typed->valid.at[last / 8] &= (uint8_t)~(1u << last % 8);
    if (last % 8 == 0) typed->valid.len--;
    typed->values.len -= typed_size(typed->kind);
    if (typed->kind == OF_TEXT) {
        typed->ends.len -= 8;
        typed->values.len = end_of(typed, last);
    }
    if (typed->missing == typed->count) {
        typed->kind = OF_NOTHING;
        typed->values.len = typed->ends.len = 0;
    }
}

/* Begins a kind, after places without a value. */
static int begin(struct typed *typed, enum typed_kind kind) {
    typed->kind = kind;
    if (kind == OF_TEXT) return put_zeros(&typed->ends, 8 * (typed->count + 1));
    return put_zeros(&typed->values, typed->count * typed_size(kind));
}

/* ---- values ---- */

static enum typed_kind kind_of(uint32_t tag) {
    switch (tag) {
    case BSONRAW_TAG_DOUBLE: return OF_DOUBLE;
    case BSONRAW_TAG_STRING: return OF_TEXT;
    case BSONRAW_TAG_BOOLEAN: return OF_BOOL;
    case BSONRAW_TAG_DATETIME: return OF_DATETIME;
    case BSONRAW_TAG_INT32:
    case BSONRAW_TAG_INT64: return OF_INT64;
    default: return OF_NOTHING;
    }
}

static int is_exact(int64_t number) { return number >= -EXACT && number <= EXACT; }

/* Makes doubles of ints, and says whether each is one exactly; if not, nothing changes. */
static int to_doubles(struct typed *typed) {
    size_t number;
    for (number = 0; number < typed->count; number++)
        if (!is_exact(le_i64(typed->values.at + 8 * number))) return 0;
    for (number = 0; number < typed->count; number++) {
        double value = (double)le_i64(typed->values.at + 8 * number);
        memcpy(typed->values.at + 8 * number, &value, 8);
    }
    typed->kind = OF_DOUBLE;
    return 1;
}

/* An int, after ints or doubles. */
static int put_int(struct typed *typed, int64_t number) {
    double value = (double)number;
    if (typed->kind == OF_INT64) return put_eight(&typed->values, &number) < 0 ? -1 : count_one(typed, 1);
    if (!is_exact(number)) return 0;
    return put_eight(&typed->values, &value) < 0 ? -1 : count_one(typed, 1);
}

static int put_bool(struct typed *typed, uint8_t value) {
    uint8_t *at = more(&typed->values, 1);
    if (at == NULL) return -1;
    *at = value;
    return count_one(typed, 1);
}

/* The text of a string: its length in 4, the text and a 0. */
static int put_text(struct typed *typed, const uint8_t *payload, size_t len) {
    uint8_t *at = more(&typed->values, len - 5);
    if (at == NULL) return -1;
    memcpy(at, payload + 4, len - 5);
    return put_end(typed) < 0 ? -1 : count_one(typed, 1);
}

/* numpy has the first of all times for none. */
static int put_time(struct typed *typed, int64_t millis) {
    if (millis == INT64_MIN) return 0;
    return put_eight(&typed->values, &millis) < 0 ? -1 : count_one(typed, 1);
}

int typed_put(struct typed *typed, const uint8_t *bytes, const struct bsonraw_token *token) {
    const uint8_t *at = bytes + token->payload_at;
    enum typed_kind kind = kind_of(token->tag);
    if (token->tag == BSONRAW_TAG_NULL) return typed_skip(typed) < 0 ? -1 : 1;
    if (kind == OF_NOTHING) return 0;
    if (typed->kind == OF_NOTHING && begin(typed, kind) < 0) return -1;
    if (typed->kind == OF_INT64 && kind == OF_DOUBLE && !to_doubles(typed)) return 0;
    if (typed->kind != kind && !(typed->kind == OF_DOUBLE && kind == OF_INT64)) return 0;
    switch (kind) {
    case OF_INT64: return put_int(typed, token->tag == BSONRAW_TAG_INT32 ? le_i32(at) : le_i64(at));
    case OF_DOUBLE: return put_eight(&typed->values, at) < 0 ? -1 : count_one(typed, 1);
    case OF_BOOL: return put_bool(typed, *at);
    case OF_DATETIME: return put_time(typed, le_i64(at));
    default: return put_text(typed, at, token->payload_len);
    }
}

/* ---- as Python's values ---- */

static PyObject *text_of(const struct typed *typed, size_t number) {
    size_t from = end_of(typed, number), len = end_of(typed, number + 1) - from;
    return PyUnicode_DecodeUTF8((const char *)typed->values.at + from, (Py_ssize_t)len, "strict");
}

static PyObject *value_of(const struct state *state, const struct typed *typed, size_t number, int is_naive) {
    const uint8_t *at = typed->values.at + number * typed_size(typed->kind);
    if (!is_there(typed, number)) return itself(Py_None);
    switch (typed->kind) {
    case OF_INT64: return PyLong_FromLongLong(le_i64(at));
    case OF_DOUBLE: return PyFloat_FromDouble(le_double(at));
    case OF_BOOL: return itself(*at != 0 ? Py_True : Py_False);
    case OF_DATETIME: return time_of(state, le_i64(at), is_naive);
    default: return text_of(typed, number);
    }
}

PyObject *typed_list(const struct state *state, const struct typed *typed, size_t first, size_t behind, int is_naive) {
    PyObject *list = PyList_New((Py_ssize_t)(behind - first));
    size_t number;
    for (number = first; list != NULL && number < behind; number++) {
        PyObject *value = value_of(state, typed, number, is_naive);
        if (value == NULL) Py_CLEAR(list);
        else if (PyList_SetItem(list, (Py_ssize_t)(number - first), value) < 0) Py_CLEAR(list);
    }
    return list;
}

static PyObject *bytes_of(const struct room *room, int is_wanted) {
    return is_wanted ? PyBytes_FromStringAndSize((const char *)room->at, (Py_ssize_t)room->len) : itself(Py_None);
}

PyObject *typed_parts(const struct typed *typed) {
    PyObject *values = bytes_of(&typed->values, 1), *ends = values == NULL ? NULL : bytes_of(&typed->ends, typed->kind == OF_TEXT);
    PyObject *valid = ends == NULL ? NULL : bytes_of(&typed->valid, typed->missing > 0), *parts = NULL;
    if (valid != NULL)
        parts = Py_BuildValue("inn(OOO)", (int)typed->kind, (Py_ssize_t)typed->count, (Py_ssize_t)typed->missing, valid, values, ends);
    Py_XDECREF(values);
    Py_XDECREF(ends);
    Py_XDECREF(valid);
    return parts;
}
