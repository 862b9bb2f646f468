/* A typed column by Arrow's C data interface, and its values as a list. */
#include "typed.h"

#include <stdlib.h>

/* ---- the structures of the interface, as its page has them ---- */

#ifndef ARROW_C_DATA_INTERFACE
#define ARROW_C_DATA_INTERFACE
#define ARROW_FLAG_NULLABLE 2

struct ArrowSchema {
    const char *format;
    const char *name;
    const char *metadata;
    int64_t flags;
    int64_t n_children;
    struct ArrowSchema **children;
    struct ArrowSchema *dictionary;
    void (*release)(struct ArrowSchema *);
    void *private_data;
};

struct ArrowArray {
    int64_t length;
    int64_t null_count;
    int64_t offset;
    int64_t n_buffers;
    int64_t n_children;
    const void **buffers;
    struct ArrowArray **children;
    struct ArrowArray *dictionary;
    void (*release)(struct ArrowArray *);
    void *private_data;
};
#endif

/* What an array owns until it is released. */
struct owned {
    const void *buffers[3];
    PyObject *objects; /* whose bytes the buffers are */
};

static void release_schema(struct ArrowSchema *schema) { schema->release = NULL; }

/* Who has the array may be in a thread that isn't Python's, and may outlive the interpreter. */
static void release_array(struct ArrowArray *array) {
    struct owned *owned = array->private_data;
    if (Py_IsInitialized()) {
        PyGILState_STATE state = PyGILState_Ensure();
        Py_DECREF(owned->objects);
        PyGILState_Release(state);
    }
    free(owned);
    array->release = NULL;
}

#define SCHEMA "arrow_schema"
#define ARRAY "arrow_array"

static void end_schema(PyObject *capsule) {
    struct ArrowSchema *schema = PyCapsule_GetPointer(capsule, SCHEMA);
    if (schema->release != NULL) schema->release(schema);
    free(schema);
}

static void end_array(PyObject *capsule) {
    struct ArrowArray *array = PyCapsule_GetPointer(capsule, ARRAY);
    if (array->release != NULL) array->release(array);
    free(array);
}

/* ---- a column ---- */

/* A column's parts, whose bytes are those of objects that live on. */
struct parts {
    struct typed typed;
    PyObject *valid, *values, *ends;
    Py_ssize_t first, behind; /* the places that are asked for */
    int is_naive;
};

static int bytes_in(PyObject *bytes, struct room *room, size_t least) {
    memset(room, 0, sizeof *room);
    if (PyBytes_CheckExact(bytes)) {
        room->at = (uint8_t *)PyBytes_AsString(bytes);
        room->len = (size_t)PyBytes_Size(bytes);
    }
    if (room->len >= least) return 0;
    PyErr_SetString(PyExc_ValueError, "a column has fewer bytes than values");
    return -1;
}

/* Whether each text that is asked for lies in the bytes. */
static int has_texts(const struct parts *parts) {
    Py_ssize_t number;
    int64_t before = 0;
    for (number = parts->first; number <= parts->behind; number++) {
        int64_t end = le_i64(parts->typed.ends.at + 8 * number);
        if (end < before || (uint64_t)end > parts->typed.values.len) {
            PyErr_SetString(PyExc_ValueError, "a column has texts outside of its bytes");
            return 0;
        }
        before = end;
    }
    return 1;
}

/* Reads (kind, count, missing, (valid, values, ends), is_naive, first, behind). */
static int parts_read(struct parts *parts, PyObject *args) {
    struct typed *typed = &parts->typed;
    Py_ssize_t count, missing;
    int kind;
    if (!PyArg_ParseTuple(args, "inn(OOO)pnn", &kind, &count, &missing, &parts->valid, &parts->values, &parts->ends,
                          &parts->is_naive, &parts->first, &parts->behind))
        return -1;
    if (kind < OF_BOOL || kind > OF_TEXT || count < 0 || count >= PY_SSIZE_T_MAX / 8 || missing < 0 || missing > count || parts->first < 0 ||
        parts->first > parts->behind || parts->behind > count) {
        PyErr_SetString(PyExc_ValueError, "no column has these parts");
        return -1;
    }
    memset(typed, 0, sizeof *typed);
    typed->kind = (enum typed_kind)kind;
    typed->count = (size_t)count;
    typed->missing = (size_t)missing;
    if (bytes_in(parts->valid, &typed->valid, missing > 0 ? (typed->count + 7) / 8 : 0) < 0 ||
        bytes_in(parts->values, &typed->values, typed->count * typed_size(typed->kind)) < 0 ||
        bytes_in(parts->ends, &typed->ends, kind == OF_TEXT ? 8 * (typed->count + 1) : 0) < 0)
        return -1;
    return kind != OF_TEXT || has_texts(parts) ? 0 : -1;
}

/* listed(.., first, behind): the values of these places. */
PyObject *py_listed(PyObject *module, PyObject *args) {
    struct parts parts;
    if (parts_read(&parts, args) < 0) return NULL;
    return typed_list(state_of(module), &parts.typed, (size_t)parts.first, (size_t)parts.behind, parts.is_naive);
}

/* A bit for each bool, the lowest first, as Arrow has them. */
static PyObject *bits_of(const struct typed *typed) {
    PyObject *bits = PyBytes_FromStringAndSize(NULL, (Py_ssize_t)((typed->count + 7) / 8));
    uint8_t *at = bits == NULL ? NULL : (uint8_t *)PyBytes_AsString(bits);
    size_t number;
    for (number = 0; at != NULL && number < typed->count; number++) {
        if (number % 8 == 0) at[number / 8] = 0;
        at[number / 8] |= (uint8_t)((typed->values.at[number] != 0) << number % 8);
    }
    return bits;
}

static const char *format_of(const struct parts *parts) {
    switch (parts->typed.kind) {
    case OF_BOOL: return "b";
    case OF_INT64: return "l";
    case OF_DOUBLE: return "g";
    case OF_DATETIME: return parts->is_naive ? "tsm:" : "tsm:UTC";
    default: return "U";
    }
}

static PyObject *schema_of(const struct parts *parts) {
    struct ArrowSchema *schema = calloc(1, sizeof *schema);
    PyObject *capsule = schema == NULL ? PyErr_NoMemory() : PyCapsule_New(schema, SCHEMA, end_schema);
    if (schema == NULL) return NULL;
    schema->format = format_of(parts);
    schema->name = "";
    schema->flags = ARROW_FLAG_NULLABLE;
    schema->release = release_schema;
    if (capsule == NULL) free(schema);
    return capsule;
}

/* The buffers of a column: the bits of what is there, and its values; of texts the ends between the two. */
static void fill(struct ArrowArray *array, struct owned *owned, const struct typed *typed, PyObject *values) {
    int is_text = typed->kind == OF_TEXT;
    owned->buffers[0] = typed->missing > 0 ? typed->valid.at : NULL;
    owned->buffers[1] = is_text ? typed->ends.at : (const uint8_t *)PyBytes_AsString(values);
    owned->buffers[2] = is_text ? typed->values.at : NULL;
    array->length = (int64_t)typed->count;
    array->null_count = (int64_t)typed->missing;
    array->n_buffers = is_text ? 3 : 2;
    array->buffers = owned->buffers;
    array->private_data = owned;
    array->release = release_array;
}

static PyObject *array_of(const struct parts *parts) {
    const struct typed *typed = &parts->typed;
    PyObject *values = typed->kind == OF_BOOL ? bits_of(typed) : itself(parts->values), *capsule = NULL;
    PyObject *objects = values == NULL ? NULL : PyTuple_Pack(3, parts->valid, values, parts->ends);
    struct ArrowArray *array = objects == NULL ? NULL : calloc(1, sizeof *array);
    struct owned *owned = array == NULL ? NULL : calloc(1, sizeof *owned);
    if (owned != NULL) {
        owned->objects = objects;
        fill(array, owned, typed, values);
        capsule = PyCapsule_New(array, ARRAY, end_array);
    } else if (objects != NULL) {
        PyErr_NoMemory();
    }
    Py_XDECREF(values);
    if (capsule != NULL) return capsule;
    Py_XDECREF(objects);
    free(owned);
    free(array);
    return NULL;
}

/* arrow(..): the two capsules of a column, that of its kind and that of its values. */
PyObject *py_arrow(PyObject *module, PyObject *args) {
    struct parts parts;
    PyObject *schema, *array, *both = NULL;
    (void)module;
    if (parts_read(&parts, args) < 0) return NULL;
    schema = schema_of(&parts);
    array = schema == NULL ? NULL : array_of(&parts);
    if (array != NULL) both = PyTuple_Pack(2, schema, array);
    Py_XDECREF(schema);
    Py_XDECREF(array);
    return both;
}
