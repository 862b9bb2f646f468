/* Values of the classes of others: UUIDs of the standard library, and those of MongoDB's package. */
#include "native.h"

/* An object of a class with slots, one of which is set. */
static PyObject *with_slot(PyTypeObject *type, PyObject *name, PyObject *value) {
    PyObject *object = value == NULL ? NULL : PyType_GenericAlloc(type, 0);
    if (object != NULL && PyObject_GenericSetAttr(object, name, value) < 0) Py_CLEAR(object);
    return object;
}

/* ---- UUIDs ---- */

static int uuid_init(struct state *state) {
    struct classes *classes = &state->classes;
    int was_held = collector_pause(state);
    PyObject *module = PyImport_ImportModule("uuid"), *safe = NULL;
    collector_resume(state, was_held);
    if (module != NULL) safe = PyObject_GetAttrString(module, "SafeUUID");
    if (safe != NULL && classes->unknown == NULL) classes->unknown = PyObject_GetAttrString(safe, "unknown");
    if (classes->sixty_four == NULL) classes->sixty_four = PyLong_FromLong(64);
    if (classes->unknown != NULL && classes->sixty_four != NULL) classes->uuid = PyObject_GetAttrString(module, "UUID");
    Py_XDECREF(safe);
    Py_XDECREF(module);
    return classes->uuid == NULL ? -1 : 0;
}

static uint64_t big_u64(const uint8_t *at) {
    uint64_t number = 0;
    int byte;
    for (byte = 0; byte < 8; byte++) number = number << 8 | at[byte];
    return number;
}

static PyObject *number_of(const struct state *state, const uint8_t *at) {
    PyObject *high = PyLong_FromUnsignedLongLong(big_u64(at)), *low = PyLong_FromUnsignedLongLong(big_u64(at + 8));
    PyObject *shifted = high == NULL || low == NULL ? NULL : PyNumber_Lshift(high, state->classes.sixty_four);
    PyObject *number = shifted == NULL ? NULL : PyNumber_Or(shifted, low);
    Py_XDECREF(shifted);
    Py_XDECREF(high);
    Py_XDECREF(low);
    return number;
}

PyObject *uuid_of(struct state *state, const uint8_t *at) {
    PyObject *number, *made;
    if (state->classes.uuid == NULL && uuid_init(state) < 0) return NULL;
    number = number_of(state, at);
    made = with_slot((PyTypeObject *)state->classes.uuid, state->names.integer, number);
    if (made != NULL && PyObject_GenericSetAttr(made, state->names.is_safe, state->classes.unknown) < 0) Py_CLEAR(made);
    Py_XDECREF(number);
    return made;
}

/* ---- MongoDB's classes ---- */

static PyObject *maker_of(PyObject *types, uint32_t tag) {
    PyObject *make = PyTuple_GetItem(types, (Py_ssize_t)tag);
    return make == Py_None ? NULL : make;
}

/* An ObjectId of theirs of its bytes; types has the class where it keeps these in this slot. */
static PyObject *foreign_id(const struct state *state, PyObject *make, const uint8_t *at) {
    PyObject *bytes = PyBytes_FromStringAndSize((const char *)at, 12), *id = with_slot((PyTypeObject *)make, state->names.id, bytes);
    Py_XDECREF(bytes);
    return id;
}

/* What a call makes of one or two parts. Takes these; the second may be NULL. */
static PyObject *made_of_parts(struct state *state, PyObject *make, PyObject *first, PyObject *second) {
    PyObject *made = first == NULL || PyErr_Occurred() ? NULL : call_out(state, make, first, second);
    Py_XDECREF(first);
    Py_XDECREF(second);
    return made;
}

static PyObject *part_of(const uint8_t *at, size_t len) { return PyBytes_FromStringAndSize((const char *)at, (Py_ssize_t)len); }

static PyObject *foreign_binary(struct state *state, PyObject *make, const uint8_t *at, size_t len) {
    size_t head = at[4] == 2 ? 9 : 5;
    return at[4] == 0 ? part_of(at + 5, len - 5) : made_of_parts(state, make, part_of(at + head, len - head), PyLong_FromLong(at[4]));
}

PyObject *foreign_leaf(struct state *state, PyObject *types, uint32_t tag, const uint8_t *at, size_t len) {
    PyObject *make = maker_of(types, tag);
    if (make == NULL) return NULL;
    switch (tag) {
    case BSONRAW_TAG_OBJECT_ID: return PyType_Check(make) ? foreign_id(state, make, at) : NULL;
    case BSONRAW_TAG_INT64: return made_of_parts(state, make, PyLong_FromLongLong(le_i64(at)), NULL);
    case BSONRAW_TAG_DECIMAL128: return made_of_parts(state, make, part_of(at, 16), NULL);
    case BSONRAW_TAG_BINARY: return foreign_binary(state, make, at, len);
    case BSONRAW_TAG_TIMESTAMP:
        return made_of_parts(state, make, PyLong_FromUnsignedLong((uint32_t)le_i32(at + 4)), PyLong_FromUnsignedLong((uint32_t)le_i32(at)));
    default: return NULL;
    }
}

PyObject *in_types(struct state *state, PyObject *types, uint32_t tag, PyObject *value) {
    PyObject *make = value == NULL ? NULL : maker_of(types, tag), *made;
    if (make == NULL) return value;
    made = call_out(state, make, value, NULL);
    Py_DECREF(value);
    return made;
}

PyObject *foreign_document(struct state *state, PyObject *types, PyObject *document) {
    if (document == NULL) return NULL;
    switch (PyDict_Contains(document, state->names.ref)) {
    case 0: return document;
    case 1: return in_types(state, types, BSONRAW_TAG_DOCUMENT, document);
    default: Py_DECREF(document); return NULL;
    }
}
