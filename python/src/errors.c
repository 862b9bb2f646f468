/* Errors: what the library tells of bytes, as exceptions. */
#include "native.h"

enum { KIND_NO_DOCUMENT = 3, KIND_REFUSED = 4 }; /* ErrorKind's numbers, of which the first two are the library's */

/* What a BsonError is made of. The objects may be NULL: then there is none, or an error is set. */
struct fault {
    uint32_t kind;
    uint32_t reason; /* 0 none */
    PyObject *key, *offset, *path, *keys;
    uint64_t number, left;
};

static PyObject *or_none(PyObject *object) { return object == NULL ? Py_None : object; }

/* Makes the error, and lets go of what it is made of. */
static PyObject *error_new(struct state *state, struct fault *fault) {
    PyObject *error = NULL, *reason = fault->reason == 0 ? NULL : PyLong_FromUnsignedLong(fault->reason);
    if (!PyErr_Occurred()) {
        int was_held = collector_pause(state);
        PyObject *empty = PyTuple_New(0);
        if (empty != NULL)
            error = PyObject_CallFunction(state->classes.error, "IOOOOOKK", (unsigned)fault->kind, or_none(reason),
                                          or_none(fault->key), or_none(fault->offset), fault->path ? fault->path : empty,
                                          fault->keys ? fault->keys : empty, (unsigned long long)fault->number,
                                          (unsigned long long)fault->left);
        Py_XDECREF(empty);
        collector_resume(state, was_held);
    }
    Py_XDECREF(reason);
    Py_XDECREF(fault->key);
    Py_XDECREF(fault->offset);
    Py_XDECREF(fault->path);
    Py_XDECREF(fault->keys);
    return error;
}

/* What a reason says, with its numbers; 0: a text isn't UTF-8. */
PyObject *py_fault_text(PyObject *module, PyObject *args) {
    unsigned int reason;
    unsigned long long number, left;
    struct bsonraw_error error = {0, 0, 0, 0, 0};
    char text[150];
    (void)module;
    if (!PyArg_ParseTuple(args, "IKK", &reason, &number, &left)) return NULL;
    error.kind = reason == 0 ? BSONRAW_NOT_UTF8 : BSONRAW_MALFORMED;
    error.reason = reason;
    error.number = number;
    error.left = left;
    bsonraw_fault_text(&error, text, sizeof text);
    return PyUnicode_FromString(text);
}

static void refuse(struct fault *fault, uint32_t reason, uint64_t limit) {
    fault->kind = KIND_REFUSED;
    fault->reason = reason;
    fault->number = limit;
    fault->left = 0;
}

void set_error(PyObject *error) {
    if (error != NULL) PyErr_SetObject((PyObject *)Py_TYPE(error), error);
    Py_XDECREF(error);
}

static PyObject *text_of(const uint8_t *bytes, uint64_t at, uint64_t len) {
    return PyUnicode_DecodeUTF8((const char *)bytes + at, (Py_ssize_t)len, "replace");
}

/* ---- the place of a fault ---- */

static PyObject *numbers_of(const uint64_t *path, size_t len) {
    PyObject *numbers = PyTuple_New((Py_ssize_t)len);
    size_t level;
    for (level = 0; numbers != NULL && level < len; level++) {
        PyObject *number = PyLong_FromUnsignedLongLong(path[level]);
        if (number == NULL) Py_CLEAR(numbers);
        else if (PyTuple_SetItem(numbers, (Py_ssize_t)level, number) < 0) Py_CLEAR(numbers);
    }
    return numbers;
}

/* Goes to the element with this number of a level, and says whether it is there. */
static int go_to(struct bsonraw_iter *iter, const struct bytes *bytes, uint64_t number) {
    uint64_t passed;
    for (passed = 0; passed <= number; passed++)
        if (bsonraw_iter_next(iter, bytes->at, bytes->len) != BSONRAW_OK) return 0;
    return 1;
}

int go_into(struct bsonraw_iter *iter, const struct bytes *bytes) {
    struct bsonraw_iter child;
    struct bsonraw_value value;
    int32_t status;
    if (iter->tag == BSONRAW_TAG_JAVASCRIPT_WITH_SCOPE) {
        if (bsonraw_iter_value(iter, bytes->at, bytes->len, &value) != BSONRAW_OK) {
            iter->error = value.error;
            return 0;
        }
        status = bsonraw_iter_init_at(&child, bytes->at, bytes->len, value.more_at, value.more_len);
    } else {
        status = bsonraw_iter_recurse(iter, bytes->at, bytes->len, &child);
    }
    *iter = child;
    return status == BSONRAW_OK;
}

/* The steps that find takes along a path: keys, and in arrays numbers. Of a stop without a key the last one is missing. */
static PyObject *keys_along(const struct bytes *bytes, const uint64_t *path, size_t len, const struct told *told) {
    const struct bsonraw_report *report = &told->report;
    PyObject *keys = PyList_New(0), *all;
    struct bsonraw_iter iter;
    size_t level;
    int is_array = told->is_array, is_there = bsonraw_iter_init(&iter, bytes->at, bytes->len) == BSONRAW_OK;
    for (level = 0; keys != NULL && is_there && level < len; level++) {
        PyObject *key;
        is_there = go_to(&iter, bytes, path[level]);
        if (is_array) key = PyUnicode_FromFormat("%u", (unsigned)path[level]);
        else if (is_there) key = text_of(bytes->at, iter.key_at, iter.key_len);
        else if (report->has_key) key = text_of(bytes->at, report->key_at, report->key_len);
        else break;
        if (key == NULL || PyList_Append(keys, key) < 0) Py_CLEAR(keys);
        Py_XDECREF(key);
        is_array = iter.tag == BSONRAW_TAG_ARRAY;
        if (is_there && level + 1 < len) is_there = go_into(&iter, bytes);
    }
    all = keys == NULL ? NULL : PyList_AsTuple(keys);
    Py_XDECREF(keys);
    return all;
}

/* The path of what was found, whole: where it had no room, the call is made again. NULL without memory. */
static uint64_t *whole_path(const struct bytes *bytes, const struct told *told) {
    size_t room = (size_t)told->report.path_len;
    uint64_t *path = PyMem_Calloc(room + 1, sizeof *path);
    struct bsonraw_report report;
    if (path == NULL) PyErr_NoMemory();
    else if (room <= PATH_ROOM) memcpy(path, told->path, room * sizeof *path);
    else if (told->status == BSONRAW_BREACH)
        (void)!bsonraw_check(bytes->at, bytes->len, told->max_bytes, told->max_depth, &report, path, room);
    else
        (void)!bsonraw_first_fault(bytes->at, bytes->len, told->max_bytes, told->max_depth, &report, path, room);
    return path;
}

/* Adds the number of an element, or of a stop, and the step that find takes to it: in an array the number, else the key, which
 * a stop may lack. Takes the key. */
static int add_step(uint64_t number, int is_array, PyObject *key, PyObject *numbers, PyObject *keys) {
    PyObject *one = PyLong_FromUnsignedLongLong(number), *step = key;
    int status = one == NULL || PyErr_Occurred() ? -1 : PyList_Append(numbers, one);
    if (status == 0 && is_array) step = PyObject_Str(one);
    if (status == 0 && step != NULL) status = PyList_Append(keys, step);
    if (step != key) Py_XDECREF(step);
    Py_XDECREF(key);
    Py_XDECREF(one);
    return PyErr_Occurred() ? -1 : status;
}

/* The path from the document on to the element that begins at this offset; or to the stop there, which may have a key. */
static int path_to(const struct bytes *bytes, size_t offset, PyObject *stop_key, PyObject *numbers, PyObject *keys) {
    struct bsonraw_iter iter;
    uint64_t number = 0;
    int is_array = 0, holds_array;
    if (bsonraw_iter_init(&iter, bytes->at, bytes->len) != BSONRAW_OK) return 0;
    for (;;) {
        if (bsonraw_iter_next(&iter, bytes->at, bytes->len) != BSONRAW_OK || iter.key_at - 1 > offset) {
            Py_XINCREF(stop_key);
            return add_step(number, is_array, stop_key, numbers, keys);
        }
        if (iter.next <= offset) {
            number++;
            continue;
        }
        holds_array = iter.tag == BSONRAW_TAG_ARRAY;
        if (add_step(number, is_array, text_of(bytes->at, iter.key_at, iter.key_len), numbers, keys) < 0) return -1;
        if (iter.key_at - 1 == offset || !go_into(&iter, bytes)) return 0;
        is_array = holds_array;
        number = 0;
    }
}

/* The two paths one after the other. Takes the second. */
static PyObject *behind(PyObject *first, PyObject *second) {
    PyObject *front = first == NULL || second == NULL ? NULL : PyList_AsTuple(first);
    PyObject *both = front == NULL ? NULL : PySequence_Concat(front, second);
    Py_XDECREF(front);
    Py_XDECREF(second);
    return both;
}

/* Path and keys of what was found; both NULL with an error set. */
static void place_of(const struct bytes *bytes, const struct told *told, PyObject **numbers, PyObject **keys) {
    size_t len = (size_t)told->report.path_len;
    uint64_t *path = whole_path(bytes, told);
    *numbers = path == NULL ? NULL : numbers_of(path, len);
    *keys = *numbers == NULL ? NULL : keys_along(bytes, path, len, told);
    PyMem_Free(path);
    if (told->outer != NULL) {
        PyObject *front = PyList_New(0), *keys_in_front = PyList_New(0);
        if (front != NULL && keys_in_front != NULL && path_to(told->outer, told->element_at, NULL, front, keys_in_front) < 0)
            Py_CLEAR(front);
        *numbers = behind(front, *numbers);
        *keys = behind(keys_in_front, *keys);
        Py_XDECREF(front);
        Py_XDECREF(keys_in_front);
    }
    if (*keys == NULL) Py_CLEAR(*numbers);
}

/* ---- errors of whole documents ---- */

PyObject *error_of(const struct bytes *bytes, const struct told *told) {
    const struct bsonraw_error *why = &told->report.error;
    struct fault fault = {why->kind, why->reason, NULL, NULL, NULL, NULL, why->number, why->left};
    int has_place = told->status == BSONRAW_FAULT || told->status == BSONRAW_TOO_DEEP;
    switch (told->status) {
    case BSONRAW_FAULT: break;
    case BSONRAW_TOO_DEEP: refuse(&fault, TOO_DEEP, told->max_depth + told->levels_before); break;
    case BSONRAW_TOO_MANY_BYTES: refuse(&fault, TOO_MANY_BYTES, told->max_bytes); break;
    case BSONRAW_TOO_LONG: refuse(&fault, TOO_LONG, INT32_MAX); break;
    case BSONRAW_NO_DOCUMENT: fault.kind = KIND_NO_DOCUMENT; break;
    default: PyErr_SetString(PyExc_MemoryError, "out of memory for a document"); return NULL;
    }
    if (has_place) {
        place_of(bytes, told, &fault.path, &fault.keys);
        if (told->report.has_key) fault.key = text_of(bytes->at, told->report.key_at, told->report.key_len);
    }
    if (has_place || told->is_of_dump) fault.offset = PyLong_FromUnsignedLongLong(told->before + (has_place ? why->offset : 0));
    return error_new(told->state, &fault);
}

void set_error_of(const struct bytes *bytes, const struct told *told) { set_error(error_of(bytes, told)); }

PyObject *breach_of(const struct bytes *bytes, const struct told *told) {
    PyObject *path, *keys, *breach = NULL;
    place_of(bytes, told, &path, &keys);
    if (keys != NULL)
        breach = PyObject_CallFunction(told->state->classes.breach, "IOOK", (unsigned)told->report.cause, path, keys,
                                       (unsigned long long)told->report.error.offset);
    Py_XDECREF(path);
    Py_XDECREF(keys);
    return breach;
}

/* ---- other errors ---- */

void set_cursor_error(struct state *state, const struct bytes *bytes, int32_t status, const struct bsonraw_iter *iter) {
    const struct bsonraw_error *why = &iter->error;
    struct fault fault = {why->kind, why->reason, NULL, NULL, NULL, NULL, why->number, why->left};
    if (status == BSONRAW_NONE || status == BSONRAW_BAD_OFFSET) {
        PyErr_SetString(PyExc_RuntimeError, "the bytes were written while an element of them was kept");
        return;
    }
    if (status == BSONRAW_NO_DOCUMENT) {
        fault.kind = KIND_NO_DOCUMENT;
    } else {
        PyObject *numbers = PyList_New(0), *keys = PyList_New(0);
        fault.offset = PyLong_FromUnsignedLongLong(why->offset);
        if (iter->key_at < bytes->len) fault.key = text_of(bytes->at, iter->key_at, iter->key_len);
        if (numbers != NULL && keys != NULL && path_to(bytes, (size_t)why->offset, fault.key, numbers, keys) == 0) {
            fault.path = PyList_AsTuple(numbers);
            fault.keys = PyList_AsTuple(keys);
        }
        Py_XDECREF(numbers);
        Py_XDECREF(keys);
    }
    set_error(error_new(state, &fault));
}

PyObject *error_no_document(struct state *state, uint32_t reason, uint64_t offset) {
    struct fault fault = {KIND_NO_DOCUMENT, reason, NULL, PyLong_FromUnsignedLongLong(offset), NULL, NULL, 0, 0};
    return error_new(state, &fault);
}

PyObject *error_refused(struct state *state, int reason, size_t limit, uint64_t offset) {
    struct fault fault = {KIND_REFUSED, (uint32_t)reason, NULL, PyLong_FromUnsignedLongLong(offset), NULL, NULL, limit, 0};
    return error_new(state, &fault);
}

void set_refused(struct state *state, int reason, size_t limit, PyObject *key) {
    struct fault fault = {KIND_REFUSED, (uint32_t)reason, key, NULL, NULL, NULL, limit, 0};
    Py_XINCREF(key);
    set_error(error_new(state, &fault));
}
