/* Look-ups: a key of the first level, and a path. */
#include "native.h"

static PyObject *found(Source *source, int32_t status, const struct bsonraw_iter *iter) {
    PyObject *element = NULL;
    if (status == BSONRAW_OK) element = element_new(source, iter, MAX_DEPTH);
    else if (status != BSONRAW_NONE) set_cursor_error(source->state, &source->bytes, status, iter);
    else Py_INCREF(element = Py_None);
    Py_DECREF((PyObject *)source);
    return element;
}

/* The UTF-8 of a text, which lives as long as it. */
const uint8_t *utf8_of(PyObject *text, const char *name, size_t *len) {
    const char *at;
    Py_ssize_t size;
    if (!PyUnicode_Check(text)) {
        PyObject *type = PyObject_GetAttrString((PyObject *)Py_TYPE(text), "__name__");
        if (type != NULL) PyErr_Format(PyExc_TypeError, "%s is of type %U, and not str", name, type);
        Py_XDECREF(type);
        return NULL;
    }
    at = PyUnicode_AsUTF8AndSize(text, &size);
    *len = (size_t)size;
    return (const uint8_t *)at;
}

CALL(py_get) {
    struct bsonraw_iter iter;
    const uint8_t *key;
    int32_t status;
    size_t len;
    const struct bytes *bytes;
    Source *source;
    PyObject *data[MOST_PLACES];
    if (places_read(module, &OF_GET, data, args, count, names) < 0 || (key = utf8_of(data[1], "key", &len)) == NULL) return NULL;
    if ((source = source_of(state_of(module), data[0])) == NULL) return NULL;
    bytes = &source->bytes;
    WITHOUT_LOCK(bytes, status = bsonraw_iter_init_find(&iter, bytes->at, bytes->len, key, len));
    return found(source, status, &iter);
}

/* ---- paths ---- */

#define BETWEEN_STEPS 0xff /* which is in no UTF-8 */

/* Steps with a separator between them. */
struct path {
    PyObject *owner;
    const uint8_t *at;
    size_t len;
    uint8_t separator;
};

/* The UTF-8 of a step: of a key, or of the digits of a number. */
static PyObject *step_of(PyObject *step) {
    PyObject *number, *digits, *bytes;
    if (PyUnicode_Check(step)) return PyUnicode_AsUTF8String(step);
    if (!PyIndex_Check(step) || PyBool_Check(step)) {
        PyErr_SetString(PyExc_TypeError, "a step of a path is a key or a number");
        return NULL;
    }
    number = PyNumber_Index(step);
    digits = number == NULL ? NULL : PyNumber_ToBase(number, 10);
    bytes = digits == NULL ? NULL : PyUnicode_AsUTF8String(digits);
    Py_XDECREF(number);
    Py_XDECREF(digits);
    return bytes;
}

/* The steps of a list as one bytes object. */
static PyObject *joined(PyObject *steps) {
    static const char between[] = {(char)BETWEEN_STEPS};
    PyObject *all = PySequence_List(steps), *separator = NULL, *path = NULL;
    Py_ssize_t number, count = all == NULL ? -1 : PyList_Size(all);
    for (number = 0; number < count; number++) {
        PyObject *step = step_of(PyList_GetItem(all, number));
        if (step == NULL || PyList_SetItem(all, number, step) < 0) break;
    }
    if (count == 0) PyErr_SetString(PyExc_ValueError, "a path needs at least one step");
    if (count > 0 && number == count) separator = PyBytes_FromStringAndSize(between, 1);
    if (separator != NULL) path = PyObject_CallMethod(separator, "join", "O", all);
    Py_XDECREF(separator);
    Py_XDECREF(all);
    return path;
}

static int path_open(struct path *path, PyObject *given) {
    path->separator = PyUnicode_Check(given) ? '.' : BETWEEN_STEPS;
    path->owner = path->separator == '.' ? given : joined(given);
    if (path->owner == NULL) return -1;
    if (path->separator == '.') {
        Py_INCREF(given);
        path->at = utf8_of(given, "path", &path->len);
    } else {
        path->at = (const uint8_t *)PyBytes_AsString(path->owner);
        path->len = (size_t)PyBytes_Size(path->owner);
    }
    if (path->at == NULL) Py_CLEAR(path->owner);
    return path->at == NULL ? -1 : 0;
}

uint64_t number_of_step(const uint8_t *at, size_t len) {
    uint64_t number = 0;
    size_t done;
    if (len == 0 || len > 10 || (at[0] == '0' && len > 1)) return UINT64_MAX;
    for (done = 0; done < len; done++) {
        if (at[done] < '0' || at[done] > '9') return UINT64_MAX;
        number = number * 10 + (uint64_t)(at[done] - '0');
    }
    return number;
}

/* Goes to the element of a number in the array that a cursor has just gone into. */
static int32_t go_to_number(struct bsonraw_iter *iter, const struct bytes *bytes, uint64_t number) {
    int32_t status = BSONRAW_OK;
    if (number > UINT32_MAX) return BSONRAW_NONE;
    for (number++; number > 0 && status == BSONRAW_OK; number--) status = bsonraw_iter_next(iter, bytes->at, bytes->len);
    return status;
}

/* Goes one step on from an element. */
static int32_t go_on(struct bsonraw_iter *iter, const struct bytes *bytes, const uint8_t *step, size_t len) {
    int is_array = iter->tag == BSONRAW_TAG_ARRAY;
    if (iter->tag != BSONRAW_TAG_DOCUMENT && iter->tag != BSONRAW_TAG_JAVASCRIPT_WITH_SCOPE && !is_array) return BSONRAW_NONE;
    if (!go_into(iter, bytes)) return iter->error.kind == 0 ? BSONRAW_NONE : BSONRAW_FAULT;
    return is_array ? go_to_number(iter, bytes, number_of_step(step, len)) : bsonraw_iter_find(iter, bytes->at, bytes->len, step, len);
}

/* Goes to the end of a path. No object of Python is touched, so no lock is needed. */
static int32_t go_along(struct bsonraw_iter *iter, const struct bytes *bytes, const struct path *path) {
    const uint8_t *step = path->at, *end = path->at + path->len;
    int32_t status = bsonraw_iter_init(iter, bytes->at, bytes->len);
    int is_first = 1;
    while (status == BSONRAW_OK) {
        const uint8_t *behind = memchr(step, path->separator, (size_t)(end - step));
        size_t len = (size_t)((behind == NULL ? end : behind) - step);
        status = is_first ? bsonraw_iter_find(iter, bytes->at, bytes->len, step, len) : go_on(iter, bytes, step, len);
        if (behind == NULL) break;
        step = behind + 1;
        is_first = 0;
    }
    return status;
}

CALL(py_find) {
    struct bsonraw_iter iter;
    struct path path;
    int32_t status;
    PyObject *data[MOST_PLACES], *result = NULL;
    Source *source;
    if (places_read(module, &OF_FIND, data, args, count, names) < 0 || path_open(&path, data[1]) < 0) return NULL;
    source = source_of(state_of(module), data[0]);
    if (source != NULL) {
        const struct bytes *bytes = &source->bytes;
        WITHOUT_LOCK(bytes, status = go_along(&iter, bytes, &path));
        result = found(source, status, &iter);
    }
    Py_DECREF(path.owner);
    return result;
}
