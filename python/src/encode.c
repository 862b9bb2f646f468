/* Documents of Python values. */
#include "out.h"

/* ---- texts ---- */

static int put_string(struct out *out, PyObject *text) {
    Py_ssize_t len;
    const char *at = PyUnicode_AsUTF8AndSize(text, &len);
    if (at == NULL || put_length(out, (size_t)len + 1) < 0) return -1;
    return put(out, at, (size_t)len + 1);
}

/* A text that a 0 ends, and that has none. */
static int put_cstring(struct out *out, PyObject *text) {
    Py_ssize_t len;
    const char *at;
    if (!PyUnicode_Check(text)) {
        PyErr_Format(PyExc_TypeError, "a key, a pattern or options is %R, not a str", text);
        return -1;
    }
    at = PyUnicode_AsUTF8AndSize(text, &len);
    if (at == NULL) return -1;
    if (memchr(at, 0, (size_t)len) != NULL) {
        set_refused(out->state, INTERIOR_NUL, 0, text);
        return -1;
    }
    return put(out, at, (size_t)len + 1);
}

/* Options in ascending order, as BSON asks. */
static int put_options(struct out *out, PyObject *text) {
    PyObject *all = PyUnicode_Check(text) ? PySequence_List(text) : NULL, *none = NULL, *sorted = NULL;
    int status = -1;
    if (!PyUnicode_Check(text)) return put_cstring(out, text);
    if (all != NULL && PyList_Sort(all) == 0) none = PyUnicode_FromString("");
    if (none != NULL) sorted = PyUnicode_Join(none, all);
    if (sorted != NULL) status = put_cstring(out, sorted);
    Py_XDECREF(sorted);
    Py_XDECREF(none);
    Py_XDECREF(all);
    return status;
}

/* ---- values without others inside ---- */

static int put_int(struct out *out, size_t tag_at, PyObject *value) {
    int too_large;
    long long number = PyLong_AsLongLongAndOverflow(value, &too_large);
    if (too_large) PyErr_SetString(PyExc_OverflowError, "an int of more than 64 bits can't be encoded");
    if (too_large || (number == -1 && PyErr_Occurred())) return -1;
    out->at[tag_at] = number < INT32_MIN || number > INT32_MAX ? BSONRAW_TAG_INT64 : BSONRAW_TAG_INT32;
    return out->at[tag_at] == BSONRAW_TAG_INT32 ? put_i32(out, (int32_t)number) : put_i64(out, number);
}

static int put_wide(struct out *out, PyObject *value) {
    long long number = PyLong_AsLongLong(value);
    return number == -1 && PyErr_Occurred() ? -1 : put_i64(out, number);
}

static int put_float(struct out *out, PyObject *value) {
    double number = PyFloat_AsDouble(value);
    return put(out, &number, 8);
}

static int put_bool(struct out *out, PyObject *value) {
    uint8_t byte = value == Py_True;
    return put(out, &byte, 1);
}

/* Of a datetime or a DatetimeMS. */
INLINE int put_time(struct out *out, PyObject *value) {
    int64_t millis;
    if (!is_datetime(out->state, value)) return put_wide(out, value);
    return millis_of(out->state, value, &millis) < 0 ? -1 : put_i64(out, millis);
}

static int put_bytes(struct out *out, PyObject *data, long subtype) {
    struct bytes bytes;
    uint8_t byte = (uint8_t)subtype;
    size_t inner = subtype == 2 ? 4 : 0;
    int status;
    if (bytes_open(out->state, &bytes, data) < 0) return -1;
    status = put_length(out, bytes.len + inner) < 0 || put(out, &byte, 1) < 0 ? -1 : 0;
    if (status == 0 && inner > 0) status = put_length(out, bytes.len);
    if (status == 0) status = put(out, bytes.at, bytes.len);
    bytes_close(&bytes);
    return status;
}

/* Of bytes or a Binary. */
static int put_binary(struct out *out, PyObject *value) {
    PyObject *number;
    long subtype;
    if (PyBytes_CheckExact(value)) return put_bytes(out, value, 0);
    number = binary_subtype(out->state, value);
    subtype = number == NULL ? -1 : PyLong_AsLong(number);
    Py_XDECREF(number);
    if (subtype >= 0 && subtype <= 255) return put_bytes(out, value, subtype);
    if (!PyErr_Occurred()) PyErr_SetString(PyExc_ValueError, "a subtype is from 0 to 255");
    return -1;
}

static int put_raw(struct out *out, PyObject *value, uint8_t len) {
    const Raw *raw = (const Raw *)value;
    if (raw->len != len) {
        PyErr_SetString(PyExc_ValueError, "an ObjectId, a Timestamp or a Decimal128 has the wrong length");
        return -1;
    }
    return put(out, raw->bytes, len);
}

static int put_regex(struct out *out, PyObject *value) {
    const Pair *pair = (const Pair *)value;
    return put_cstring(out, pair->first) < 0 ? -1 : put_options(out, pair->second);
}

static int put_pointer(struct out *out, PyObject *value) {
    const Pair *pair = (const Pair *)value;
    if (!PyUnicode_Check(pair->first) || !PyObject_TypeCheck(pair->second, out->state->classes.object_id)) {
        PyErr_SetString(PyExc_TypeError, "a DBPointer has a str and an ObjectId");
        return -1;
    }
    return put_string(out, pair->first) < 0 ? -1 : put_raw(out, pair->second, 12);
}

/* ---- levels ---- */

enum { OF_DICT, OF_ITEMS, OF_ARRAY, OF_RAW };

/* A document or an array that is being written. */
struct level {
    PyObject *object; /* a dict, or a list or a tuple */
    int kind;
    Py_ssize_t at, size;
    size_t from, code_from; /* where its length is; and that of the code whose scope it is, or SIZE_MAX */
    size_t element_at;      /* where the element begins that is being written */
};

#define LEVELS 32

struct levels {
    struct level *at;
    size_t count, room, max_depth;
    size_t before;   /* how many levels are around it */
    PyObject *other; /* makes a value of one of another class; or NULL */
    struct level first[LEVELS];
};

static int push(struct out *out, struct levels *levels, PyObject *object, int kind, size_t code_from) {
    struct level *level;
    if (levels->count >= levels->max_depth) {
        set_refused(out->state, TOO_DEEP, levels->max_depth + levels->before, NULL);
        return -1;
    }
    if (levels->count == levels->room) {
        size_t size = levels->room * sizeof *levels->at;
        level = levels->at == levels->first ? PyMem_Malloc(2 * size) : PyMem_Realloc(levels->at, 2 * size);
        if (level == NULL) {
            PyErr_NoMemory();
            return -1;
        }
        if (levels->at == levels->first) memcpy(level, levels->first, size);
        levels->at = level;
        levels->room *= 2;
    }
    level = &levels->at[levels->count++];
    Py_INCREF(object);
    level->object = object;
    level->kind = kind;
    level->at = 0;
    level->size = kind == OF_DICT ? PyDict_Size(object) : 0;
    level->from = out->len;
    level->code_from = code_from;
    level->element_at = out->len;
    return put_i32(out, 0);
}

/* The next element's tag, for now 0, and key; gives its value: 1; 0 where there is no more; -1 with an error set. */
INLINE int next_element(struct out *out, struct level *level, PyObject **value) {
    PyObject *key, *pair;
    uint8_t tag = 0;
    level->element_at = out->len;
    if (level->kind == OF_ARRAY || level->kind == OF_ITEMS) {
        int is_list = PyList_Check(level->object);
        if (level->at >= (is_list ? PyList_Size(level->object) : PyTuple_Size(level->object))) return 0;
        pair = is_list ? PyList_GetItem(level->object, level->at) : PyTuple_GetItem(level->object, level->at);
        level->at++;
        if (pair == NULL || put(out, &tag, 1) < 0) return -1;
        *value = pair;
        if (level->kind == OF_ARRAY) return put_number(out, (size_t)level->at - 1) < 0 ? -1 : 1;
        if (!PyTuple_Check(pair) || PyTuple_Size(pair) != 2) {
            PyErr_SetString(PyExc_TypeError, "pairs are tuples of a key and a value");
            return -1;
        }
        key = PyTuple_GetItem(pair, 0);
        *value = PyTuple_GetItem(pair, 1);
        return key == NULL || *value == NULL || put_cstring(out, key) < 0 ? -1 : 1;
    }
    if (PyDict_Size(level->object) != level->size) {
        PyErr_SetString(PyExc_RuntimeError, "a dict changed its size while it was encoded");
        return -1;
    }
    if (!PyDict_Next(level->object, &level->at, &key, value)) return 0;
    return put(out, &tag, 1) < 0 || put_cstring(out, key) < 0 ? -1 : 1;
}

INLINE int end_level(struct out *out, struct levels *levels) {
    struct level *level = &levels->at[--levels->count];
    uint8_t end = 0;
    int status = put(out, &end, 1) < 0 || end_length(out, level->from) < 0 ? -1 : 0;
    if (status == 0 && level->code_from != SIZE_MAX) status = end_length(out, level->code_from);
    Py_DECREF(level->object);
    return status;
}

/* ---- values ---- */

/* The code's tag is that of one without a scope. */
static int put_code(struct out *out, struct levels *levels, size_t tag_at, PyObject *value) {
    PyObject *scope = code_scope(out->state, value);
    size_t from = out->len;
    int status = -1;
    if (scope == Py_None) {
        status = put_string(out, value);
    } else if (scope != NULL && !PyDict_Check(scope) && !PyObject_TypeCheck(scope, out->state->classes.pairs)) {
        PyErr_SetString(PyExc_TypeError, "a Code has for a scope a dict, Pairs or None");
    } else if (scope != NULL) {
        out->at[tag_at] = BSONRAW_TAG_JAVASCRIPT_WITH_SCOPE;
        status = put_i32(out, 0) < 0 || put_string(out, value) < 0 ? -1 : 0;
        if (status == 0) status = push(out, levels, scope, PyDict_Check(scope) ? OF_DICT : OF_ITEMS, from);
    }
    Py_XDECREF(scope);
    return status;
}

/* Copies the bytes of a RawDocument, once it was found without a fault. */
static int put_raw_document(struct out *out, const struct levels *levels, PyObject *value) {
    struct bytes bytes;
    if (lazy_check(value, levels->max_depth + levels->before, levels->before + levels->count) < 0 || lazy_bytes(value, &bytes) < 0) return -1;
    return put(out, bytes.at, bytes.len);
}

/* Of a RawDocument, which is written as one, but isn't gone into. */
#define RAW_DOCUMENT (0x100 | BSONRAW_TAG_DOCUMENT)

/* The tag of values of one of the package's own classes but Int64; 0 of another class. */
INLINE int own_tag_of(const struct classes *classes, const PyTypeObject *type) {
    if (type == classes->object_id) return BSONRAW_TAG_OBJECT_ID;
    if (type == classes->decimal128) return BSONRAW_TAG_DECIMAL128;
    if (type == classes->timestamp) return BSONRAW_TAG_TIMESTAMP;
    if (type == classes->datetime_ms) return BSONRAW_TAG_DATETIME;
    if (type == classes->symbol) return BSONRAW_TAG_SYMBOL;
    if (type == classes->pairs) return BSONRAW_TAG_DOCUMENT;
    if (type == classes->binary) return BSONRAW_TAG_BINARY;
    if (type == classes->regex) return BSONRAW_TAG_REGEX;
    if (type == classes->code) return BSONRAW_TAG_JAVASCRIPT;
    if (type == classes->db_pointer) return BSONRAW_TAG_DB_POINTER;
    if (type == classes->raw_document) return RAW_DOCUMENT;
    if (type == classes->undefined_type) return BSONRAW_TAG_UNDEFINED;
    if (type == classes->min_key_type) return BSONRAW_TAG_MIN_KEY;
    if (type == classes->max_key_type) return BSONRAW_TAG_MAX_KEY;
    return 0;
}

/* The tag of a value, for an int that of 32 bits; 0 of a value of another class. */
INLINE int tag_of(const struct state *state, PyObject *value) {
    const PyTypeObject *type = Py_TYPE(value);
    if (type == &PyUnicode_Type) return BSONRAW_TAG_STRING;
    if (type == &PyLong_Type) return BSONRAW_TAG_INT32;
    if (type == &PyFloat_Type) return BSONRAW_TAG_DOUBLE;
    if (type == state->classes.int64) return BSONRAW_TAG_INT64;
    if (value == Py_None) return BSONRAW_TAG_NULL;
    if (type == &PyBool_Type) return BSONRAW_TAG_BOOLEAN;
    if (type == &PyDict_Type) return BSONRAW_TAG_DOCUMENT;
    if (type == &PyList_Type || type == &PyTuple_Type) return BSONRAW_TAG_ARRAY;
    if (is_datetime(state, value)) return BSONRAW_TAG_DATETIME;
    if (type == &PyBytes_Type) return BSONRAW_TAG_BINARY;
    return own_tag_of(&state->classes, type);
}

/* Writes a value of one of the classes that have a tag: 0; 1 where it is of another class; -1 with an error set. */
INLINE int put_known(struct out *out, struct levels *levels, size_t tag_at, PyObject *value) {
    int tag = tag_of(out->state, value);
    out->at[tag_at] = (uint8_t)tag;
    switch (tag) {
    case BSONRAW_TAG_DOUBLE: return put_float(out, value);
    case BSONRAW_TAG_STRING:
    case BSONRAW_TAG_SYMBOL: return put_string(out, value);
    case BSONRAW_TAG_DOCUMENT: return push(out, levels, value, PyDict_Check(value) ? OF_DICT : OF_ITEMS, SIZE_MAX);
    case BSONRAW_TAG_ARRAY: return push(out, levels, value, OF_ARRAY, SIZE_MAX);
    case BSONRAW_TAG_BINARY: return put_binary(out, value);
    case BSONRAW_TAG_OBJECT_ID: return put_raw(out, value, 12);
    case BSONRAW_TAG_BOOLEAN: return put_bool(out, value);
    case BSONRAW_TAG_DATETIME: return put_time(out, value);
    case BSONRAW_TAG_REGEX: return put_regex(out, value);
    case BSONRAW_TAG_DB_POINTER: return put_pointer(out, value);
    case BSONRAW_TAG_JAVASCRIPT: return put_code(out, levels, tag_at, value);
    case BSONRAW_TAG_INT32: return put_int(out, tag_at, value);
    case BSONRAW_TAG_TIMESTAMP: return put_raw(out, value, 8);
    case BSONRAW_TAG_INT64: return put_wide(out, value);
    case BSONRAW_TAG_DECIMAL128: return put_raw(out, value, 16);
    case RAW_DOCUMENT: return put_raw_document(out, levels, value);
    case BSONRAW_TAG_UNDEFINED:
    case BSONRAW_TAG_NULL:
    case BSONRAW_TAG_MIN_KEY:
    case BSONRAW_TAG_MAX_KEY: return 0;
    default: return 1;
    }
}

/* Of a dict of another class its own items, in its own order. */
static int put_mapping(struct out *out, struct levels *levels, size_t tag_at, PyObject *value) {
    PyObject *items = PyMapping_Items(value);
    int status = items == NULL ? -1 : push(out, levels, items, OF_ITEMS, SIZE_MAX);
    out->at[tag_at] = BSONRAW_TAG_DOCUMENT;
    Py_XDECREF(items);
    return status;
}

/* Writes what was made of a value: 0; 1 where it is of no class that has a tag; -1 with an error set. */
NOT_INLINE int put_made(struct out *out, struct levels *levels, size_t tag_at, PyObject *made) {
    int status = made == NULL ? -1 : made == Py_NotImplemented ? 1 : put_known(out, levels, tag_at, made);
    if (status == 1 && PyDict_Check(made)) status = put_mapping(out, levels, tag_at, made);
    return status;
}

/* The same, of a value of another class: what the package makes of it. */
static int put_converted(struct out *out, struct levels *levels, size_t tag_at, PyObject *value) {
    PyObject *made = PyObject_CallFunctionObjArgs(out->state->classes.convert, value, NULL);
    int status = put_made(out, levels, tag_at, made);
    Py_XDECREF(made);
    return status;
}

/* The same: what the caller makes of it. */
static int put_other(struct out *out, struct levels *levels, size_t tag_at, PyObject *value) {
    PyObject *made = PyObject_CallFunctionObjArgs(levels->other, value, NULL);
    int status = put_made(out, levels, tag_at, made);
    if (status == 1 && made != Py_NotImplemented) status = put_converted(out, levels, tag_at, made);
    Py_XDECREF(made);
    return status;
}

/* Writes a value of a class that has no tag. */
NOT_INLINE int put_unknown(struct out *out, struct levels *levels, size_t tag_at, PyObject *value) {
    int status = PyDict_Check(value) ? put_mapping(out, levels, tag_at, value) : put_converted(out, levels, tag_at, value);
    if (status == 1 && levels->other != NULL) status = put_other(out, levels, tag_at, value);
    if (status == 1) {
        PyObject *name = PyObject_GetAttrString((PyObject *)Py_TYPE(value), "__name__");
        if (name != NULL) PyErr_Format(PyExc_TypeError, "a value of class %U can't be encoded: %R", name, value);
        Py_XDECREF(name);
    }
    return status == 0 ? 0 : -1;
}

INLINE int put_value(struct out *out, struct levels *levels, size_t tag_at, PyObject *value) {
    int status = put_known(out, levels, tag_at, value);
    return status == 1 ? put_unknown(out, levels, tag_at, value) : status;
}

/* ---- places of errors ---- */

/* How many elements of a level were begun. */
static Py_ssize_t begun(const struct level *level) {
    Py_ssize_t at = 0, count = 0;
    PyObject *key, *value;
    if (level->kind != OF_DICT) return level->at;
    while (at < level->at && PyDict_Next(level->object, &at, &key, &value)) count++;
    return count;
}

/* Adds the number of the element that a level was at, and its key where that was written. */
static int add_step(const struct out *out, const struct level *level, PyObject *path, PyObject *keys) {
    const char *at = (const char *)out->at + level->element_at + 1;
    PyObject *number = PyLong_FromSsize_t(begun(level) - 1), *key = NULL;
    int status = number == NULL ? -1 : PyList_Append(path, number);
    if (status == 0 && out->len > level->element_at + 1) {
        key = PyUnicode_DecodeUTF8(at, (Py_ssize_t)strlen(at), "replace");
        status = key == NULL ? -1 : PyList_Append(keys, key);
    }
    Py_XDECREF(key);
    Py_XDECREF(number);
    return status;
}

/* Has an error say where the value is that wasn't written: after the steps of a path, which may be NULL. */
static void set_place(const struct out *out, const struct levels *levels, PyObject *front) {
    PyObject *type, *error, *trace, *path, *keys, *placed = NULL;
    size_t level;
    PyErr_Fetch(&type, &error, &trace);
    PyErr_NormalizeException(&type, &error, &trace);
    path = PyList_New(0);
    keys = front == NULL ? PyList_New(0) : PyObject_CallFunctionObjArgs(out->state->classes.steps, front, NULL);
    for (level = 0; path != NULL && keys != NULL && level < levels->count && levels->at[level].at > 0; level++)
        if (add_step(out, &levels->at[level], path, keys) < 0) break;
    if (path != NULL && keys != NULL && PyList_Size(path) + PyList_Size(keys) > 0)
        placed = PyObject_CallFunctionObjArgs(out->state->classes.placed, error, path, keys, NULL);
    PyErr_Clear();
    if (placed != NULL && placed != error) PyErr_SetObject((PyObject *)Py_TYPE(placed), placed);
    else PyErr_Restore(itself(type), itself(error), trace == NULL ? NULL : itself(trace));
    Py_XDECREF(placed);
    Py_XDECREF(path);
    Py_XDECREF(keys);
    Py_XDECREF(type);
    Py_XDECREF(error);
    Py_XDECREF(trace);
}

/* ---- documents ---- */

INLINE int put_levels(struct out *out, struct levels *levels) {
    while (levels->count > 0) {
        size_t tag_at = out->len;
        PyObject *value;
        int status = next_element(out, &levels->at[levels->count - 1], &value);
        if (status == 0) {
            status = end_level(out, levels);
        } else if (status == 1) {
            Py_INCREF(value);
            status = put_value(out, levels, tag_at, value);
            Py_DECREF(value);
        }
        if (status < 0) return -1;
    }
    return 0;
}

static void levels_open(struct levels *levels, size_t max_depth, size_t before, PyObject *other) {
    levels->at = levels->first;
    levels->count = 0;
    levels->room = LEVELS;
    levels->max_depth = max_depth - before;
    levels->before = before;
    levels->other = other;
}

static void levels_close(struct levels *levels) {
    while (levels->count > 0) Py_DECREF(levels->at[--levels->count].object);
    if (levels->at != levels->first) PyMem_Free(levels->at);
}

int put_tagged(struct out *out, PyObject *value, PyObject *other, PyObject *path) {
    struct levels levels;
    size_t tag_at = out->len;
    uint8_t tag = 0;
    int status = put(out, &tag, 1);
    levels_open(&levels, MAX_DEPTH, 1, other);
    Py_INCREF(value);
    if (status == 0) status = put_value(out, &levels, tag_at, value);
    if (status == 0) status = put_levels(out, &levels);
    if (status < 0) set_place(out, &levels, path);
    levels_close(&levels);
    Py_DECREF(value);
    return status;
}

static PyObject *encoded(PyObject *document, int kind, const struct options *options) {
    struct out out;
    struct levels levels;
    PyObject *bytes = NULL;
    out_open(options->state, &out, options->max_bytes);
    levels_open(&levels, options->max_depth, 0, options->other);
    if (push(&out, &levels, document, kind, SIZE_MAX) == 0 && put_levels(&out, &levels) == 0)
        bytes = PyBytes_FromStringAndSize((const char *)out.at, (Py_ssize_t)out.len);
    else set_place(&out, &levels, NULL);
    levels_close(&levels);
    out_close(&out);
    return bytes;
}

/* The bytes of a RawDocument itself. */
static PyObject *encoded_raw(PyObject *document, const struct options *options) {
    struct bytes bytes;
    if (lazy_bytes(document, &bytes) < 0) return NULL;
    if (bytes.len > options->max_bytes) {
        set_refused(options->state, TOO_MANY_BYTES, options->max_bytes, NULL);
        return NULL;
    }
    return lazy_check(document, options->max_depth, 0) < 0 ? NULL : lazy_raw(document, NULL);
}

/* What kind of level a dict or Pairs are, or OF_RAW; -1 for another value. */
static int document_kind(const struct state *state, PyObject *document) {
    const PyTypeObject *type = Py_TYPE(document);
    if (type == &PyDict_Type) return OF_DICT;
    return type == state->classes.pairs ? OF_ITEMS : type == state->classes.raw_document ? OF_RAW : -1;
}

/* The level for a document, and its kind, which is -1 where it is none; NULL with an error set. */
static PyObject *as_document(const struct state *state, PyObject *document, PyObject *other, int *kind) {
    PyObject *known;
    *kind = document_kind(state, document);
    if (*kind >= 0) return itself(document);
    if (PyDict_Check(document)) {
        *kind = OF_ITEMS;
        return PyMapping_Items(document);
    }
    known = PyObject_CallFunctionObjArgs(state->classes.convert, document, NULL);
    if (known == Py_NotImplemented && other != NULL) {
        PyObject *made = PyObject_CallFunctionObjArgs(other, document, NULL);
        Py_DECREF(known);
        known = made == NULL ? NULL : as_document(state, made, NULL, kind);
        Py_XDECREF(made);
    } else if (known != NULL) {
        *kind = document_kind(state, known);
    }
    return known;
}

CALL(py_encode) {
    struct options options;
    PyObject *given, *document, *bytes = NULL;
    int kind;
    options_begin(&options, state_of(module));
    options.max_bytes = SIZE_MAX;
    if (count == 1 && names == NULL) given = args[0];
    else if (options_given(&OF_ENCODE, &options, &given, args, count, names) < 0) return NULL;
    document = as_document(options.state, given, options.other, &kind);
    if (document == NULL) return NULL;
    if (kind == OF_RAW) bytes = encoded_raw(document, &options);
    else if (kind >= 0) bytes = encoded(document, kind, &options);
    else PyErr_Format(PyExc_TypeError, "a document is a mapping or Pairs, not %R", Py_TYPE(given));
    Py_DECREF(document);
    return bytes;
}
