/* The canonical forms of a whole dump in one call, and without the interpreter's lock where that may be. */
#include "dumps.h"

#include <stdlib.h>

/* A form: where its document begins and where it ends among the forms, and whether it is its own document. */
struct form {
    uint64_t start, end, hash;
    uint8_t is_own;
};

/* A document that has no form. */
struct without {
    size_t at, len;
    int32_t status;
};

struct forms {
    struct state *state;
    struct bytes bytes;
    size_t max_bytes, max_depth, before;
    struct bsonraw_reader reader;
    uint8_t *at; /* the forms so far, one after the other */
    size_t len, room, wanted;
    struct form *each;
    size_t count, each_room;
    struct without *without;
    size_t without_count, without_room;
    size_t own; /* how many documents are their own form */
};

enum { DONE, WANTS_ROOM, NO_MEMORY };

/* Room for one more item of this size: what is there, or more of it; NULL without memory. */
static void *one_more(void *items, size_t count, size_t *room, size_t size) {
    size_t more = 2 * *room + 64;
    if (count < *room) return items;
    items = more > SIZE_MAX / size ? NULL : realloc(items, more * size);
    if (items != NULL) *room = more;
    return items;
}

static uint64_t mixed(uint64_t hash, uint64_t eight) {
    hash = (hash ^ eight) * 0x9E3779B97F4A7C15u;
    return hash ^ hash >> 32;
}

/* A hash of bytes, the same on each machine, in four lanes, which a processor works on at a time. It keeps nobody from making
   bytes that share one. */
static uint64_t hash_of(const uint8_t *at, size_t len) {
    uint64_t lanes[4] = {1, 2, 3, 4}, hash = len, last = 0;
    size_t done, lane;
    for (done = 0; len - done >= 32; done += 32)
        for (lane = 0; lane < 4; lane++) lanes[lane] = mixed(lanes[lane], (uint64_t)le_i64(at + done + 8 * lane));
    for (lane = 0; lane < 4; lane++) hash = mixed(hash, lanes[lane]);
    for (; len - done >= 8; done += 8) hash = mixed(hash, (uint64_t)le_i64(at + done));
    memcpy(&last, at + done, len - done);
    return mixed(hash, last);
}

/* Notes the form of a document, which is after those so far. */
static int note_form(struct forms *all, size_t start, size_t document_len, size_t len) {
    struct form *each = one_more(all->each, all->count, &all->each_room, sizeof *each);
    const uint8_t *at = all->at + all->len;
    struct form form;
    if (each == NULL) return NO_MEMORY;
    all->each = each;
    all->len += len;
    form.start = all->before + start;
    form.end = all->len;
    form.hash = hash_of(at, len);
    form.is_own = len == document_len && memcmp(at, all->bytes.at + start, len) == 0;
    all->own += form.is_own;
    each[all->count++] = form;
    return DONE;
}

static int note_without(struct forms *all, size_t at, size_t len, int32_t status) {
    struct without *without = one_more(all->without, all->without_count, &all->without_room, sizeof *without);
    struct without here = {at, len, status};
    if (without == NULL) return NO_MEMORY;
    all->without = without;
    without[all->without_count++] = here;
    return DONE;
}

/* The form of one document. */
static int form_one(struct forms *all, size_t at, size_t len) {
    struct bsonraw_report report;
    uint64_t none;
    int32_t status = bsonraw_canonical(all->bytes.at + at, len, all->max_bytes, all->max_depth, all->at + all->len,
                                       all->room - all->len, &report, &none, 0);
    switch (status) {
    case BSONRAW_OK: return note_form(all, at, len, (size_t)report.count);
    case BSONRAW_SMALL_BUFFER: all->wanted = (size_t)report.count; return WANTS_ROOM;
    case BSONRAW_NO_MEMORY: return NO_MEMORY;
    default: return note_without(all, at, len, status);
    }
}

/* The forms of what isn't read yet. No object of Python is touched, so no lock is needed. */
static int form_rest(struct forms *all) {
    for (;;) {
        size_t at = (size_t)all->reader.next;
        int32_t status = bsonraw_reader_read(&all->reader, all->bytes.at, all->bytes.len);
        int outcome;
        if (status == BSONRAW_NONE) return DONE;
        if (status != BSONRAW_OK && all->reader.error.reason != BSONRAW_NOT_TERMINATED)
            return note_without(all, at, all->bytes.len - at, BSONRAW_NONE);
        outcome = form_one(all, at, (size_t)all->reader.next - at);
        if (outcome == WANTS_ROOM) all->reader.next = at;
        if (outcome != DONE) return outcome;
    }
}

/* Bytes in place of those that are too few for the next form. */
static PyObject *larger(struct forms *all, PyObject *room) {
    size_t size = all->len + all->wanted > 2 * all->room ? all->len + all->wanted : 2 * all->room;
    PyObject *bytes = PyBytes_FromStringAndSize(NULL, (Py_ssize_t)size);
    if (bytes != NULL) {
        uint8_t *at = (uint8_t *)PyBytes_AsString(bytes);
        memcpy(at, all->at, all->len);
        all->at = at;
        all->room = size;
    }
    Py_DECREF(room);
    return bytes;
}

/* The forms of all documents, at the front of bytes that may be more: NULL with an error set. */
static PyObject *formed(struct forms *all) {
    PyObject *room = PyBytes_FromStringAndSize(NULL, (Py_ssize_t)all->bytes.len);
    int outcome = WANTS_ROOM;
    all->room = all->bytes.len;
    while (room != NULL && outcome == WANTS_ROOM) {
        all->at = (uint8_t *)PyBytes_AsString(room);
        WITHOUT_LOCK(&all->bytes, outcome = form_rest(all));
        if (outcome == WANTS_ROOM) room = larger(all, room);
    }
    if (room != NULL && outcome == NO_MEMORY) {
        Py_CLEAR(room);
        PyErr_NoMemory();
    }
    return room;
}

/* The error of a document without a form: it is looked through once more, for the place. */
static PyObject *why_without(const struct forms *all, const struct without *without) {
    struct bytes document = bytes_part(all->bytes.at + without->at, without->len);
    struct told told;
    if (without->status == BSONRAW_NONE) return error_no_document(all->state, all->reader.error.reason, all->before + without->at);
    memset(&told, 0, sizeof told);
    told.state = all->state;
    told.status = without->status;
    told.max_bytes = all->max_bytes;
    told.max_depth = all->max_depth;
    told.before = all->before + without->at;
    told.is_of_dump = 1;
    if (told.status == BSONRAW_FAULT || told.status == BSONRAW_TOO_DEEP || told.status == BSONRAW_NO_DOCUMENT)
        told.status = bsonraw_first_fault(document.at, document.len, told.max_bytes, told.max_depth, &told.report, told.path,
                                        PATH_ROOM);
    return error_of(&document, &told);
}

/* A list of the documents without a form: tuples of offset and error. */
static PyObject *faults_of(const struct forms *all) {
    PyObject *list = PyList_New(0);
    size_t number;
    for (number = 0; list != NULL && number < all->without_count; number++) {
        PyObject *error = why_without(all, &all->without[number]);
        PyObject *both = error == NULL ? NULL : Py_BuildValue("KN", (unsigned long long)(all->before + all->without[number].at), error);
        if (both == NULL || PyList_Append(list, both) < 0) Py_CLEAR(list);
        Py_XDECREF(both);
    }
    return list;
}

/* A view of the first bytes. */
static PyObject *front_of(PyObject *bytes, size_t len) {
    PyObject *view = bytes == NULL ? NULL : PyMemoryView_FromObject(bytes);
    PyObject *front = view == NULL ? NULL : PySequence_GetSlice(view, 0, (Py_ssize_t)len);
    Py_XDECREF(view);
    return front;
}

/* A view of bytes as items of a format. Takes the bytes. */
static PyObject *as_items(PyObject *bytes, const char *format) {
    PyObject *view = bytes == NULL ? NULL : PyMemoryView_FromObject(bytes);
    PyObject *items = view == NULL ? NULL : PyObject_CallMethod(view, "cast", "s", format);
    Py_XDECREF(view);
    Py_XDECREF(bytes);
    return items;
}

/* One number of each form, which is at this place of its struct. */
static PyObject *numbers_of(const struct forms *all, size_t place) {
    PyObject *bytes = PyBytes_FromStringAndSize(NULL, (Py_ssize_t)(all->count * sizeof(uint64_t)));
    char *at = bytes == NULL ? NULL : PyBytes_AsString(bytes);
    size_t number;
    for (number = 0; at != NULL && number < all->count; number++)
        memcpy(at + number * sizeof(uint64_t), (const char *)&all->each[number] + place, sizeof(uint64_t));
    return as_items(bytes, "Q");
}

/* Which forms are their own documents. */
static PyObject *own_of(const struct forms *all) {
    PyObject *bytes = PyBytes_FromStringAndSize(NULL, (Py_ssize_t)all->count);
    char *at = bytes == NULL ? NULL : PyBytes_AsString(bytes);
    size_t number;
    for (number = 0; at != NULL && number < all->count; number++) at[number] = (char)all->each[number].is_own;
    return as_items(bytes, "?");
}

static int put_part(PyObject *parts, Py_ssize_t number, PyObject *part) {
    return part == NULL ? -1 : PyTuple_SetItem(parts, number, part);
}

/* What Forms is made of, at the front of whose bytes the forms are: NULL with an error set. Takes the bytes. */
static PyObject *parts_of(const struct forms *all, PyObject *room) {
    PyObject *parts = room == NULL ? NULL : PyTuple_New(7);
    if (parts != NULL && (put_part(parts, 0, front_of(room, all->len)) < 0 ||
                          put_part(parts, 1, numbers_of(all, offsetof(struct form, end))) < 0 ||
                          put_part(parts, 2, numbers_of(all, offsetof(struct form, start))) < 0 ||
                          put_part(parts, 3, own_of(all)) < 0 ||
                          put_part(parts, 4, numbers_of(all, offsetof(struct form, hash))) < 0 ||
                          put_part(parts, 5, PyLong_FromSize_t(all->own)) < 0 || put_part(parts, 6, faults_of(all)) < 0))
        Py_CLEAR(parts);
    Py_XDECREF(room);
    return parts;
}

/* canonical_all(data, ..): the parts of Forms. */
CALL(py_canonical_all) {
    struct options options;
    struct forms all;
    PyObject *data, *parts;
    if (options_read(module, &OF_CANONICAL_ALL, &options, &data, args, count, names) < 0) return NULL;
    memset(&all, 0, sizeof all);
    all.state = options.state;
    all.max_bytes = options.max_bytes;
    all.max_depth = options.max_depth;
    all.before = options.before;
    if (bytes_open(all.state, &all.bytes, data) < 0) return NULL;
    parts = parts_of(&all, formed(&all));
    free(all.each);
    free(all.without);
    bytes_close(&all.bytes);
    return parts;
}

/* ---- where a dump is cut ---- */

struct cuts {
    uint64_t *at;
    size_t count, room;
};

static int note_cut(struct cuts *cuts, uint64_t at) {
    uint64_t *cut = one_more(cuts->at, cuts->count, &cuts->room, sizeof *cut);
    if (cut == NULL) return NO_MEMORY;
    cuts->at = cut;
    cut[cuts->count++] = at;
    return DONE;
}

/* Notes the first offset of each part of this many bytes or a little more, and the end of the last one. Others may write the
 * bytes meanwhile: each length is read once. */
static int cut_all(struct cuts *cuts, const struct bytes *bytes, size_t size, enum cut *last) {
    size_t start = 0, end = 0, len;
    int outcome = note_cut(cuts, 0);
    while (outcome == DONE && (*last = cut_next(bytes->at + end, bytes->len - end, SIZE_MAX, &len)) == CUT_ONE) {
        end += len;
        if (end - start < size) continue;
        outcome = note_cut(cuts, end);
        start = end;
    }
    return outcome == DONE && end > start ? note_cut(cuts, end) : outcome;
}

static PyObject *offsets_of(const struct cuts *cuts) {
    PyObject *list = PyList_New((Py_ssize_t)cuts->count);
    size_t number;
    for (number = 0; list != NULL && number < cuts->count; number++) {
        PyObject *at = PyLong_FromUnsignedLongLong(cuts->at[number]);
        if (at == NULL || PyList_SetItem(list, (Py_ssize_t)number, at) < 0) Py_CLEAR(list);
    }
    return list;
}

/* partitions(data, size): where it is cut, and the error at which the cuts end, or None. */
PyObject *py_partitions(PyObject *module, PyObject *const *args, Py_ssize_t count) {
    struct bytes bytes;
    struct cuts cuts = {NULL, 0, 0};
    enum cut last = CUT_NONE;
    PyObject *offsets, *result = NULL;
    size_t size;
    int outcome;
    if (count != 2) PyErr_SetString(PyExc_TypeError, "partitions() takes data and a size");
    if (count != 2 || ((size = PyLong_AsSize_t(args[1])) == (size_t)-1 && PyErr_Occurred())) return NULL;
    if (bytes_open_as_they_are(state_of(module), &bytes, args[0]) < 0) return NULL;
    WITHOUT_LOCK(&bytes, outcome = cut_all(&cuts, &bytes, size, &last));
    if (outcome == NO_MEMORY) PyErr_NoMemory();
    offsets = outcome == NO_MEMORY ? NULL : offsets_of(&cuts);
    if (offsets != NULL) {
        PyObject *error = last == CUT_NONE ? Py_None : error_no_document(state_of(module), cut_reason(last), cuts.at[cuts.count - 1]);
        if (error == Py_None) Py_INCREF(error);
        if (error != NULL) result = Py_BuildValue("ON", offsets, error);
        Py_DECREF(offsets);
    }
    free(cuts.at);
    bytes_close(&bytes);
    return result;
}
