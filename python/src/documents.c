/* Documents one after the other, cut out of a buffer or out of the blocks of a file. */
#include "dumps.h"

void documents_end(Documents *all) {
    Source *source = all->source;
    PyObject *read = all->read;
    all->source = NULL;
    all->read = NULL;
    all->block = bytes_part((const uint8_t *)"", 0);
    all->next = 0;
    all->is_at_end = 1;
    PyMem_Free(all->room);
    PyMem_Free(all->copy);
    all->room = all->copy = NULL;
    Py_XDECREF(read);
    Py_XDECREF((PyObject *)source);
}

static void documents_dealloc(PyObject *self) {
    PyTypeObject *type = Py_TYPE(self);
    PyObject_GC_UnTrack(self);
    documents_end((Documents *)self);
    PyObject_GC_Del(self);
    Py_DECREF(type);
}

static int documents_traverse(PyObject *self, visitproc visit, void *arg) {
    VISIT_TYPE(self);
    Py_VISIT((PyObject *)((Documents *)self)->source);
    Py_VISIT(((Documents *)self)->read);
    return 0;
}

static int documents_clear(PyObject *self) {
    documents_end((Documents *)self);
    return 0;
}

/* ---- blocks of a file ---- */

/* Room for this many bytes after those that aren't given yet, which move to the front. */
static int make_room(Documents *all, size_t more) {
    size_t passed = all->next, kept = all->block.len - passed;
    if (all->room_len - kept < more || all->room == NULL) {
        size_t len = kept + more > 2 * kept ? kept + more : 2 * kept;
        uint8_t *room = PyMem_Malloc(len);
        if (room == NULL) {
            PyErr_NoMemory();
            return -1;
        }
        if (kept > 0) memcpy(room, all->room + passed, kept);
        PyMem_Free(all->room);
        all->room = room;
        all->room_len = len;
    } else if (kept > 0) {
        memmove(all->room, all->room + passed, kept);
    }
    all->before += passed;
    all->next = 0;
    all->block = bytes_part(all->room, kept);
    return 0;
}

/* Reads a block; of a document that is passed over, what there is of it is dropped. */
static int read_block(Documents *all) {
    struct bytes read;
    int status = -1;
    PyObject *block = PyObject_CallFunction(all->read, "n", (Py_ssize_t)BLOCK);
    if (block == NULL) return -1;
    if (bytes_open(all->state, &read, block) == 0) {
        size_t dropped = read.len < all->to_drop ? read.len : all->to_drop, len = read.len - dropped;
        all->before += dropped;
        all->to_drop -= dropped;
        status = make_room(all, len > 0 ? len : 1);
        if (status == 0) {
            memcpy(all->room + all->block.len, read.at + dropped, len);
            all->block.len += len;
            all->is_at_end = read.len == 0;
        }
        bytes_close(&read);
    }
    Py_DECREF(block);
    return status;
}

/* ---- cutting ---- */

/* The length that a document says. Others may write its bytes meanwhile, so each is read once. */
static int32_t length_at(const uint8_t *at) {
    const volatile uint8_t *once = at;
    uint32_t number = once[0];
    number |= (uint32_t)once[1] << 8;
    number |= (uint32_t)once[2] << 16;
    number |= (uint32_t)once[3] << 24;
    return (int32_t)number;
}

enum cut cut_next(const uint8_t *at, size_t left, size_t max_bytes, size_t *len) {
    int32_t length = left < 4 ? 0 : length_at(at);
    *len = length < 0 ? 0 : (size_t)length;
    if (left == 0) return CUT_NONE;
    if (left < 4) return CUT_SHORT;
    if (length < 5) return left < 5 ? CUT_SHORT : CUT_UNSOUND;
    if (*len > max_bytes) return CUT_TOO_LARGE;
    return *len <= left ? CUT_ONE : left < 5 ? CUT_SHORT : CUT_UNSOUND;
}

uint32_t cut_reason(enum cut cut) { return cut == CUT_SHORT ? BSONRAW_TOO_SHORT : BSONRAW_LENGTH_INCORRECT; }

enum cut next_cut(Documents *all, size_t *at, size_t *len) {
    for (;;) {
        size_t left = all->block.len - all->next;
        enum cut cut = cut_next(all->block.at + all->next, left, all->max_bytes, len);
        int is_known = cut == CUT_ONE || cut == CUT_TOO_LARGE || (cut == CUT_UNSOUND && *len < 5);
        if (!is_known && !all->is_at_end) {
            if (read_block(all) < 0) return CUT_FAILED;
            continue;
        }
        *at = all->next;
        if (cut == CUT_ONE) all->next += *len;
        return cut;
    }
}

int documents_pass(Documents *all, size_t len) {
    size_t left = all->block.len - all->next, here = len < left ? len : left;
    all->next += here;
    all->to_drop = len - here;
    while (all->to_drop > 0 && !all->is_at_end)
        if (read_block(all) < 0) return -1;
    return all->to_drop == 0;
}

int documents_resync(Documents *all, size_t at, size_t max_depth) {
    struct bsonraw_reader reader = {0, 0, 0, {0, 0, 0, 0, 0}};
    int32_t status;
    reader.error.offset = at;
    WITHOUT_LOCK(&all->block, status = bsonraw_reader_resync(&reader, all->block.at, all->block.len, all->max_bytes, max_depth,
                                                             &all->resync));
    if (status == BSONRAW_OK) all->next = (size_t)reader.next;
    else if (status == BSONRAW_NO_MEMORY) PyErr_NoMemory();
    else PyErr_SetString(PyExc_SystemError, "documents can't go on");
    return status == BSONRAW_OK ? 0 : -1;
}

PyObject *cut_error(const Documents *all, enum cut cut) {
    uint64_t offset = all->before + all->next;
    return cut == CUT_TOO_LARGE ? error_refused(all->state, TOO_MANY_BYTES, all->max_bytes, offset) : error_no_document(all->state, cut_reason(cut), offset);
}

/* ---- the iterator ---- */

int documents_begin(Documents *all) {
    if (all->is_busy) PyErr_SetString(PyExc_ValueError, "another call is reading these documents");
    return all->is_busy ? -1 : 0;
}

/* An offset and a document, which is a copy: it can be kept, sent to another process, and read without another one. */
static PyObject *cut_out(Documents *all, size_t at, size_t len) {
    PyObject *document = PyBytes_FromStringAndSize((const char *)all->block.at + at, (Py_ssize_t)len);
    PyObject *offset = document == NULL ? NULL : PyLong_FromUnsignedLongLong(all->before + at);
    PyObject *both = offset == NULL ? NULL : PyTuple_Pack(2, offset, document);
    Py_XDECREF(offset);
    Py_XDECREF(document);
    return both;
}

/* Cuts the next document without damage; where there is some, it goes on after it. */
static enum cut next_sound(Documents *all, size_t *at, size_t *len) {
    for (;;) {
        struct bsonraw_report report;
        uint64_t path[1];
        int32_t status = BSONRAW_NO_DOCUMENT;
        enum cut cut = next_cut(all, at, len);
        if (cut == CUT_NONE || cut == CUT_FAILED) return cut;
        if (cut == CUT_ONE)
            status = bsonraw_first_fault(all->block.at + *at, *len, all->max_bytes, MAX_DEPTH, &report, path, 0);
        if (status == BSONRAW_OK) return cut;
        if (status == BSONRAW_NO_MEMORY) PyErr_NoMemory();
        if (status == BSONRAW_NO_MEMORY || documents_resync(all, *at, MAX_DEPTH) < 0) return CUT_FAILED;
        if (breathe(all->state, &all->breath, all->next - *at) < 0) return CUT_FAILED;
    }
}

static PyObject *documents_next(PyObject *self) {
    Documents *all = (Documents *)self;
    PyObject *both = NULL;
    size_t at, len;
    enum cut cut;
    if (documents_begin(all) < 0) return NULL;
    all->is_busy = 1;
    cut = all->resyncs ? next_sound(all, &at, &len) : next_cut(all, &at, &len);
    if (cut == CUT_ONE) both = cut_out(all, at, len);
    else if (cut != CUT_NONE && cut != CUT_FAILED) set_error(cut_error(all, cut));
    if (both == NULL) documents_end(all);
    all->is_busy = 0;
    return both;
}

static PyObject *documents_close(PyObject *self, PyObject *unused) {
    (void)unused;
    if (documents_begin((Documents *)self) < 0) return NULL;
    documents_end((Documents *)self);
    Py_RETURN_NONE;
}

static PyMethodDef documents_methods[] = {{"close", documents_close, METH_NOARGS, "Lets go of the file, or of the bytes."},
                                          {"__enter__", itself_entered, METH_NOARGS, NULL},
                                          {"__exit__", documents_close, METH_VARARGS, NULL},
                                          {NULL, NULL, 0, NULL}};
static PyType_Slot documents_slots[] = {{Py_tp_dealloc, documents_dealloc},   {Py_tp_traverse, documents_traverse},
                                        {Py_tp_clear, documents_clear},       {Py_tp_iter, itself},
                                        {Py_tp_iternext, documents_next},     {Py_tp_methods, documents_methods},
                                        {Py_tp_doc, "What documents() gives: offsets and documents."},
                                        {0, NULL}};
static PyType_Spec documents_spec = {"bsonraw.Documents", sizeof(Documents), 0, NOT_CALLED | Py_TPFLAGS_HAVE_GC, documents_slots};

/* documents(read, data, max_bytes[, resync]): of a file's read, or where that is None of a buffer, which nobody writes with resync. */
PyObject *py_documents(PyObject *module, PyObject *const *args, Py_ssize_t count) {
    Documents *all;
    struct state *state = state_of(module);
    size_t max_bytes;
    if (count != 3 && count != 4) PyErr_SetString(PyExc_TypeError, "documents() takes a file's read, data, max_bytes and resync");
    if ((count != 3 && count != 4) || limit_of(args[2], "max_bytes", &max_bytes) < 0) return NULL;
    all = PyObject_GC_New(Documents, state->classes.documents);
    if (all == NULL) return NULL;
    memset((char *)all + offsetof(Documents, state), 0, sizeof *all - offsetof(Documents, state));
    all->state = state;
    all->max_bytes = max_bytes;
    all->block = bytes_part((const uint8_t *)"", 0);
    if (args[0] != Py_None) {
        Py_INCREF(args[0]);
        all->read = args[0];
    } else if ((all->source = source_as_it_is(state, args[1])) == NULL) {
        Py_CLEAR(all);
        return NULL;
    } else {
        all->block = bytes_part(all->source->bytes.at, all->source->bytes.len);
        all->block.is_fixed = all->source->bytes.is_fixed;
        all->is_at_end = 1;
        all->resyncs = count == 4 && args[3] == Py_True && all->block.is_fixed;
    }
    PyObject_GC_Track((PyObject *)all);
    return (PyObject *)all;
}

Documents *documents_of(const struct state *state, PyObject *documents) {
    if (Py_TYPE(documents) == state->classes.documents) return (Documents *)documents;
    PyErr_SetString(PyExc_TypeError, "this takes what documents() gave");
    return NULL;
}

int documents_add(PyObject *module) {
    struct state *state = state_of(module);
    state->classes.documents = type_not_called(module, &documents_spec);
    return add_type(module, "Documents", state->classes.documents);
}
