/* What RawDocument is over: a document that reads a value when it is asked for. */
#include "native.h"

typedef struct {
    PyObject_HEAD
    Source *source;   /* the bytes of the outermost document; NULL before __init__ */
    uint32_t at, len; /* where the document is in them */
    size_t sound;     /* it was found without a fault, and no deeper than this; 0 before that */
    int was_asked, is_indexed; /* which it is at the second look-up */
    struct bsonraw_entry *entries;
    PyObject *numbers; /* by key the number of its first entry */
    int is_whole;      /* no stop is after the last entry */
} Lazy;

/* ---- its bytes ---- */

static int is_begun(const Lazy *lazy) {
    if (lazy->source == NULL) PyErr_SetString(PyExc_ValueError, "RawDocument.__init__ wasn't called");
    return lazy->source != NULL;
}

static PyObject *lazy_new(PyTypeObject *type, PyObject *args, PyObject *names) {
    Lazy *lazy = (Lazy *)PyType_GenericAlloc(type, 0);
    (void)args;
    (void)names;
    return (PyObject *)lazy;
}

static void lazy_dealloc(PyObject *self) {
    Lazy *lazy = (Lazy *)self;
    PyMem_Free(lazy->entries);
    Py_XDECREF(lazy->numbers);
    Py_XDECREF((PyObject *)lazy->source);
    free_object(self);
}

static int lazy_init(PyObject *self, PyObject *args, PyObject *names) {
    static char *arguments[] = {"data", NULL};
    struct state *state = state_of_object(self);
    struct bsonraw_iter iter;
    PyObject *data;
    Source *source;
    int32_t status;
    if (state == NULL) PyErr_SetString(PyExc_TypeError, "this class hides what RawDocument keeps in _native");
    if (state == NULL || !PyArg_ParseTupleAndKeywords(args, names, "O:RawDocument", arguments, &data)) return -1;
    if (((Lazy *)self)->source != NULL) { /* others may be reading its bytes */
        PyErr_SetString(PyExc_TypeError, "a RawDocument gets its bytes once");
        return -1;
    }
    source = source_of(state, data);
    if (source == NULL) return -1;
    status = bsonraw_iter_init(&iter, source->bytes.at, source->bytes.len);
    if (status != BSONRAW_OK) {
        set_cursor_error(state, &source->bytes, status, &iter);
        Py_DECREF((PyObject *)source);
        return -1;
    }
    ((Lazy *)self)->source = source;
    ((Lazy *)self)->len = (uint32_t)source->bytes.len;
    return 0;
}

/* A document in another one, over the same bytes. */
static PyObject *inner_of(const Lazy *outer, const struct bsonraw_iter *iter) {
    Lazy *lazy = (Lazy *)PyType_GenericAlloc(outer->source->state->classes.raw_document, 0);
    if (lazy == NULL) return NULL;
    Py_INCREF((PyObject *)outer->source);
    lazy->source = outer->source;
    lazy->at = iter->payload_at;
    lazy->len = iter->payload_len;
    return (PyObject *)lazy;
}

int lazy_bytes(PyObject *self, struct bytes *part) {
    const Lazy *lazy = (const Lazy *)self;
    if (!is_begun(lazy)) return -1;
    *part = bytes_part(lazy->source->bytes.at + lazy->at, lazy->len);
    return 0;
}

int lazy_check(PyObject *self, size_t max_depth, size_t before) {
    Lazy *lazy = (Lazy *)self;
    struct bytes part;
    struct told told;
    max_depth = max_depth > before ? max_depth - before : 0;
    if (lazy_bytes(self, &part) < 0) return -1;
    if (lazy->sound > 0 && lazy->sound <= max_depth) return 0;
    memset(&told, 0, sizeof told);
    told.state = lazy->source->state;
    told.max_bytes = SIZE_MAX;
    told.max_depth = max_depth;
    told.levels_before = before;
    WITHOUT_LOCK(&part, told.status = bsonraw_first_fault(part.at, part.len, told.max_bytes, max_depth, &told.report, told.path, PATH_ROOM));
    if (told.status == BSONRAW_OK) lazy->sound = max_depth;
    else set_error_of(&part, &told);
    return told.status == BSONRAW_OK ? 0 : -1;
}

PyObject *lazy_raw(PyObject *self, void *unused) {
    const Lazy *lazy = (const Lazy *)self;
    struct bytes part;
    (void)unused;
    if (lazy_bytes(self, &part) < 0) return NULL;
    if (lazy->len == lazy->source->bytes.len && PyBytes_CheckExact(lazy->source->data)) return itself(lazy->source->data);
    return PyBytes_FromStringAndSize((const char *)part.at, (Py_ssize_t)part.len);
}

/* ---- the index ---- */

#define ENTRIES 64

struct index {
    struct bsonraw_entry *entries;
    size_t count, room;
    PyObject *numbers;
};

/* Adds the key of an entry, unless an earlier one has it: 0, or -1 with an error set. */
static int add_key(const Source *source, struct index *index, const struct bsonraw_entry *entry, size_t number) {
    PyObject *key = key_of(source->state, source->bytes.at + entry->key_at, entry->key_len), *value = NULL;
    int status = key == NULL ? -1 : PyDict_Contains(index->numbers, key);
    if (status == 0) {
        value = PyLong_FromSize_t(number);
        status = value == NULL ? -1 : PyDict_SetItem(index->numbers, key, value);
    }
    Py_XDECREF(value);
    Py_XDECREF(key);
    return status < 0 ? -1 : 0;
}

static int more_entries(struct index *index) {
    size_t room = 2 * index->room + ENTRIES;
    struct bsonraw_entry *entries = PyMem_Realloc(index->entries, room * sizeof *entries);
    if (entries == NULL) {
        PyErr_NoMemory();
        return -1;
    }
    index->entries = entries;
    index->room = room;
    return 0;
}

/* Reads all elements, or those up to a stop: BSONRAW_NONE or BSONRAW_FAULT; BSONRAW_OK with an error set. */
static int32_t read_all(const Source *source, uint32_t at, uint32_t len, struct index *index) {
    const struct bytes *bytes = &source->bytes;
    struct breath breath = {0, 0};
    struct bsonraw_iter iter;
    int32_t status = bsonraw_iter_init_at(&iter, bytes->at, bytes->len, at, len);
    while (status == BSONRAW_OK) {
        size_t first = index->count;
        uint64_t count;
        if (index->room - first < ENTRIES && more_entries(index) < 0) return BSONRAW_OK;
        status = bsonraw_iter_next_many(&iter, bytes->at, bytes->len, index->entries + first, ENTRIES, &count);
        for (index->count += (size_t)count; first < index->count; first++)
            if (add_key(source, index, &index->entries[first], first) < 0) return BSONRAW_OK;
        if (breathe(source->state, &breath, ENTRIES * sizeof *index->entries) < 0) return BSONRAW_OK;
    }
    return status;
}

/* Makes the index, unless it is there: 0, or -1 with an error set. Signals may be handled meanwhile, by code that asks for it, too. */
static int make_index(Lazy *lazy) {
    struct index index = {NULL, 0, 0, NULL};
    int32_t status;
    if (lazy->is_indexed) return 0;
    index.numbers = PyDict_New();
    if (index.numbers == NULL) return -1;
    status = read_all(lazy->source, lazy->at, lazy->len, &index);
    if (status != BSONRAW_OK && !lazy->is_indexed) {
        lazy->entries = index.entries;
        lazy->numbers = index.numbers;
        lazy->is_whole = status == BSONRAW_NONE;
        lazy->is_indexed = 1;
    } else {
        PyMem_Free(index.entries);
        Py_DECREF(index.numbers);
    }
    return status == BSONRAW_OK ? -1 : 0;
}

/* ---- look-ups ---- */

static void cursor_at(const Lazy *lazy, const struct bsonraw_entry *entry, struct bsonraw_iter *iter) {
    memset(iter, 0, sizeof *iter);
    iter->tag = entry->tag;
    iter->key_at = entry->key_at;
    iter->key_len = entry->key_len;
    iter->payload_at = entry->payload_at;
    iter->payload_len = entry->payload_len;
    iter->next = entry->payload_at + entry->payload_len;
    iter->document_at = lazy->at;
    iter->document_len = lazy->len;
}

/* Goes along the elements up to the first one with a key: 1; 0 where there is none; -1 with an error set. */
static int find_along(const Lazy *lazy, PyObject *key, struct bsonraw_iter *iter) {
    const Source *source = lazy->source;
    const struct bytes *bytes = &source->bytes;
    size_t key_len;
    int32_t status;
    const uint8_t *text = utf8_of(key, "key", &key_len);
    if (text == NULL && PyErr_ExceptionMatches(PyExc_UnicodeEncodeError)) PyErr_Clear(); /* half of a pair: no key has it */
    if (text == NULL) return PyErr_Occurred() ? -1 : 0;
    WITHOUT_LOCK(bytes, {
        status = bsonraw_iter_init_at(iter, bytes->at, bytes->len, lazy->at, lazy->len);
        if (status == BSONRAW_OK) status = bsonraw_iter_find(iter, bytes->at, bytes->len, text, key_len);
    });
    if (status != BSONRAW_OK && status != BSONRAW_NONE) set_cursor_error(source->state, bytes, status, iter);
    return status == BSONRAW_OK ? 1 : status == BSONRAW_NONE ? 0 : -1;
}

/* Goes to the first element with a key: 1; 0 where there is none; -1 with an error set. */
static int find(Lazy *lazy, PyObject *key, struct bsonraw_iter *iter) {
    PyObject *number;
    if (!is_begun(lazy)) return -1;
    if (!PyUnicode_CheckExact(key) || (!lazy->is_indexed && !lazy->was_asked)) {
        lazy->was_asked = 1;
        return find_along(lazy, key, iter);
    }
    if (make_index(lazy) < 0) return -1;
    number = PyDict_GetItemWithError(lazy->numbers, key);
    if (number == NULL && PyErr_Occurred()) return -1;
    if (number == NULL) return lazy->is_whole ? 0 : find_along(lazy, key, iter);
    cursor_at(lazy, &lazy->entries[PyLong_AsSize_t(number)], iter);
    return 1;
}

static PyObject *lazy_item(PyObject *self, PyObject *key) {
    Lazy *lazy = (Lazy *)self;
    struct bsonraw_iter iter;
    struct options options;
    switch (find(lazy, key, &iter)) {
    case 0: PyErr_SetObject(PyExc_KeyError, key); return NULL;
    case 1: break;
    default: return NULL;
    }
    if (iter.tag == BSONRAW_TAG_DOCUMENT) return inner_of(lazy, &iter);
    options_begin(&options, lazy->source->state);
    options.max_bytes = SIZE_MAX;
    return value_at(&lazy->source->bytes, &iter, &options);
}

static int lazy_contains(PyObject *self, PyObject *key) {
    struct bsonraw_iter iter;
    return PyUnicode_Check(key) ? find((Lazy *)self, key, &iter) : 0;
}

/* The index, where no stop is in the document; else NULL with an error set. */
static PyObject *whole_index(Lazy *lazy) {
    struct bsonraw_iter iter;
    const struct bytes *bytes;
    int32_t status;
    if (!is_begun(lazy) || make_index(lazy) < 0) return NULL;
    if (lazy->is_whole) return lazy->numbers;
    bytes = &lazy->source->bytes;
    status = bsonraw_iter_init_at(&iter, bytes->at, bytes->len, lazy->at, lazy->len);
    while (status == BSONRAW_OK) status = bsonraw_iter_next(&iter, bytes->at, bytes->len);
    set_cursor_error(lazy->source->state, bytes, status, &iter);
    return NULL;
}

static Py_ssize_t lazy_len(PyObject *self) {
    PyObject *index = whole_index((Lazy *)self);
    return index == NULL ? -1 : PyDict_Size(index);
}

static PyObject *lazy_iter(PyObject *self) {
    PyObject *index = whole_index((Lazy *)self);
    return index == NULL ? NULL : PyObject_GetIter(index);
}

static PyGetSetDef lazy_getters[] = {{"raw", lazy_raw, NULL, "The bytes.", NULL}, {NULL, NULL, NULL, NULL, NULL}};
static PyType_Slot lazy_slots[] = {{Py_tp_new, lazy_new},           {Py_tp_init, lazy_init},         {Py_tp_dealloc, lazy_dealloc},
                                   {Py_mp_subscript, lazy_item},    {Py_mp_length, lazy_len},        {Py_sq_contains, lazy_contains},
                                   {Py_tp_iter, lazy_iter},         {Py_tp_getset, lazy_getters},    {Py_tp_doc, "What RawDocument is over."},
                                   {0, NULL}};
static PyType_Spec lazy_spec = {"bsonraw._native.Lazy", sizeof(Lazy), 0, Py_TPFLAGS_DEFAULT | Py_TPFLAGS_BASETYPE, lazy_slots};

int lazy_add(PyObject *module) {
    struct state *state = state_of(module);
    return add_type(module, "Lazy", state->classes.lazy = type_new(module, &lazy_spec, NULL));
}
