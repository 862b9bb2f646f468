/* Elements, and those of one level. */
#include "native.h"

/* ---- Element ---- */

typedef struct {
    PyObject_HEAD
    Source *source;
    PyObject *key;
    uint32_t tag, key_at, key_len, payload_at, payload_len, document_at, document_len;
    size_t max_depth; /* how many levels its value may have */
} Element;

PyObject *element_new(Source *source, const struct bsonraw_iter *iter, size_t max_depth) {
    PyObject *key = key_of(source->state, source->bytes.at + iter->key_at, iter->key_len);
    Element *element = key == NULL ? NULL : PyObject_New(Element, source->state->classes.element);
    if (element == NULL) {
        Py_XDECREF(key);
        return NULL;
    }
    Py_INCREF((PyObject *)source);
    element->source = source;
    element->key = key;
    element->tag = iter->tag;
    element->key_at = iter->key_at;
    element->key_len = iter->key_len;
    element->payload_at = iter->payload_at;
    element->payload_len = iter->payload_len;
    element->document_at = iter->document_at;
    element->document_len = iter->document_len;
    element->max_depth = max_depth;
    return (PyObject *)element;
}

PyObject *element_key(PyObject *element) { return itself(((Element *)element)->key); }

static void element_dealloc(PyObject *self) {
    Element *element = (Element *)self;
    PyTypeObject *type = Py_TYPE(self);
    Py_DECREF(element->source);
    Py_DECREF(element->key);
    PyObject_Free(self);
    Py_DECREF(type);
}

static PyObject *element_kind(PyObject *self, void *unused) {
    PyObject *kind = ((Element *)self)->source->state->classes.element_type[((Element *)self)->tag & 255];
    (void)unused;
    if (kind == NULL) return PyLong_FromUnsignedLong(((Element *)self)->tag);
    Py_INCREF(kind);
    return kind;
}

static PyObject *element_payload(PyObject *self, void *unused) {
    Element *element = (Element *)self;
    (void)unused;
    return source_slice(element->source, element->payload_at, element->payload_len);
}

static PyObject *element_offset(PyObject *self, void *unused) {
    (void)unused;
    return PyLong_FromUnsignedLong(((Element *)self)->key_at - 1);
}

static PyObject *value_of(Element *element, const struct options *options) {
    struct bsonraw_iter iter = {element->tag,         element->key_at,
                                element->key_len,     element->payload_at,
                                element->payload_len, element->payload_at + element->payload_len,
                                element->document_at, element->document_len,
                                {0, 0, 0, 0, 0}};
    return value_at(&element->source->bytes, &iter, options);
}

static void options_begin_of(struct options *options, const Element *element) {
    options_begin(options, element->source->state);
    options->max_bytes = SIZE_MAX;
    options->max_depth = element->max_depth;
}

static PyObject *element_value(PyObject *self, void *unused) {
    struct options options;
    (void)unused;
    options_begin_of(&options, (Element *)self);
    return value_of((Element *)self, &options);
}

static PyObject *element_decode(PyObject *self, PyObject *const *args, Py_ssize_t count, PyObject *names) {
    struct options options;
    PyObject *none, *value;
    options_begin_of(&options, (Element *)self);
    if (options_given(&OF_VALUE, &options, &none, args, count, names) < 0) return NULL;
    value = value_of((Element *)self, &options);
    options_end(&options);
    return value;
}

/* The key, the number of the kind, and the payload's bytes. */
static PyObject *element_parts(Element *element) {
    return Py_BuildValue("(OIy#)", element->key, (unsigned)element->tag,
                         (const char *)element->source->bytes.at + element->payload_at, (Py_ssize_t)element->payload_len);
}

static PyObject *element_reduce(PyObject *self, PyObject *unused) {
    PyObject *parts = element_parts((Element *)self);
    PyObject *module = parts == NULL ? NULL : PyImport_ImportModule("bsonraw._native");
    PyObject *make = module == NULL ? NULL : PyObject_GetAttrString(module, "element");
    PyObject *reduced = make == NULL ? NULL : PyTuple_Pack(2, make, parts);
    (void)unused;
    Py_XDECREF(make);
    Py_XDECREF(module);
    Py_XDECREF(parts);
    return reduced;
}

static PyObject *element_compare(PyObject *self, PyObject *other, int how) {
    PyObject *one, *two, *result;
    if ((how != Py_EQ && how != Py_NE) || Py_TYPE(other) != Py_TYPE(self)) Py_RETURN_NOTIMPLEMENTED;
    one = element_parts((Element *)self);
    two = element_parts((Element *)other);
    result = one == NULL || two == NULL ? NULL : PyObject_RichCompare(one, two, how);
    Py_XDECREF(one);
    Py_XDECREF(two);
    return result;
}

static Py_hash_t element_hash(PyObject *self) {
    PyObject *parts = element_parts((Element *)self);
    Py_hash_t hash = parts == NULL ? -1 : PyObject_Hash(parts);
    Py_XDECREF(parts);
    return hash;
}

static PyObject *element_repr(PyObject *self) {
    Element *element = (Element *)self;
    PyObject *kind = element_kind(self, NULL), *name = kind == NULL ? NULL : PyObject_GetAttrString(kind, "name"), *text = NULL;
    if (name != NULL)
        text = PyUnicode_FromFormat("<Element %R: %U of %u bytes>", element->key, name, (unsigned)element->payload_len);
    Py_XDECREF(kind);
    Py_XDECREF(name);
    return text;
}

static PyMemberDef element_members[] = {{"key", T_OBJECT_EX, offsetof(Element, key), READONLY, "The key."},
                                        {NULL, 0, 0, 0, NULL}};
static PyGetSetDef element_getters[] = {
    {"kind", element_kind, NULL, "What kind of value it has: an ElementType.", NULL},
    {"payload", element_payload, NULL, "The payload as BSON stores it: a read-only view of the caller's bytes, no copy.", NULL},
    {"value", element_value, NULL, "The value, as decode gives it. Raises BsonError where the payload means none.", NULL},
    {"offset", element_offset, NULL, "Where the element begins in the caller's bytes.", NULL},
    {NULL, NULL, NULL, NULL, NULL}};
PyDoc_STRVAR(element_decode_doc,
"decode($self, /, *, pairs=False, types=None, tz_aware=None, uuid=False, object_hook=None, object_pairs_hook=None, "
"max_bytes=..., max_depth=...)\n--\n\n"
"The value, made as the options of decode say.\n"
"\n"
"Unless limits are given, its levels are those that the walk allowed which the\n"
"element comes from, without one 500.");

static PyMethodDef element_methods[] = {{"decode", FASTCALL(element_decode), METH_FASTCALL | METH_KEYWORDS, element_decode_doc},
                                        {"__reduce__", element_reduce, METH_NOARGS, NULL},
                                        {"__copy__", itself_entered, METH_NOARGS, NULL},
                                        {"__deepcopy__", itself_entered, METH_O, NULL},
                                        {NULL, NULL, 0, NULL}};

PyDoc_STRVAR(element_doc, "An element of a document. It keeps the bytes that it is in.\n\n"
                          "Two are equal where key, kind and payload are.");
static PyType_Slot element_slots[] = {
    {Py_tp_dealloc, element_dealloc}, {Py_tp_members, element_members},     {Py_tp_getset, element_getters},
    {Py_tp_methods, element_methods}, {Py_tp_richcompare, element_compare}, {Py_tp_hash, element_hash},
    {Py_tp_repr, element_repr},       {Py_tp_doc, (void *)element_doc},     {0, NULL}};
static PyType_Spec element_spec = {"bsonraw.Element", sizeof(Element), 0, NOT_CALLED, element_slots};

/* ---- the elements of one level ---- */

#define ENTRIES 32

typedef struct {
    PyObject_HEAD
    Source *source; /* NULL where it has ended */
    struct bsonraw_iter iter;
    int32_t status; /* of the last entries that were read */
    uint64_t done, count;
    struct bsonraw_entry entries[ENTRIES];
} Elements;

static void elements_dealloc(PyObject *self) {
    PyTypeObject *type = Py_TYPE(self);
    Py_XDECREF((PyObject *)((Elements *)self)->source);
    PyObject_Free(self);
    Py_DECREF(type);
}

/* The element of an entry of the level. */
static PyObject *element_at(const Elements *all, Source *source, const struct bsonraw_entry *entry) {
    struct bsonraw_iter iter = all->iter;
    iter.tag = entry->tag;
    iter.key_at = entry->key_at;
    iter.key_len = entry->key_len;
    iter.payload_at = entry->payload_at;
    iter.payload_len = entry->payload_len;
    return element_new(source, &iter, MAX_DEPTH);
}

/* The next element of bytes that the caller holds: making an error may run code of others, which may close this meanwhile. */
static PyObject *elements_on(Elements *all, Source *source) {
    const struct bytes *bytes = &source->bytes;
    if (all->done == all->count && all->status == BSONRAW_OK) {
        all->done = 0;
        all->status = bsonraw_iter_next_many(&all->iter, bytes->at, bytes->len, all->entries, ENTRIES, &all->count);
    }
    if (all->done < all->count) return element_at(all, source, &all->entries[all->done++]);
    Py_CLEAR(all->source);
    if (all->status != BSONRAW_NONE) set_cursor_error(source->state, bytes, all->status, &all->iter);
    return NULL;
}

static PyObject *elements_next(PyObject *self) {
    Source *source = ((Elements *)self)->source;
    PyObject *element;
    if (source == NULL) return NULL;
    Py_INCREF((PyObject *)source);
    element = elements_on((Elements *)self, source);
    Py_DECREF((PyObject *)source);
    return element;
}

/* Lets go of the bytes. */
static PyObject *elements_close(PyObject *self, PyObject *unused) {
    (void)unused;
    Py_CLEAR(((Elements *)self)->source);
    Py_RETURN_NONE;
}

static PyMethodDef elements_methods[] = {{"close", elements_close, METH_NOARGS, "Lets go of the bytes."},
                                         {"__enter__", itself_entered, METH_NOARGS, NULL},
                                         {"__exit__", elements_close, METH_VARARGS, NULL},
                                         {NULL, NULL, 0, NULL}};
static PyType_Slot elements_slots[] = {{Py_tp_dealloc, elements_dealloc}, {Py_tp_iter, itself},
                                       {Py_tp_iternext, elements_next},   {Py_tp_methods, elements_methods},
                                       {Py_tp_doc, "What elements() gives: the elements of one level."},
                                       {0, NULL}};
static PyType_Spec elements_spec = {"bsonraw.Elements", sizeof(Elements), 0, NOT_CALLED, elements_slots};

/* The elements of some bytes. */
static PyObject *elements_of(struct state *state, PyObject *data) {
    Source *source = source_of(state, data);
    Elements *all = source == NULL ? NULL : PyObject_New(Elements, state->classes.elements);
    int32_t status;
    if (all == NULL) {
        Py_XDECREF((PyObject *)source);
        return NULL;
    }
    all->source = source;
    all->done = all->count = 0;
    all->status = BSONRAW_OK;
    status = bsonraw_iter_init(&all->iter, source->bytes.at, source->bytes.len);
    if (status != BSONRAW_OK) {
        set_cursor_error(state, &source->bytes, status, &all->iter);
        Py_CLEAR(all);
    }
    return (PyObject *)all;
}

CALL(py_elements) {
    struct options options;
    PyObject *data;
    return options_read(module, &OF_ELEMENTS, &options, &data, args, count, names) < 0 ? NULL : elements_of(options.state, data);
}

/* ---- an element by itself ---- */

/* The document that holds this element alone. */
static PyObject *framed(struct state *state, PyObject *key, unsigned tag, const struct bytes *payload) {
    size_t key_len, size;
    const uint8_t *name = utf8_of(key, "key", &key_len);
    PyObject *document;
    uint8_t *at;
    char *out;
    if (name == NULL) return NULL;
    if (memchr(name, 0, key_len) != NULL) {
        set_refused(state, INTERIOR_NUL, 0, key);
        return NULL;
    }
    size = 4 + 1 + key_len + 1 + payload->len + 1;
    document = PyBytes_FromStringAndSize(NULL, (Py_ssize_t)size);
    if (document == NULL || (out = PyBytes_AsString(document)) == NULL) return NULL;
    at = (uint8_t *)out;
    memset(at, 0, 5);
    memcpy(at, &size, 4);
    at[4] = (uint8_t)tag;
    memcpy(at + 5, name, key_len);
    at[5 + key_len] = 0;
    memcpy(at + 6 + key_len, payload->at, payload->len);
    at[size - 1] = 0;
    return document;
}

/* element(key, tag, payload): an element of its own; what pickle calls. */
PyObject *py_element(PyObject *module, PyObject *const *args, Py_ssize_t count) {
    PyObject *all = NULL, *element = NULL, *document = NULL, *more = NULL;
    struct bytes payload;
    struct state *state = state_of(module);
    unsigned long tag;
    if (count != 3) PyErr_SetString(PyExc_TypeError, "element() takes a key, a kind and a payload");
    if (count != 3 || ((tag = PyLong_AsUnsignedLong(args[1])) == (unsigned long)-1 && PyErr_Occurred())) return NULL;
    if (bytes_open(state, &payload, args[2]) < 0) return NULL;
    if (tag < 256 && payload.len < INT32_MAX) document = framed(state, args[0], (unsigned)tag, &payload);
    else PyErr_SetString(PyExc_ValueError, "no element has this kind, or so long a payload");
    bytes_close(&payload);
    if (document != NULL) all = elements_of(state, document);
    if (all != NULL) element = elements_next(all);
    if (element != NULL) more = elements_next(all);
    if (more != NULL || PyErr_Occurred()) Py_CLEAR(element);
    if (all != NULL && element == NULL && !PyErr_Occurred()) PyErr_SetString(PyExc_ValueError, "these parts don't make one element");
    Py_XDECREF(more);
    Py_XDECREF(all);
    Py_XDECREF(document);
    return element;
}

int elements_add(PyObject *module) {
    struct state *state = state_of(module);
    state->classes.element = type_not_called(module, &element_spec);
    if (add_type(module, "Element", state->classes.element) < 0) return -1;
    return add_type(module, "Elements", state->classes.elements = type_not_called(module, &elements_spec));
}
