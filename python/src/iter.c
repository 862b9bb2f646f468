/* The documents of a dump one by one, each decoded. */
#include "dumps.h"

typedef struct {
    PyObject_HEAD
    Documents *documents;
    struct options options; /* which has its objects */
} Decoded;

/* The objects of the options that the iterator keeps; each may be NULL. */
#define KEPT(do_it, all)                                                                                                       \
    do_it((all)->options.errors);                                                                                              \
    do_it((all)->options.hook);                                                                                                \
    do_it((all)->options.pairs_hook);                                                                                          \
    do_it((all)->options.types);                                                                                               \
    do_it((all)->options.into);                                                                                                \
    do_it((all)->documents)

static int decoded_traverse(PyObject *self, visitproc visit, void *arg) {
    VISIT_TYPE(self);
    KEPT(Py_VISIT, (Decoded *)self);
    return 0;
}

static int decoded_clear(PyObject *self) {
    KEPT(Py_CLEAR, (Decoded *)self);
    return 0;
}

static void decoded_dealloc(PyObject *self) {
    PyTypeObject *type = Py_TYPE(self);
    PyObject_GC_UnTrack(self);
    decoded_clear(self);
    PyObject_GC_Del(self);
    Py_DECREF(type);
}

/* What the next documents give: the first value; NULL at the end, or with an error set. */
static PyObject *next_value(Decoded *decoded, Documents *all) {
    PyObject *value = NULL;
    int status = 1;
    while (status > 0 && value == NULL) status = take_next(all, &decoded->options, &value);
    return value;
}

static PyObject *decoded_next(PyObject *self) {
    Decoded *decoded = (Decoded *)self;
    Documents *all = decoded->documents;
    PyObject *value;
    if (all == NULL || documents_begin(all) < 0) return NULL;
    Py_INCREF((PyObject *)all);
    all->is_busy = 1;
    value = next_value(decoded, all);
    if (value == NULL) documents_end(all);
    all->is_busy = 0;
    Py_DECREF((PyObject *)all);
    return value;
}

static PyObject *decoded_close(PyObject *self, PyObject *unused) {
    Documents *all = ((Decoded *)self)->documents;
    (void)unused;
    if (all != NULL && documents_begin(all) < 0) return NULL;
    if (all != NULL) documents_end(all);
    Py_RETURN_NONE;
}

static PyMethodDef decoded_methods[] = {{"close", decoded_close, METH_NOARGS, "Lets go of the file, or of the bytes."},
                                        {"__enter__", itself_entered, METH_NOARGS, NULL},
                                        {"__exit__", decoded_close, METH_VARARGS, NULL},
                                        {NULL, NULL, 0, NULL}};
static PyType_Slot decoded_slots[] = {{Py_tp_dealloc, decoded_dealloc}, {Py_tp_traverse, decoded_traverse}, {Py_tp_clear, decoded_clear},
                                      {Py_tp_iter, itself},             {Py_tp_iternext, decoded_next},     {Py_tp_methods, decoded_methods},
                                      {Py_tp_doc, "What decode_iter() gives: values of documents."},
                                      {0, NULL}};
static PyType_Spec decoded_spec = {"bsonraw.Decoded", sizeof(Decoded), 0, NOT_CALLED | Py_TPFLAGS_HAVE_GC, decoded_slots};

/* decode_iter(documents, ..): the rest of them, each decoded when it is asked for. */
CALL(py_decode_iter) {
    struct options options;
    PyObject *given;
    Documents *all;
    Decoded *decoded;
    if (options_read(module, &OF_DECODE_ALL, &options, &given, args, count, names) < 0) return NULL;
    all = documents_of(options.state, given);
    decoded = all == NULL ? NULL : PyObject_GC_New(Decoded, options.state->classes.decoded);
    if (decoded == NULL) {
        options_end(&options);
        return NULL;
    }
    Py_INCREF((PyObject *)all);
    all->max_bytes = options.max_bytes;
    options.is_of_dump = 1;
    decoded->documents = all;
    decoded->options = options;
    Py_XINCREF(options.errors);
    Py_XINCREF(options.hook);
    Py_XINCREF(options.pairs_hook);
    PyObject_GC_Track((PyObject *)decoded);
    return (PyObject *)decoded;
}

int decoded_add(PyObject *module) {
    struct state *state = state_of(module);
    return add_type(module, "Decoded", state->classes.decoded = type_not_called(module, &decoded_spec));
}
