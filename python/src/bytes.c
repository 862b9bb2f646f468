/* The bytes that a caller hands in: of any object that has a buffer whose bytes lie one after the other. */
#include "native.h"

#include <time.h>

static const uint8_t nothing[1] = {0}; /* where no bytes are */

/* Whether an object's bytes are those of a bytes object, which nobody writes. */
static int is_of_bytes(const struct state *state, PyObject *data) {
    PyObject *owner;
    int is_bytes;
    if (Py_TYPE(data) != &PyMemoryView_Type) return 0;
    owner = PyObject_GetAttr(data, state->names.obj);
    if (owner == NULL) return 0;
    is_bytes = PyBytes_CheckExact(owner);
    Py_DECREF(owner);
    return is_bytes;
}

int bytes_open_as_they_are(const struct state *state, struct bytes *bytes, PyObject *data) {
    if (PyBytes_CheckExact(data)) return bytes_open(state, bytes, data);
    bytes->copy = NULL;
    bytes->has_view = 0;
    if (PyObject_GetBuffer(data, &bytes->view, PyBUF_SIMPLE) < 0) return -1;
    bytes->has_view = 1;
    bytes->len = (size_t)bytes->view.len;
    bytes->at = bytes->len == 0 ? nothing : bytes->view.buf;
    bytes->is_fixed = is_of_bytes(state, data);
    if (bytes->is_fixed || !PyErr_Occurred()) return 0;
    bytes_close(bytes);
    return -1;
}

int bytes_open_view(const struct state *state, struct bytes *bytes, PyObject *data) {
    PyObject *copy;
    if (bytes_open_as_they_are(state, bytes, data) < 0) return -1;
    if (bytes->is_fixed) return 0;
    copy = PyBytes_FromStringAndSize((const char *)bytes->at, (Py_ssize_t)bytes->len);
    bytes_close(bytes);
    if (copy == NULL) return -1;
    bytes->at = (const uint8_t *)PyBytes_AsString(copy);
    bytes->copy = copy;
    bytes->is_fixed = 1;
    return 0;
}

#define BREATHS 10000000 /* nanoseconds */

/* Lets go of the lock for a moment, if the last one is long ago. */
static void let_others_run(struct breath *breath) {
    struct timespec time;
    int64_t now;
    if (clock_gettime(CLOCK_MONOTONIC, &time) != 0) return;
    now = (int64_t)time.tv_sec * 1000000000 + time.tv_nsec;
    if (breath->at == 0) breath->at = now;
    if (now - breath->at < BREATHS) return;
    breath->at = now;
    Py_BEGIN_ALLOW_THREADS
    Py_END_ALLOW_THREADS
}

int breathe(struct state *state, struct breath *breath, size_t len) {
    int was_held, status;
    breath->unheard += len;
    if (breath->unheard <= LET_GO_OVER) return 0;
    breath->unheard = 0;
    was_held = collector_pause(state);
    let_others_run(breath);
    status = PyErr_CheckSignals();
    collector_resume(state, was_held);
    return status;
}

PyTypeObject *type_not_called(PyObject *module, PyType_Spec *spec) {
    PyTypeObject *type = type_new(module, spec, NULL);
#if PY_VERSION_HEX < 0x030A0000
    if (type != NULL) type->tp_new = NULL;
#endif
    return type;
}

static void source_dealloc(PyObject *self) {
    Source *source = (Source *)self;
    PyTypeObject *type = Py_TYPE(self);
    PyObject_GC_UnTrack(self);
    bytes_close(&source->bytes);
    Py_XDECREF(source->view);
    Py_XDECREF(source->data);
    PyObject_GC_Del(self);
    Py_DECREF(type);
}

/* A cycle goes through the iterator that has the source, and is cleared there. */
static int source_traverse(PyObject *self, visitproc visit, void *arg) {
    Source *source = (Source *)self;
    VISIT_TYPE(self);
    if (source->bytes.has_view) Py_VISIT(source->bytes.view.obj);
    Py_VISIT(source->view);
    Py_VISIT(source->data);
    return 0;
}

static PyType_Slot source_slots[] = {{Py_tp_dealloc, source_dealloc}, {Py_tp_traverse, source_traverse}, {0, NULL}};
static PyType_Spec source_spec = {"bsonraw._native.Source", sizeof(Source), 0, NOT_CALLED | Py_TPFLAGS_HAVE_GC, source_slots};

int sources_add(PyObject *module) {
    struct state *state = state_of(module);
    return (state->classes.source = type_not_called(module, &source_spec)) == NULL ? -1 : 0;
}

static Source *source_new(struct state *state, PyObject *data, int open_it(const struct state *, struct bytes *, PyObject *)) {
    Source *source = PyObject_GC_New(Source, state->classes.source);
    if (source == NULL) return NULL;
    source->state = state;
    source->view = NULL;
    source->data = NULL;
    if (open_it(state, &source->bytes, data) < 0) {
        source->bytes.has_view = 0;
        source->bytes.copy = NULL;
        Py_DECREF(source);
        return NULL;
    }
    source->data = source->bytes.copy != NULL ? source->bytes.copy : data;
    Py_INCREF(source->data);
    return source;
}

Source *source_of(struct state *state, PyObject *data) { return source_new(state, data, bytes_open_view); }

/* Bytes objects, and views of them, are in no cycle, so the collector hears of other objects alone. */
Source *source_as_it_is(struct state *state, PyObject *data) {
    Source *source = source_new(state, data, bytes_open_as_they_are);
    if (source != NULL && !source->bytes.is_fixed) PyObject_GC_Track((PyObject *)source);
    return source;
}

static PyObject *called(PyObject *object, const char *name, const char *format, const char *argument) {
    PyObject *result = object == NULL ? NULL : PyObject_CallMethod(object, name, format, argument);
    Py_XDECREF(object);
    return result;
}

PyObject *source_slice(Source *source, size_t at, size_t len) {
    if (source->view == NULL) {
        PyObject *view = PyMemoryView_FromObject(source->data);
        if (!PyBytes_CheckExact(source->data)) {
            view = called(view, "cast", "s", "B");
            view = called(view, "toreadonly", NULL, NULL);
        }
        if (view == NULL) return NULL;
        source->view = view;
    }
    return PySequence_GetSlice(source->view, (Py_ssize_t)at, (Py_ssize_t)(at + len));
}
