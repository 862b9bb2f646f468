/* Values of the classes over bytes and str: Binary, which has a subtype, and Code, which may have a scope. */
#include "native.h"

/* One of a class over bytes, by the tp_new of these. */
static PyObject *bytes_over(const struct state *state, PyTypeObject *type, PyObject *data) {
    PyObject *args = PyTuple_Pack(1, data), *made = args == NULL ? NULL : state->new_bytes(type, args, NULL);
    Py_XDECREF(args);
    return made;
}

PyObject *binary_new(const struct state *state, const uint8_t *at, size_t len, uint8_t subtype) {
    PyObject *data = PyBytes_FromStringAndSize((const char *)at, (Py_ssize_t)len), *number = PyLong_FromLong(subtype);
    PyObject *binary = data == NULL || number == NULL ? NULL : bytes_over(state, state->classes.binary, data);
    if (binary != NULL && PyObject_GenericSetAttr(binary, state->names.subtype, number) < 0) Py_CLEAR(binary);
    Py_XDECREF(number);
    Py_XDECREF(data);
    return binary;
}

PyObject *code_new(struct state *state, PyObject *code, PyObject *scope) {
    PyObject *made = code == NULL || scope == NULL ? NULL : call_out(state, (PyObject *)state->classes.code, code, scope);
    Py_XDECREF(code);
    Py_XDECREF(scope);
    return made;
}

PyObject *binary_subtype(const struct state *state, PyObject *binary) {
    return PyObject_GenericGetAttr(binary, state->names.subtype);
}

PyObject *code_scope(const struct state *state, PyObject *code) { return PyObject_GenericGetAttr(code, state->names.scope); }
