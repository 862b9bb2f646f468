/* What the module keeps: begun, looked through and cleared. */
#include "native.h"

struct state *state_of(PyObject *module) { return PyModule_GetState(module); }

/* ---- classes of the module ---- */

#define KEPT_AS "_native" /* the attribute by which a class keeps its module, so that this lives as long as each object of the class */

PyTypeObject *type_new(PyObject *module, PyType_Spec *spec, PyObject *bases) {
    PyObject *type = PyType_FromSpecWithBases(spec, bases);
    if (type != NULL && PyObject_SetAttrString(type, KEPT_AS, module) < 0) Py_CLEAR(type);
    return (PyTypeObject *)type;
}

int add_type(PyObject *module, const char *name, PyTypeObject *type) {
    if (type == NULL) return -1;
    Py_INCREF((PyObject *)type);
    if (PyModule_AddObject(module, name, (PyObject *)type) == 0) return 0;
    Py_DECREF((PyObject *)type);
    return -1;
}

struct state *state_of_object(PyObject *self) {
    PyObject *module = PyObject_GetAttrString((PyObject *)Py_TYPE(self), KEPT_AS);
    struct state *state = NULL;
    if (module != NULL && PyModule_Check(module) && PyModule_GetDef(module) == module_definition()) state = PyModule_GetState(module);
    PyErr_Clear();
    Py_XDECREF(module);
    return state;
}

/* ---- names ---- */

static const struct {
    size_t slot;
    const char *text;
} texts[] = {
    {offsetof(struct names, marker), "_type_marker"}, {offsetof(struct names, obj), "obj"},
    {offsetof(struct names, subtype), "_subtype"},    {offsetof(struct names, scope), "_scope"},
    {offsetof(struct names, ref), "$ref"},            {offsetof(struct names, integer), "int"},
    {offsetof(struct names, is_safe), "is_safe"},     {offsetof(struct names, id), "_ObjectId__id"},
    {offsetof(struct names, utcoffset), "utcoffset"}, {offsetof(struct names, of_time[0]), "year"},
    {offsetof(struct names, of_time[1]), "month"},    {offsetof(struct names, of_time[2]), "day"},
    {offsetof(struct names, of_time[3]), "hour"},     {offsetof(struct names, of_time[4]), "minute"},
    {offsetof(struct names, of_time[5]), "second"},   {offsetof(struct names, of_time[6]), "microsecond"},
    {offsetof(struct names, of_time[7]), "tzinfo"},
};

static int names_init(struct names *names) {
    size_t number;
    for (number = 0; number < sizeof texts / sizeof *texts; number++) {
        PyObject *text = PyUnicode_InternFromString(texts[number].text);
        if (text == NULL) return -1;
        memcpy((char *)names + texts[number].slot, &text, sizeof text);
    }
    return 0;
}

/* ---- all of it ---- */

int state_init(PyObject *module) {
    struct state *state = state_of(module);
    return tables_init(state) < 0 || names_init(&state->names) < 0 || times_init(state) < 0 ? -1 : 0;
}

/* The place of an object, where it is one of the classes' or of the names'. */
static PyObject **place_of(struct state *state, size_t number) {
    const size_t classes = sizeof state->classes / sizeof(PyObject *);
    return number < classes ? (PyObject **)(void *)&state->classes + number : (PyObject **)(void *)&state->names + (number - classes);
}

#define PLACES ((sizeof(struct classes) + sizeof(struct names)) / sizeof(PyObject *))

int state_traverse(PyObject *module, visitproc visit, void *arg) {
    struct state *state = state_of(module);
    size_t number;
    for (number = 0; state != NULL && number < PLACES; number++) Py_VISIT(*place_of(state, number));
    return 0;
}

int state_clear(PyObject *module) {
    struct state *state = state_of(module);
    size_t number;
    if (state == NULL) return 0;
    for (number = 0; number < PLACES; number++) Py_CLEAR(*place_of(state, number));
    tables_clear(state);
    return 0;
}

void state_free(void *module) {
    struct state *state = state_of(module);
    if (state == NULL) return;
    state_clear(module);
    PyMem_Free(state->tables_memory);
    PyMem_Free(state->tokens.at);
    PyMem_Free(state->out.at);
    PyMem_Free(state->text.at);
    state->tables = NULL;
    state->tables_memory = NULL;
}
