/* The elements of all levels, with their paths. */
#include "native.h"

struct step {
    uint32_t document_at, document_len;
    size_t end; /* the number of the token after the level */
    PyObject *path; /* of the document that the level is in */
    uint32_t number;
    int is_array;
};

typedef struct {
    PyObject_HEAD
    Source *source;
    struct tokens tokens;
    size_t next;
    struct step *steps;
    size_t depth, room, max_depth;
    int is_busy; /* while an element is made, which may run code of others */
} Walk;

static void walk_end(Walk *walk) {
    Source *source = walk->source;
    if (source == NULL) return;
    walk->source = NULL;
    while (walk->depth > 0) Py_DECREF(walk->steps[--walk->depth].path);
    PyMem_Free(walk->steps);
    tokens_free(source->state, &walk->tokens);
    Py_DECREF((PyObject *)source);
}

static void walk_dealloc(PyObject *self) {
    PyTypeObject *type = Py_TYPE(self);
    walk_end((Walk *)self);
    PyObject_Free(self);
    Py_DECREF(type);
}

static int go_in(Walk *walk, uint32_t at, uint32_t len, size_t end, PyObject *path, int is_array) {
    struct step *step;
    if (walk->depth == walk->room) {
        size_t room = walk->room * 2 + 8;
        step = PyMem_Realloc(walk->steps, room * sizeof *step);
        if (step == NULL) {
            PyErr_NoMemory();
            return -1;
        }
        walk->steps = step;
        walk->room = room;
    }
    step = &walk->steps[walk->depth++];
    step->document_at = at;
    step->document_len = len;
    step->end = end;
    step->number = 0;
    step->is_array = is_array;
    step->path = path;
    Py_INCREF(path);
    return 0;
}

/* The path of the next element of a level. Takes the key. */
static PyObject *path_of(struct step *step, PyObject *key) {
    PyObject *last = step->is_array && key != NULL ? PyLong_FromUnsignedLong(step->number) : key;
    PyObject *one = last == NULL ? NULL : PyTuple_Pack(1, last), *path = one == NULL ? NULL : PySequence_Concat(step->path, one);
    step->number++;
    if (last != key) Py_XDECREF(last);
    Py_XDECREF(key);
    Py_XDECREF(one);
    return path;
}

/* Goes into the document, the array or the scope of a token. */
static int go_into_token(Walk *walk, const struct bsonraw_token *token, PyObject *path) {
    uint32_t at = token->payload_at, len = token->payload_len;
    if (token->tag == BSONRAW_TAG_JAVASCRIPT_WITH_SCOPE) {
        uint32_t head = 8 + (uint32_t)le_i32(walk->source->bytes.at + at + 4);
        at += head;
        len -= head;
    }
    return go_in(walk, at, len, walk->next + token->inside, path, token->tag == BSONRAW_TAG_ARRAY);
}

/* The element of a token, with the cursor that it stands for. */
static PyObject *element_of(const Walk *walk, const struct step *step, const struct bsonraw_token *token) {
    struct bsonraw_iter iter;
    memset(&iter, 0, sizeof iter);
    iter.tag = token->tag;
    iter.key_at = token->key_at;
    iter.key_len = token->key_len;
    iter.payload_at = token->payload_at;
    iter.payload_len = token->payload_len;
    iter.document_at = step->document_at;
    iter.document_len = step->document_len;
    return element_new(walk->source, &iter, walk->max_depth - token->depth - 1);
}

static PyObject *walk_on(Walk *walk) {
    const struct bsonraw_token *token;
    struct step *step;
    PyObject *element, *path = NULL, *both = NULL;
    if (walk->source == NULL || walk->next == walk->tokens.count) {
        walk_end(walk);
        return NULL;
    }
    while (walk->steps[walk->depth - 1].end == walk->next) Py_DECREF(walk->steps[--walk->depth].path);
    token = &walk->tokens.at[walk->next++];
    step = &walk->steps[walk->depth - 1];
    element = element_of(walk, step, token);
    if (element != NULL) path = path_of(step, element_key(element));
    if (path != NULL && (token->inside == 0 || go_into_token(walk, token, path) == 0)) both = PyTuple_Pack(2, path, element);
    Py_XDECREF(path);
    Py_XDECREF(element);
    return both;
}

static int is_free(const Walk *walk) {
    if (walk->is_busy) PyErr_SetString(PyExc_ValueError, "another call is asking this walk for an element");
    return !walk->is_busy;
}

static PyObject *walk_next(PyObject *self) {
    Walk *walk = (Walk *)self;
    PyObject *both;
    if (!is_free(walk)) return NULL;
    walk->is_busy = 1;
    both = walk_on(walk);
    walk->is_busy = 0;
    return both;
}

static PyObject *walk_close(PyObject *self, PyObject *unused) {
    (void)unused;
    if (!is_free((Walk *)self)) return NULL;
    walk_end((Walk *)self);
    Py_RETURN_NONE;
}

static PyMethodDef walk_methods[] = {{"close", walk_close, METH_NOARGS, "Lets go of the bytes."},
                                     {"__enter__", itself_entered, METH_NOARGS, NULL},
                                     {"__exit__", walk_close, METH_VARARGS, NULL},
                                     {NULL, NULL, 0, NULL}};
static PyType_Slot walk_slots[] = {{Py_tp_dealloc, walk_dealloc}, {Py_tp_iter, itself},          {Py_tp_iternext, walk_next},
                                   {Py_tp_methods, walk_methods}, {Py_tp_doc, "What walk() gives: paths and elements."},
                                   {0, NULL}};
static PyType_Spec walk_spec = {"bsonraw.Walk", sizeof(Walk), 0, NOT_CALLED, walk_slots};

CALL(py_walk) {
    struct options options;
    PyObject *data, *empty = NULL;
    Walk *walk;
    if (options_read(module, &OF_WALK, &options, &data, args, count, names) < 0) return NULL;
    walk = PyObject_New(Walk, options.state->classes.walk);
    if (walk == NULL) return NULL;
    memset((char *)walk + offsetof(Walk, source), 0, sizeof *walk - offsetof(Walk, source));
    walk->max_depth = options.max_depth;
    walk->source = source_of(options.state, data);
    if (walk->source == NULL || tokens_read(&walk->tokens, &walk->source->bytes, &options, 0) < 0 ||
        (empty = PyTuple_New(0)) == NULL || go_in(walk, 0, (uint32_t)walk->source->bytes.len, SIZE_MAX, empty, 0) < 0)
        Py_CLEAR(walk);
    Py_XDECREF(empty);
    return (PyObject *)walk;
}

int walks_add(PyObject *module) {
    struct state *state = state_of(module);
    return add_type(module, "Walk", state->classes.walk = type_not_called(module, &walk_spec));
}
