/* The classes of values: two plain ones in C, over which the package defines the rest in Python. */
#include "native.h"

/* ---- Raw: up to sixteen bytes ---- */

PyObject *raw_new(PyTypeObject *type, const uint8_t *bytes, uint8_t len) {
    Raw *raw = (Raw *)PyType_GenericAlloc(type, 0);
    if (raw == NULL) return NULL;
    raw->len = len;
    memcpy(raw->bytes, bytes, len);
    return (PyObject *)raw;
}

static PyObject *raw_tp_new(PyTypeObject *type, PyObject *args, PyObject *names) {
    const char *bytes;
    Py_ssize_t len;
    if (names != NULL && PyDict_Size(names) > 0) {
        PyErr_SetString(PyExc_TypeError, "Raw takes no keyword arguments");
        return NULL;
    }
    if (!PyArg_ParseTuple(args, "y#:Raw", &bytes, &len)) return NULL;
    if (len > 16) {
        PyErr_SetString(PyExc_ValueError, "Raw takes 16 bytes at most");
        return NULL;
    }
    return raw_new(type, (const uint8_t *)bytes, (uint8_t)len);
}

void free_object(PyObject *self) {
    PyTypeObject *type = Py_TYPE(self);
    freefunc free_it;
    void *slot = PyType_GetSlot(type, Py_tp_free);
    memcpy(&free_it, &slot, sizeof slot);
    free_it(self);
    Py_DECREF(type);
}

static void raw_dealloc(PyObject *self) { free_object(self); }

/* Takes back the error of a value of others that can't be read: 0, or -1 where it is more than that, as without memory. */
static int clear_unread(void) {
    if (!PyErr_ExceptionMatches(PyExc_Exception) || PyErr_ExceptionMatches(PyExc_MemoryError)) return -1;
    PyErr_Clear();
    return 0;
}

/* Whether another value has the mark of this one. */
static int has_mark_of(PyObject *self, PyObject *other, PyObject *name) {
    PyObject *mine = PyObject_GetAttr(self, name), *theirs = mine == NULL ? NULL : PyObject_GetAttr(other, name);
    int is_same = theirs == NULL ? -1 : PyObject_RichCompareBool(mine, theirs, Py_EQ);
    Py_XDECREF(mine);
    Py_XDECREF(theirs);
    return is_same < 0 ? clear_unread() : is_same;
}

/* The comparison with a value of another class: that with what the package makes of it, where it has the same of MongoDB's marks. */
static PyObject *compare_marked(PyObject *self, PyObject *other, int how, richcmpfunc compare) {
    struct state *state = state_of_object(self);
    PyObject *made, *result;
    int is_same = state == NULL || state->classes.convert == NULL ? 0 : has_mark_of(self, other, state->names.marker);
    if (is_same < 0) return NULL;
    if (is_same == 0) Py_RETURN_NOTIMPLEMENTED;
    made = PyObject_CallFunctionObjArgs(state->classes.convert, other, NULL);
    if (made == NULL && clear_unread() < 0) return NULL; /* it lacks a part, or has one such as a pattern that isn't UTF-8 */
    if (made == NULL) Py_RETURN_NOTIMPLEMENTED;
    if (Py_TYPE(made) == Py_TYPE(self)) result = compare(self, made, how);
    else Py_INCREF(result = Py_NotImplemented);
    Py_DECREF(made);
    return result;
}

static PyObject *raw_compare(PyObject *self, PyObject *other, int how) {
    Raw *one = (Raw *)self, *two = (Raw *)other;
    int is_same;
    if (how != Py_EQ && how != Py_NE) Py_RETURN_NOTIMPLEMENTED;
    if (Py_TYPE(self) != Py_TYPE(other)) return compare_marked(self, other, how, raw_compare);
    is_same = one->len == two->len && memcmp(one->bytes, two->bytes, one->len) == 0;
    return PyBool_FromLong(is_same == (how == Py_EQ));
}

static PyObject *raw_bytes(PyObject *self, PyObject *unused) {
    (void)unused;
    return PyBytes_FromStringAndSize((const char *)((Raw *)self)->bytes, ((Raw *)self)->len);
}

static Py_hash_t raw_hash(PyObject *self) {
    PyObject *bytes = raw_bytes(self, NULL);
    Py_hash_t hash = bytes == NULL ? -1 : PyObject_Hash(bytes);
    Py_XDECREF(bytes);
    return hash;
}

static PyMethodDef raw_methods[] = {{"__bytes__", raw_bytes, METH_NOARGS, "The bytes, as BSON stores them."},
                                    {NULL, NULL, 0, NULL}};
static PyType_Slot raw_slots[] = {{Py_tp_new, raw_tp_new},           {Py_tp_dealloc, raw_dealloc},
                                  {Py_tp_richcompare, raw_compare},  {Py_tp_hash, raw_hash},
                                  {Py_tp_methods, raw_methods},      {Py_tp_doc, "Up to 16 bytes."},
                                  {0, NULL}};
static PyType_Spec raw_spec = {"bsonraw._native.Raw", sizeof(Raw), 0, Py_TPFLAGS_DEFAULT | Py_TPFLAGS_BASETYPE, raw_slots};

/* ---- Pair: two values ---- */

PyObject *pair_new(PyTypeObject *type, PyObject *first, PyObject *second) {
    Pair *pair = first == NULL || second == NULL ? NULL : (Pair *)PyType_GenericAlloc(type, 0);
    if (pair == NULL) {
        Py_XDECREF(first);
        Py_XDECREF(second);
        return NULL;
    }
    pair->first = first;
    pair->second = second;
    return (PyObject *)pair;
}

static PyObject *pair_tp_new(PyTypeObject *type, PyObject *args, PyObject *names) {
    PyObject *first, *second;
    if (names != NULL && PyDict_Size(names) > 0) {
        PyErr_SetString(PyExc_TypeError, "Pair takes no keyword arguments");
        return NULL;
    }
    if (!PyArg_ParseTuple(args, "OO:Pair", &first, &second)) return NULL;
    Py_INCREF(first);
    Py_INCREF(second);
    return pair_new(type, first, second);
}

static int pair_traverse(PyObject *self, visitproc visit, void *arg) {
    VISIT_TYPE(self);
    Py_VISIT(((Pair *)self)->first);
    Py_VISIT(((Pair *)self)->second);
    return 0;
}

static int pair_clear(PyObject *self) {
    Py_CLEAR(((Pair *)self)->first);
    Py_CLEAR(((Pair *)self)->second);
    return 0;
}

static void pair_dealloc(PyObject *self) {
    PyObject_GC_UnTrack(self);
    pair_clear(self);
    free_object(self);
}

static PyObject *pair_compare(PyObject *self, PyObject *other, int how) {
    Pair *one = (Pair *)self, *two = (Pair *)other;
    int is_same;
    if (how != Py_EQ && how != Py_NE) Py_RETURN_NOTIMPLEMENTED;
    if (Py_TYPE(self) != Py_TYPE(other)) return compare_marked(self, other, how, pair_compare);
    is_same = PyObject_RichCompareBool(one->first, two->first, Py_EQ);
    if (is_same == 1) is_same = PyObject_RichCompareBool(one->second, two->second, Py_EQ);
    return is_same < 0 ? NULL : PyBool_FromLong(is_same == (how == Py_EQ));
}

static Py_hash_t pair_hash(PyObject *self) {
    PyObject *both = PyTuple_Pack(2, ((Pair *)self)->first, ((Pair *)self)->second);
    Py_hash_t hash = both == NULL ? -1 : PyObject_Hash(both);
    Py_XDECREF(both);
    return hash;
}

static PyMemberDef pair_members[] = {{"_first", T_OBJECT_EX, offsetof(Pair, first), READONLY, NULL},
                                     {"_second", T_OBJECT_EX, offsetof(Pair, second), READONLY, NULL},
                                     {NULL, 0, 0, 0, NULL}};
static PyType_Slot pair_slots[] = {{Py_tp_new, pair_tp_new},           {Py_tp_dealloc, pair_dealloc},
                                   {Py_tp_traverse, pair_traverse},    {Py_tp_clear, pair_clear},
                                   {Py_tp_richcompare, pair_compare},  {Py_tp_hash, pair_hash},
                                   {Py_tp_members, pair_members},      {Py_tp_doc, "Two values."},
                                   {0, NULL}};
static PyType_Spec pair_spec = {"bsonraw._native.Pair", sizeof(Pair), 0,
                                Py_TPFLAGS_DEFAULT | Py_TPFLAGS_BASETYPE | Py_TPFLAGS_HAVE_GC, pair_slots};

/* ---- Int64: an int ---- */

/* How many bytes an int has without its digits, and a digit: the same in each interpreter of a process. */
static size_t int_size, digit_size;

static int size_of(const char *name, size_t *size) {
    PyObject *number = PyObject_GetAttrString((PyObject *)&PyLong_Type, name);
    size_t found = number == NULL ? 0 : PyLong_AsSize_t(number);
    Py_XDECREF(number);
    if (PyErr_Occurred()) return -1;
    if (*size != found) *size = found;
    return 0;
}

/* What int's own allocation does, for a class that the collector has no part in. */
static PyObject *int64_alloc(PyTypeObject *type, Py_ssize_t digits) {
    PyVarObject *number = PyObject_Malloc(int_size + (size_t)digits * digit_size);
    if (number == NULL) return PyErr_NoMemory();
    return (PyObject *)PyObject_InitVar(number, type, digits);
}

static void int64_dealloc(PyObject *self) {
    PyTypeObject *type = Py_TYPE(self);
    if (PyType_HasFeature(type, Py_TPFLAGS_HAVE_GC)) { /* of a class over it that has a dict */
        free_object(self);
        return;
    }
    PyObject_Free(self);
    Py_DECREF(type);
}

static PyObject *int64_str(PyObject *self) { return PyNumber_ToBase(self, 10); }

static PyObject *int64_repr(PyObject *self) {
    PyObject *digits = int64_str(self), *text = digits == NULL ? NULL : PyUnicode_FromFormat("Int64(%U)", digits);
    Py_XDECREF(digits);
    return text;
}

static PyObject *int64_reduce(PyObject *self, PyObject *unused) {
    struct state *state = state_of_object(self);
    PyObject *number = PyNumber_Long(self), *reduced = NULL;
    (void)unused;
    if (state == NULL) PyErr_SetString(PyExc_TypeError, "this class hides what Int64 keeps in _native");
    else if (number != NULL && Py_TYPE(self) == state->classes.int64) reduced = Py_BuildValue("O(O)", (PyObject *)Py_TYPE(self), number);
    else if (number != NULL) reduced = PyObject_CallFunctionObjArgs(state->classes.again, self, (PyObject *)state->classes.int64, number, NULL);
    Py_XDECREF(number);
    return reduced;
}

/* MongoDB's mark of an int of 64 bits, by which their encoder knows one. */
static PyObject *int64_mark(PyObject *self, void *unused) {
    (void)self;
    (void)unused;
    return PyLong_FromLong(18);
}

static PyGetSetDef int64_getters[] = {{"_type_marker", int64_mark, NULL, NULL, NULL}, {NULL, NULL, NULL, NULL, NULL}};
static PyMethodDef int64_methods[] = {{"__reduce__", int64_reduce, METH_NOARGS, NULL}, {NULL, NULL, 0, NULL}};
static PyType_Slot int64_slots[] = {{Py_tp_alloc, int64_alloc},     {Py_tp_dealloc, int64_dealloc},
                                    {Py_tp_str, int64_str},         {Py_tp_repr, int64_repr},
                                    {Py_tp_methods, int64_methods}, {Py_tp_getset, int64_getters},
                                    {Py_tp_doc, "An int that is stored in 64 bits, whatever its size."},
                                    {0, NULL}};
static PyType_Spec int64_spec = {"bsonraw.Int64", 0, 0, Py_TPFLAGS_DEFAULT | Py_TPFLAGS_BASETYPE, int64_slots};

static PyTypeObject *int64_class(PyObject *module) {
    PyObject *bases = size_of("__basicsize__", &int_size) < 0 || size_of("__itemsize__", &digit_size) < 0
                          ? NULL
                          : PyTuple_Pack(1, (PyObject *)&PyLong_Type);
    PyTypeObject *type = bases == NULL ? NULL : type_new(module, &int64_spec, bases);
    Py_XDECREF(bases);
    return type;
}

/* tp_new of int, or of bytes, which makes one of a class over it, too. */
static newfunc new_of(PyTypeObject *type) {
#ifdef Py_LIMITED_API
    newfunc make;
    void *slot = PyType_GetSlot(type, Py_tp_new);
    memcpy(&make, &slot, sizeof slot);
    return make;
#else
    return type->tp_new;
#endif
}

int classes_add(PyObject *module) {
    struct state *state = state_of(module);
    state->new_int = new_of(&PyLong_Type);
    state->new_bytes = new_of(&PyBytes_Type);
    if (add_type(module, "Raw", state->classes.raw = type_new(module, &raw_spec, NULL)) < 0) return -1;
    if (add_type(module, "Pair", state->classes.pair = type_new(module, &pair_spec, NULL)) < 0) return -1;
    return add_type(module, "Int64", state->classes.int64 = int64_class(module));
}

/* ---- what the package hands in ---- */

enum base { OF_ANY, OVER_RAW, OVER_PAIR, OVER_LAZY, OVER_INT, OVER_STR, OVER_LIST, OVER_BYTES };

struct named {
    const char *name;
    size_t slot; /* of the classes */
    enum base base;
};

#define SLOT(member) offsetof(struct classes, member)

static const struct named names[] = {
    {"ObjectId", SLOT(object_id), OVER_RAW},
    {"Decimal128", SLOT(decimal128), OVER_RAW},
    {"Timestamp", SLOT(timestamp), OVER_RAW},
    {"Regex", SLOT(regex), OVER_PAIR},
    {"Binary", SLOT(binary), OVER_BYTES},
    {"Code", SLOT(code), OVER_STR},
    {"DBPointer", SLOT(db_pointer), OVER_PAIR},
    {"DatetimeMS", SLOT(datetime_ms), OVER_INT},
    {"Symbol", SLOT(symbol), OVER_STR},
    {"Pairs", SLOT(pairs), OVER_LIST},
    {"RawDocument", SLOT(raw_document), OVER_LAZY},
    {"Undefined", SLOT(undefined_type), OF_ANY},
    {"MinKey", SLOT(min_key_type), OF_ANY},
    {"MaxKey", SLOT(max_key_type), OF_ANY},
    {"BsonError", SLOT(error), OF_ANY},
    {"breach", SLOT(breach), OF_ANY},
    {"again", SLOT(again), OF_ANY},
    {"placed", SLOT(placed), OF_ANY},
    {"types_of", SLOT(types_of), OF_ANY},
    {"into_of", SLOT(into_of), OF_ANY},
    {"steps_of", SLOT(steps), OF_ANY},
    {"REMOVE", SLOT(remove), OF_ANY},
    {"convert", SLOT(convert), OF_ANY},
};

/* What a class has to be over; NULL for any object. */
static PyObject *base_of(const struct classes *classes, enum base base) {
    switch (base) {
    case OVER_RAW: return (PyObject *)classes->raw;
    case OVER_PAIR: return (PyObject *)classes->pair;
    case OVER_LAZY: return (PyObject *)classes->lazy;
    case OVER_INT: return (PyObject *)&PyLong_Type;
    case OVER_STR: return (PyObject *)&PyUnicode_Type;
    case OVER_LIST: return (PyObject *)&PyList_Type;
    case OVER_BYTES: return (PyObject *)&PyBytes_Type;
    default: return NULL;
    }
}

static int take(struct classes *classes, PyObject *namespace, const struct named *named) {
    PyObject *found = PyObject_GetAttrString(namespace, named->name), *base = base_of(classes, named->base);
    if (found == NULL) return -1;
    if (base != NULL && PyObject_IsSubclass(found, base) != 1) {
        if (!PyErr_Occurred()) PyErr_Format(PyExc_TypeError, "%s is no class that the module can make", named->name);
        Py_DECREF(found);
        return -1;
    }
    memcpy((char *)classes + named->slot, &found, sizeof found);
    return 0;
}

static int take_element_types(struct classes *classes, PyObject *namespace) {
    PyObject *types = PyObject_GetAttrString(namespace, "ElementType");
    PyObject *all = types == NULL ? NULL : PySequence_List(types);
    Py_ssize_t number, count = all == NULL ? -1 : PyList_Size(all);
    Py_XDECREF(types);
    for (number = 0; number < count; number++) {
        PyObject *type = PyList_GetItem(all, number);
        long tag = PyLong_AsLong(type);
        if (tag < 0 || tag > 255) break;
        Py_INCREF(type);
        classes->element_type[tag] = type;
    }
    Py_XDECREF(all);
    return count < 0 || number < count ? -1 : 0;
}

static PyObject *only(PyTypeObject *type) { return PyObject_CallObject((PyObject *)type, NULL); }

PyObject *classes_use(PyObject *module, PyObject *namespace) {
    struct classes *classes = &state_of(module)->classes;
    size_t number;
    if (classes->convert != NULL) Py_RETURN_NONE;
    for (number = 0; number < sizeof names / sizeof *names; number++)
        if (take(classes, namespace, &names[number]) < 0) return NULL;
    if (take_element_types(classes, namespace) < 0) return NULL;
    classes->undefined = only(classes->undefined_type);
    classes->min_key = only(classes->min_key_type);
    classes->max_key = only(classes->max_key_type);
    if (classes->undefined == NULL || classes->min_key == NULL || classes->max_key == NULL) return NULL;
    Py_RETURN_NONE;
}
