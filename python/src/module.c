/* The module bsonraw._native, and its calls over whole documents. */
#include "native.h"

/* The bytes and the limits of a call. */
struct call {
    struct bytes bytes;
    struct told told;
};

static int call_begin(PyObject *module, struct call *call, const struct signature *of, PyObject **data, PyObject *const *args, Py_ssize_t count,
                      PyObject *names) {
    struct options options;
    if (options_read(module, of, &options, data, args, count, names) < 0) return -1;
    told_begin(&call->told, &options);
    return bytes_open(options.state, &call->bytes, *data);
}

static CALL(py_check) {
    struct call call;
    struct told *told = &call.told;
    const struct bytes *bytes = &call.bytes;
    PyObject *data, *result = NULL;
    if (call_begin(module, &call, &OF_CHECK, &data, args, count, names) < 0) return NULL;
    WITHOUT_LOCK(bytes, told->status = bsonraw_check(bytes->at, bytes->len, told->max_bytes, told->max_depth, &told->report,
                                                     told->path, PATH_ROOM));
    if (told->status == BSONRAW_BREACH) result = breach_of(bytes, told);
    else if (told->status != BSONRAW_OK) set_error_of(bytes, told);
    else Py_INCREF(result = Py_None);
    bytes_close(&call.bytes);
    return result;
}

static CALL(py_first_fault) {
    struct call call;
    struct told *told = &call.told;
    const struct bytes *bytes = &call.bytes;
    PyObject *data, *result;
    if (call_begin(module, &call, &OF_FIRST_FAULT, &data, args, count, names) < 0) return NULL;
    WITHOUT_LOCK(bytes, told->status = bsonraw_first_fault(bytes->at, bytes->len, told->max_bytes, told->max_depth,
                                                           &told->report, told->path, PATH_ROOM));
    if (told->status != BSONRAW_OK) result = error_of(bytes, told);
    else Py_INCREF(result = Py_None);
    bytes_close(&call.bytes);
    return result;
}

/* Writes the form into bytes of this length. */
static PyObject *form_in(struct call *call, size_t room) {
    struct told *told = &call->told;
    const struct bytes *bytes = &call->bytes;
    PyObject *form = PyBytes_FromStringAndSize(NULL, (Py_ssize_t)room);
    uint8_t *at = form == NULL ? NULL : (uint8_t *)PyBytes_AsString(form);
    if (at != NULL)
        WITHOUT_LOCK(bytes, told->status = bsonraw_canonical(bytes->at, bytes->len, told->max_bytes, told->max_depth, at, room,
                                                             &told->report, told->path, PATH_ROOM));
    return form;
}

/* The form in place of the room that it was written to: the caller's own bytes where they are it. */
static PyObject *form_of(const struct call *call, PyObject *data, PyObject *room) {
    size_t len = (size_t)call->told.report.count;
    if (PyBytes_CheckExact(data) && len == call->bytes.len && memcmp(call->bytes.at, PyBytes_AsString(room), len) == 0) {
        Py_DECREF(room);
        Py_INCREF(data);
        return data;
    }
    if (len < (size_t)PyBytes_Size(room)) {
        PyObject *form = PyBytes_FromStringAndSize(PyBytes_AsString(room), (Py_ssize_t)len);
        Py_DECREF(room);
        return form;
    }
    return room;
}

static CALL(py_canonical) {
    struct call call;
    PyObject *data, *form;
    if (call_begin(module, &call, &OF_CANONICAL, &data, args, count, names) < 0) return NULL;
    form = form_in(&call, call.bytes.len > call.told.max_bytes ? 0 : call.bytes.len);
    if (form != NULL && call.told.status == BSONRAW_SMALL_BUFFER) {
        Py_DECREF(form);
        form = form_in(&call, (size_t)call.told.report.count);
    }
    if (form != NULL && call.told.status == BSONRAW_OK) {
        form = form_of(&call, data, form);
    } else if (form != NULL) {
        Py_CLEAR(form);
        set_error_of(&call.bytes, &call.told);
    }
    bytes_close(&call.bytes);
    return form;
}

#include "docs.h"

static PyMethodDef calls[] = {
    {"decode", FASTCALL(py_decode), METH_FASTCALL | METH_KEYWORDS, decode_doc},
    {"encode", FASTCALL(py_encode), METH_FASTCALL | METH_KEYWORDS, encode_doc},
    {"elements", FASTCALL(py_elements), METH_FASTCALL | METH_KEYWORDS, elements_doc},
    {"walk", FASTCALL(py_walk), METH_FASTCALL | METH_KEYWORDS, walk_doc},
    {"get", FASTCALL(py_get), METH_FASTCALL | METH_KEYWORDS, get_doc},
    {"find", FASTCALL(py_find), METH_FASTCALL | METH_KEYWORDS, find_doc},
    {"edit", FASTCALL(py_edit), METH_FASTCALL | METH_KEYWORDS, edit_doc},
    {"canonical", FASTCALL(py_canonical), METH_FASTCALL | METH_KEYWORDS, canonical_doc},
    {"check", FASTCALL(py_check), METH_FASTCALL | METH_KEYWORDS, check_doc},
    {"first_fault", FASTCALL(py_first_fault), METH_FASTCALL | METH_KEYWORDS, first_fault_doc},
    {"to_json", FASTCALL(py_to_json), METH_FASTCALL | METH_KEYWORDS, to_json_doc},
    {"from_json", FASTCALL(py_from_json), METH_FASTCALL, NULL},
    {"documents", FASTCALL(py_documents), METH_FASTCALL, NULL},
    {"decode_all", FASTCALL(py_decode_all), METH_FASTCALL | METH_KEYWORDS, NULL},
    {"decode_iter", FASTCALL(py_decode_iter), METH_FASTCALL | METH_KEYWORDS, NULL},
    {"columns", FASTCALL(py_columns), METH_FASTCALL | METH_KEYWORDS, NULL},
    {"canonical_all", FASTCALL(py_canonical_all), METH_FASTCALL | METH_KEYWORDS, NULL},
    {"partitions", FASTCALL(py_partitions), METH_FASTCALL, NULL},
    {"element", FASTCALL(py_element), METH_FASTCALL, NULL},
    {"listed", py_listed, METH_VARARGS, NULL},
    {"arrow", py_arrow, METH_VARARGS, NULL},
    {"fault_text", py_fault_text, METH_VARARGS, NULL},
    {"use", classes_use, METH_O, NULL},
    {NULL, NULL, 0, NULL}};

static int fill(PyObject *module) {
    if (state_init(module) < 0 || sources_add(module) < 0 || classes_add(module) < 0 || elements_add(module) < 0 ||
        lazy_add(module) < 0 || walks_add(module) < 0 || documents_add(module) < 0 ||
        decoded_add(module) < 0)
        return -1;
    return PyModule_AddIntConstant(module, "VERSION", BSONRAW_VERSION);
}

static struct PyModuleDef definition = {PyModuleDef_HEAD_INIT, "bsonraw._native", "What bsonraw does in C.", sizeof(struct state), calls,
                                        NULL, state_traverse, state_clear, state_free};

struct PyModuleDef *module_definition(void) { return &definition; }

/* What later versions are told: 3.12 that each interpreter has its own module, with a lock of its own, and 3.13 that one
 * interpreter has a lock, without which what the module keeps for the next call would be shared. The stable interface has the numbers
 * of these slots; the headers of earlier versions don't have their names. */
#define SLOT_OF_INTERPRETERS 3
#define OWN_LOCKS ((void *)2)

static PyModuleDef_Slot plain_slots[] = {{Py_mod_exec, (void *)fill}, {0, NULL}};
static PyModuleDef_Slot later_slots[] = {{Py_mod_exec, (void *)fill},
                                         {SLOT_OF_INTERPRETERS, OWN_LOCKS},
#ifdef Py_mod_gil
                                         {Py_mod_gil, Py_MOD_GIL_USED},
#endif
                                         {0, NULL}};

static int is_later(void) {
#if defined(Py_LIMITED_API)
    return Py_Version >= 0x030C0000;
#else
    return PY_VERSION_HEX >= 0x030C0000;
#endif
}

#ifdef __GNUC__
__attribute__((visibility("default"))) /* which headers before 3.9 leave out */
#endif
PyMODINIT_FUNC PyInit__native(void) {
    uint32_t version = bsonraw_version(); /* a later one has all that the header's has, if the first digits are the same */
    if (version >= BSONRAW_VERSION && version / 10000 == BSONRAW_VERSION / 10000) {
        definition.m_slots = is_later() ? later_slots : plain_slots;
        return PyModuleDef_Init(&definition);
    }
    PyErr_SetString(PyExc_ImportError,
                    "bsonraw was built with the header of another version of the library: build the package again");
    return NULL;
}
