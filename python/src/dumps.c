/* All documents of a dump at once, and as a list. */
#include "dumps.h"

/* ---- each document ---- */

/* A document to read: its bytes themselves where nobody writes them, else a copy. */
static int to_read(Documents *all, size_t at, size_t len, struct bytes *document) {
    *document = bytes_part(all->block.at + at, len);
    if (all->block.is_fixed) return 0;
    if (len > all->copy_len) {
        size_t room = len > 2 * all->copy_len ? len : 2 * all->copy_len;
        PyMem_Free(all->copy);
        all->copy = PyMem_Malloc(room);
        all->copy_len = all->copy == NULL ? 0 : room;
        if (all->copy == NULL) PyErr_NoMemory();
        if (all->copy == NULL) return -1;
    }
    memcpy(all->copy, document->at, len);
    document->at = all->copy;
    return 0;
}

/* With errors="skip", or a call for errors, a document that raised BsonError is passed over: 0; else -1 with the error set. */
static int passed_over(const struct options *options) {
    PyObject *type, *error, *trace, *result;
    if (options->errors == NULL || !PyErr_ExceptionMatches(options->state->classes.error)) return -1;
    PyErr_Fetch(&type, &error, &trace);
    PyErr_NormalizeException(&type, &error, &trace);
    if (options->errors != Py_None) result = PyObject_CallFunctionObjArgs(options->errors, error, NULL);
    else Py_INCREF(result = Py_None);
    Py_XDECREF(type);
    Py_XDECREF(error);
    Py_XDECREF(trace);
    Py_XDECREF(result);
    return result == NULL ? -1 : 0;
}

/* Where no document was cut: 1 to go on after it, 0 at the end, -1 with an error set. */
static int without_document(Documents *all, const struct options *options, enum cut cut, size_t at, size_t len) {
    if (cut == CUT_NONE) return 0;
    if (cut == CUT_FAILED) return -1;
    set_error(cut_error(all, cut));
    if (passed_over(options) < 0) return -1;
    if (all->resyncs) return documents_resync(all, at, options->max_depth) < 0 ? -1 : 1;
    return cut == CUT_TOO_LARGE ? documents_pass(all, len) : 0;
}

/* Has a document taken: 0; 0, too, where it is passed over; -1 with an error set. */
static int take_one(Documents *all, size_t at, size_t len, const struct options *options, document_taker *take, void *to) {
    struct bytes document;
    if (to_read(all, at, len, &document) < 0) return -1;
    if (take(to, &document, options, all->before + at) == 0) return 0;
    if (passed_over(options) < 0) return -1;
    return all->resyncs ? documents_resync(all, at, options->max_depth) : 0;
}

/* Has the next document taken: 1; 1, too, where it is passed over; 0 at the end; -1 with an error set. */
static inline int take_another(Documents *all, const struct options *options, document_taker *take, void *to) {
    size_t at, len;
    enum cut cut = next_cut(all, &at, &len);
    int status = cut == CUT_ONE ? 1 : without_document(all, options, cut, at, len);
    if (status <= 0) return status;
    if (cut == CUT_ONE && take_one(all, at, len, options, take, to) < 0) return -1;
    return breathe(all->state, &all->breath, len) < 0 ? -1 : 1;
}

int take_each(Documents *all, const struct options *options, document_taker *take, void *to) {
    int status = 1;
    while (status > 0) status = take_another(all, options, take, to);
    return status;
}

/* ---- one ---- */

static int take_value(void *to, const struct bytes *document, const struct options *options, uint64_t before) {
    PyObject **value = to;
    *value = in_type(options, decoded(document, options, before));
    return *value == NULL ? -1 : 0;
}

int take_next(Documents *all, const struct options *options, PyObject **value) {
    int status = take_another(all, options, take_value, value);
    if (status < 0) Py_CLEAR(*value);
    return status;
}

PyObject *made_of(PyObject *documents, struct options *options, PyObject *make(Documents *, const struct options *)) {
    Documents *all = documents_of(options->state, documents);
    PyObject *made = NULL;
    if (all != NULL && documents_begin(all) == 0) {
        all->is_busy = 1;
        all->max_bytes = options->max_bytes;
        options->is_of_dump = 1;
        made = make(all, options);
        documents_end(all);
        all->is_busy = 0;
    }
    options_end(options);
    return made;
}

/* ---- a list ---- */

static int take_into_list(void *to, const struct bytes *document, const struct options *options, uint64_t before) {
    PyObject *object = in_type(options, decoded(document, options, before));
    int status = object == NULL ? -1 : PyList_Append(to, object);
    Py_XDECREF(object);
    return status;
}

static PyObject *decode_rest(Documents *all, const struct options *options) {
    PyObject *list = PyList_New(0);
    if (list != NULL && take_each(all, options, take_into_list, list) < 0) Py_CLEAR(list);
    return list;
}

/* decode_all(documents, ..): the rest of them, decoded. */
CALL(py_decode_all) {
    struct options options;
    PyObject *documents;
    if (options_read(module, &OF_DECODE_ALL, &options, &documents, args, count, names) < 0) return NULL;
    return made_of(documents, &options, decode_rest);
}
