/* Arguments: by their places, and by their names. */
#include "native.h"

int limit_of(PyObject *given, const char *name, size_t *limit) {
    PyObject *number = PyNumber_Index(given);
    if (number == NULL) return -1;
    *limit = PyLong_AsSize_t(number);
    if (PyErr_Occurred() || *limit > PY_SSIZE_T_MAX) {
        if (!PyErr_Occurred() || PyErr_ExceptionMatches(PyExc_OverflowError))
            PyErr_Format(PyExc_ValueError, "%s is %S, and not from 0 to %zd", name, number, PY_SSIZE_T_MAX);
        Py_DECREF(number);
        return -1;
    }
    Py_DECREF(number);
    return 0;
}

/* ---- each option ---- */

static int read_max_bytes(struct options *options, PyObject *given) { return limit_of(given, "max_bytes", &options->max_bytes); }
static int read_max_depth(struct options *options, PyObject *given) { return limit_of(given, "max_depth", &options->max_depth); }
static int read_before(struct options *options, PyObject *given) { return limit_of(given, "before", &options->before); }

/* The limit of what is written, which None takes away. */
static int read_max_written(struct options *options, PyObject *given) {
    options->max_bytes = SIZE_MAX;
    return given == Py_None ? 0 : read_max_bytes(options, given);
}

/* What MongoDB's calls of the same names take besides: None and False mean the same here, where they change nothing. */
static int read_codec_options(PyObject *given, const char *instead) {
    if (given == Py_None) return 0;
    PyErr_Format(PyExc_TypeError, "codec_options aren't taken: in their place use %s", instead);
    return -1;
}

static int read_decode_options(struct options *options, PyObject *given) {
    (void)options;
    return read_codec_options(given, "tz_aware, uuid, types=\"bson\" and object_hook");
}

static int read_encode_options(struct options *options, PyObject *given) {
    (void)options;
    return read_codec_options(given, "default; a UUID is written with subtype 4");
}

static int read_check_keys(struct options *options, PyObject *given) {
    int flag = PyObject_IsTrue(given);
    (void)options;
    if (flag > 0) PyErr_SetString(PyExc_TypeError, "check_keys=True isn't taken: look before for keys that begin with $ or have a dot");
    return flag == 0 ? 0 : -1;
}

static int is_text(PyObject *given, const char *text) {
    return PyUnicode_Check(given) && PyUnicode_CompareWithASCIIString(given, text) == 0;
}

static int read_style(struct options *options, PyObject *given) {
    options->is_canonical = is_text(given, "canonical");
    if (options->is_canonical || is_text(given, "relaxed")) return 0;
    PyErr_Format(PyExc_ValueError, "style is %R, not 'relaxed' or 'canonical'", given);
    return -1;
}

/* Of how many spaces a level of lines is, as json has it; True is two. */
static int read_indent(struct options *options, PyObject *given) {
    int too_large = 0;
    long width = -1;
    options->indent = given == Py_True ? 2 : -1;
    if (PyBool_Check(given) || given == Py_None) return 0;
    if (PyLong_Check(given)) width = PyLong_AsLongAndOverflow(given, &too_large);
    if (width >= 0 && width <= MOST_INDENT) {
        options->indent = (int)width;
        return 0;
    }
    PyErr_Format(PyExc_ValueError, "indent is %R, not None, a bool, or from 0 to %d", given, MOST_INDENT);
    return -1;
}

static int read_missing(struct options *options, PyObject *given) {
    options->missing = given;
    return 0;
}

static int read_paths(struct options *options, PyObject *given) {
    options->paths = given == Py_None ? NULL : given;
    if (given == Py_None || PyList_Check(given)) return 0;
    PyErr_SetString(PyExc_TypeError, "paths is no list");
    return -1;
}

static int read_flag(PyObject *given, int *flag) {
    *flag = PyObject_IsTrue(given);
    return *flag < 0 ? -1 : 0;
}

static int read_pairs(struct options *options, PyObject *given) { return read_flag(given, &options->is_pairs); }
static int read_typed(struct options *options, PyObject *given) { return read_flag(given, &options->is_typed); }
static int read_uuid(struct options *options, PyObject *given) { return read_flag(given, &options->uuids); }
static int read_tz_aware(struct options *options, PyObject *given) {
    options->tz_aware = -1;
    return given == Py_None ? 0 : read_flag(given, &options->tz_aware);
}

static int read_types(struct options *options, PyObject *given) {
    Py_CLEAR(options->types);
    if (given == Py_None) return 0;
    options->types = PyObject_CallFunctionObjArgs(options->state->classes.types_of, given, NULL);
    return options->types == NULL ? -1 : 0;
}

static int read_type(struct options *options, PyObject *given) {
    Py_CLEAR(options->into);
    if (given == Py_None) return 0;
    options->into = PyObject_CallFunctionObjArgs(options->state->classes.into_of, given, NULL);
    return options->into == NULL ? -1 : 0;
}

/* A call, or None for none. */
static int read_call(PyObject *given, const char *name, PyObject **call) {
    *call = given == Py_None ? NULL : given;
    if (given == Py_None || PyCallable_Check(given)) return 0;
    PyErr_Format(PyExc_TypeError, "%s is %R, and can't be called", name, given);
    return -1;
}

static int read_default(struct options *options, PyObject *given) { return read_call(given, "default", &options->other); }
static int read_hook(struct options *options, PyObject *given) { return read_call(given, "object_hook", &options->hook); }
static int read_pairs_hook(struct options *options, PyObject *given) {
    return read_call(given, "object_pairs_hook", &options->pairs_hook);
}

/* What becomes of faults: they are raised, or passed over, or a call gets each. */
static int read_errors(struct options *options, PyObject *given) {
    options->errors = NULL;
    if (is_text(given, "strict")) return 0;
    options->errors = PyCallable_Check(given) ? given : Py_None;
    if (options->errors != Py_None || is_text(given, "skip")) return 0;
    PyErr_Format(PyExc_ValueError, "errors is %R, not 'strict', 'skip' or a call", given);
    return -1;
}

static const struct option {
    const char *name;
    int (*read)(struct options *options, PyObject *given);
} MAX_BYTES_OPTION = {"max_bytes", read_max_bytes}, MAX_WRITTEN = {"max_bytes", read_max_written},
  MAX_DEPTH_OPTION = {"max_depth", read_max_depth}, BEFORE = {"before", read_before}, STYLE = {"style", read_style},
  INDENT = {"indent", read_indent}, MISSING = {"missing", read_missing}, PAIRS = {"pairs", read_pairs}, UUID = {"uuid", read_uuid},
  TZ_AWARE = {"tz_aware", read_tz_aware}, TYPES = {"types", read_types}, TYPE = {"type", read_type}, DEFAULT = {"default", read_default},
  HOOK = {"object_hook", read_hook}, PAIRS_HOOK = {"object_pairs_hook", read_pairs_hook}, ERRORS = {"errors", read_errors},
  PATHS = {"paths", read_paths}, TYPED = {"typed", read_typed}, CHECK_KEYS = {"check_keys", read_check_keys},
  DECODE_OPTIONS = {"codec_options", read_decode_options}, ENCODE_OPTIONS = {"codec_options", read_encode_options};

#define OF_VALUES &PAIRS, &TYPES, &TZ_AWARE, &UUID, &HOOK, &PAIRS_HOOK
#define LIMITS &MAX_BYTES_OPTION, &MAX_DEPTH_OPTION

/* ---- calls ---- */

const struct signature OF_DECODE = {"decode", {"data"}, {&DECODE_OPTIONS, &TYPE, OF_VALUES, LIMITS}, 1};
const struct signature OF_ENCODE = {
    "encode", {"document"}, {&CHECK_KEYS, &ENCODE_OPTIONS, &DEFAULT, &MAX_WRITTEN, &MAX_DEPTH_OPTION}, 2};
const struct signature OF_VALUE = {"decode", {NULL}, {OF_VALUES, LIMITS}};
const struct signature OF_ELEMENTS = {"elements", {"data"}, {NULL}};
const struct signature OF_GET = {"get", {"data", "key"}, {NULL}};
const struct signature OF_FIND = {"find", {"data", "path"}, {NULL}};
const struct signature OF_EDIT = {"edit", {"data", "changes"}, {&DEFAULT}};
const struct signature OF_WALK = {"walk", {"data"}, {LIMITS}};
const struct signature OF_CANONICAL = {"canonical", {"data"}, {LIMITS}};
const struct signature OF_CHECK = {"check", {"data"}, {LIMITS}};
const struct signature OF_FIRST_FAULT = {"first_fault", {"data"}, {LIMITS}};
const struct signature OF_TO_JSON = {"to_json", {"data"}, {&STYLE, &INDENT, LIMITS}};
const struct signature OF_DECODE_ALL = {"decode_all", {"data"}, {&DECODE_OPTIONS, &TYPE, &ERRORS, OF_VALUES, LIMITS}};
const struct signature OF_COLUMNS = {"columns", {"source"}, {&ERRORS, &MISSING, &PATHS, &TYPED, OF_VALUES, LIMITS}};
const struct signature OF_CANONICAL_ALL = {"canonical_all", {"data"}, {&BEFORE, LIMITS}};

static int is_named(PyObject *name, const char *text) { return PyUnicode_CompareWithASCIIString(name, text) == 0; }

/* Takes what was given by a name. */
static int take_named(const struct signature *of, struct options *options, PyObject **data, PyObject *name, PyObject *given) {
    const struct option *const *option = of->options;
    int place;
    for (place = 0; place < MOST_PLACES && of->places[place] != NULL; place++)
        if (is_named(name, of->places[place])) {
            if (data[place] != NULL) PyErr_Format(PyExc_TypeError, "%s() got multiple values for argument '%U'", of->call, name);
            data[place] = given;
            return PyErr_Occurred() ? -1 : 0;
        }
    while (*option != NULL && !is_named(name, (*option)->name)) option++;
    if (*option != NULL) return (*option)->read(options, given);
    PyErr_Format(PyExc_TypeError, "%s() got an unexpected keyword argument '%U'", of->call, name);
    return -1;
}

static int read_all(const struct signature *of, struct options *options, PyObject **data, PyObject *const *args, Py_ssize_t count,
                    PyObject *names) {
    Py_ssize_t number, named = names == NULL ? 0 : PyTuple_Size(names);
    int places = 0;
    while (places < MOST_PLACES && of->places[places] != NULL) places++;
    if (count > places + of->placed) {
        PyErr_Format(PyExc_TypeError, "%s() takes %d positional arguments, and %zd were given", of->call, places + of->placed, count);
        return -1;
    }
    for (number = 0; number < places; number++) data[number] = number < count ? args[number] : NULL;
    for (number = places; number < count; number++)
        if (of->options[number - places]->read(options, args[number]) < 0) return -1;
    for (number = 0; number < named; number++)
        if (take_named(of, options, data, PyTuple_GetItem(names, number), args[count + number]) < 0) return -1;
    for (number = 0; number < places; number++)
        if (data[number] == NULL) {
            PyErr_Format(PyExc_TypeError, "%s() is missing its argument '%s'", of->call, of->places[number]);
            return -1;
        }
    return 0;
}

int options_given(const struct signature *of, struct options *options, PyObject **data, PyObject *const *args, Py_ssize_t count,
                  PyObject *names) {
    if (read_all(of, options, data, args, count, names) < 0) {
        options_end(options);
        return -1;
    }
    options->is_naive = options->tz_aware < 0 ? options->types != NULL : !options->tz_aware;
    options->is_plain = !options->is_naive && !options->uuids && options->types == NULL && options->hook == NULL &&
                        options->pairs_hook == NULL;
    if (options->pairs_hook != NULL) options->is_pairs = 1;
    return 0;
}
