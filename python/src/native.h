/* What the files of the module share. Objects are made of what the library tells of bytes: offsets and lengths that lie in
 * them. The library and this module read bytes more than once, so that only bytes that nobody writes are handed to them: those of
 * a bytes object. Of any other object's bytes a copy is made first. */
#ifndef BSONRAW_NATIVE_H
#define BSONRAW_NATIVE_H

#define PY_SSIZE_T_CLEAN
#include <Python.h>
#include <structmember.h>

#include <bsonraw.h>
#include <stdint.h>
#include <string.h>

#include "state.h"

#if defined(__BYTE_ORDER__) && __BYTE_ORDER__ != __ORDER_LITTLE_ENDIAN__
#error "numbers are read as BSON stores them: this module is for little-endian machines"
#endif

/* Of classes that nobody calls: their objects come from calls of the module. */
#if PY_VERSION_HEX >= 0x030A0000
#define NOT_CALLED (Py_TPFLAGS_DEFAULT | Py_TPFLAGS_DISALLOW_INSTANTIATION)
#else
#define NOT_CALLED Py_TPFLAGS_DEFAULT
#endif
PyTypeObject *type_not_called(PyObject *module, PyType_Spec *spec);

#if PY_VERSION_HEX >= 0x03090000
#define VISIT_TYPE(self) Py_VISIT(Py_TYPE(self))
#else
#define VISIT_TYPE(self) (void)(self)
#endif

#ifdef __GNUC__
#define IN_LINES __attribute__((aligned(64))) /* of an array: each of its 64 bytes are one line of the processor's cache */
#define INLINE static inline __attribute__((always_inline))
#define NOT_INLINE static __attribute__((noinline))
#else
#define IN_LINES
#define INLINE static inline
#define NOT_INLINE static
#endif

#define LET_GO_OVER 65536 /* a call over more bytes lets go of the interpreter's lock */

/* ---- bytes.c: the bytes that a caller hands in ---- */

struct bytes {
    const uint8_t *at; /* never NULL */
    size_t len;
    PyObject *copy; /* the bytes object that was made of the caller's, where those may be written; or NULL */
    int is_fixed;   /* nobody writes them: they belong to an object of the very class bytes */
    int has_view;
    Py_buffer view;
};

int bytes_open_view(const struct state *state, struct bytes *bytes, PyObject *data);

/* 0, or -1 with an error set. Each opened one has to be closed. */
static inline int bytes_open(const struct state *state, struct bytes *bytes, PyObject *data) {
    char *at;
    Py_ssize_t len;
    if (!PyBytes_CheckExact(data)) return bytes_open_view(state, bytes, data);
    PyBytes_AsStringAndSize(data, &at, &len); /* of bytes it raises nothing */
    bytes->at = (const uint8_t *)at;
    bytes->len = (size_t)len;
    bytes->copy = NULL;
    bytes->is_fixed = 1;
    bytes->has_view = 0;
    return 0;
}

/* The same, but no copy is made. Where they aren't fixed, each byte may be read once. */
int bytes_open_as_they_are(const struct state *state, struct bytes *bytes, PyObject *data);

static inline void bytes_close(struct bytes *bytes) {
    if (bytes->has_view) PyBuffer_Release(&bytes->view);
    Py_CLEAR(bytes->copy);
    bytes->has_view = 0;
}

/* Some bytes of others that stay open for longer. */
static inline struct bytes bytes_part(const uint8_t *at, size_t len) {
    struct bytes part;
    part.at = at;
    part.len = len;
    part.copy = NULL;
    part.is_fixed = 1;
    part.has_view = 0;
    return part;
}

/* Whether a call over these bytes lets go of the lock. */
#define LETS_GO(bytes) ((bytes)->len > LET_GO_OVER)

/* Does some work over bytes, which touches no object of Python, with the lock let go of where they are many. */
#define WITHOUT_LOCK(bytes, work)                                                                                              \
    do {                                                                                                                       \
        if (LETS_GO(bytes)) {                                                                                                  \
            Py_BEGIN_ALLOW_THREADS                                                                                             \
            work;                                                                                                              \
            Py_END_ALLOW_THREADS                                                                                               \
        } else {                                                                                                               \
            work;                                                                                                              \
        }                                                                                                                      \
    } while (0)

/* How much a long call has read, and when it last let others run. */
struct breath {
    size_t unheard; /* bytes since signals were looked for */
    int64_t at;     /* in nanoseconds; 0: not yet */
};

/* Lets signals be heard once in LET_GO_OVER bytes, and other threads run once in ten milliseconds: 0, or -1 with an error set. A thread
 * asks for the interpreter's lock once nobody has let go of it for sys.getswitchinterval(), five milliseconds; who lets go more often,
 * each time for a moment, may never be asked. */
int breathe(struct state *state, struct breath *breath, size_t len);

/* Bytes that elements and iterators keep open. */
typedef struct {
    PyObject_HEAD
    struct state *state;
    struct bytes bytes;
    PyObject *data; /* the caller's object, or the copy */
    PyObject *view; /* a read-only memoryview of it, made when first asked for */
} Source;

Source *source_of(struct state *state, PyObject *data);
Source *source_as_it_is(struct state *state, PyObject *data); /* without a copy */
PyObject *source_slice(Source *source, size_t at, size_t len);

static inline int32_t le_i32(const uint8_t *at) {
    int32_t number;
    memcpy(&number, at, 4);
    return number;
}

static inline int64_t le_i64(const uint8_t *at) {
    int64_t number;
    memcpy(&number, at, 8);
    return number;
}

/* In each of eight bytes the lowest bit, and the highest. */
#define ONES 0x0101010101010101u
#define HIGHS 0x8080808080808080u

/* Which of eight bytes, as a number has them, is the first one that isn't 0. */
static inline unsigned first_byte(uint64_t bytes) {
#ifdef __GNUC__
    return (unsigned)__builtin_ctzll(bytes) / 8;
#else
    unsigned number;
    for (number = 0; (bytes >> 8 * number & 0xff) == 0; number++) {}
    return number;
#endif
}

static inline double le_double(const uint8_t *at) {
    double number;
    memcpy(&number, at, 8);
    return number;
}

/* ---- classes.c: the classes of values ---- */

int classes_add(PyObject *module);
PyObject *classes_use(PyObject *module, PyObject *namespace);
void free_object(PyObject *self); /* of a class, over which one may be that has a dict of its own */
PyObject *raw_new(PyTypeObject *type, const uint8_t *bytes, uint8_t len);
PyObject *pair_new(PyTypeObject *type, PyObject *first, PyObject *second); /* steals both; NULL where one is NULL */

/* ---- over.c ---- */

PyObject *binary_new(const struct state *state, const uint8_t *at, size_t len, uint8_t subtype);
PyObject *binary_subtype(const struct state *state, PyObject *binary);
PyObject *code_new(struct state *state, PyObject *code, PyObject *scope); /* steals both; NULL where one is NULL */
PyObject *code_scope(const struct state *state, PyObject *code);

/* ---- times.c ---- */

int times_init(struct state *state);
PyObject *time_of(const struct state *state, int64_t millis, int is_naive); /* a datetime, or a DatetimeMS where no datetime has this time */
static inline int is_datetime(const struct state *state, PyObject *value) { return Py_TYPE(value) == state->classes.datetime; }
int millis_of(const struct state *state, PyObject *datetime, int64_t *millis);

/* ---- what a call was asked ---- */

/* Limits and what to make of values. Objects are the caller's, but for the last two. */
struct options {
    struct state *state;
    size_t max_bytes;
    size_t max_depth;
    size_t before; /* how many bytes of a dump are before those that are given */
    int is_pairs, is_naive, uuids;
    int tz_aware; /* -1 where it wasn't said */
    int is_plain; /* nothing below is there: values are the package's own */
    int is_canonical, indent; /* of Extended JSON; the indent is -1 for one line */
    int is_of_dump; /* what is read is one of the documents of a dump */
    const struct bytes *outer; /* of an element's value: the document that the element is in, and where it begins; or NULL */
    size_t element_at;
    int is_array; /* what is read is an array */
    PyObject *missing; /* what is in the place of a value that isn't there */
    PyObject *paths;   /* a list of tuples of a name and keys; or NULL */
    int is_typed;      /* columns of one kind are buffers */
    PyObject *errors;  /* what a fault is told; None to pass over it; NULL to raise it */
    PyObject *other;   /* makes a value that is written of one of another class; or NULL */
    PyObject *hook, *pairs_hook; /* make a value of each document; or NULL */
    PyObject *into; /* makes an object of a type of what was decoded; NULL for none */
    PyObject *types; /* a tuple, by tag, of what makes another class of a value; NULL for the package's own classes */
};

/* ---- foreign.c: values of the classes of others ---- */

PyObject *uuid_of(struct state *state, const uint8_t *at);
/* Types is a tuple, by tag, of what makes a value; None where ours is one. Of a leaf that is made without one of ours; NULL
 * with no error set where it isn't. */
PyObject *foreign_leaf(struct state *state, PyObject *types, uint32_t tag, const uint8_t *at, size_t len);
PyObject *foreign_document(struct state *state, PyObject *types, PyObject *document); /* takes it */
PyObject *in_types(struct state *state, PyObject *types, uint32_t tag, PyObject *value); /* in place of ours, which it takes */

/* ---- collector.c ---- */

/* While containers of a dump's document are made: whether this call has the collector off, which ends with it. */
int collector_hold_of_dump(const struct options *options);
void collector_end(struct state *state);

static inline int collector_hold(const struct options *options) { return options->is_of_dump ? collector_hold_of_dump(options) : 0; }

static inline void collector_free(struct state *state, int was_held) {
    if (was_held) collector_end(state);
}

/* Around what lets go of the interpreter's lock, or runs code of others, in between. */
int collector_pause(struct state *state);
void collector_resume(struct state *state, int was_held);
/* Calls what may be, or run, code of others; the second argument may be NULL. */
PyObject *call_out(struct state *state, PyObject *call, PyObject *first, PyObject *second);

/* ---- errors.c ---- */

#define PATH_ROOM 64

enum { INTERIOR_NUL = 21, TOO_LONG = 22, TOO_MANY_BYTES = 23, TOO_DEEP = 24 }; /* Reason's numbers beside the library's */

/* What a call over a whole document told. */
struct told {
    struct state *state;
    int32_t status;
    struct bsonraw_report report;
    uint64_t path[PATH_ROOM];
    size_t max_bytes, max_depth; /* what the call was given */
    size_t levels_before;        /* of what is written: how many levels are around it */
    int is_of_dump;              /* so that its offset is told in any case */
    uint64_t before;             /* how many bytes are before the document */
    const struct bytes *outer;   /* of a document in an element's value: the document with the element, which begins there; or NULL */
    size_t element_at;
    int is_array;
};

static inline void told_begin(struct told *told, const struct options *options) {
    told->state = options->state;
    told->max_bytes = options->max_bytes;
    told->max_depth = options->max_depth;
    told->levels_before = 0;
    told->is_of_dump = options->is_of_dump;
    told->before = 0;
    told->outer = options->outer;
    told->element_at = options->element_at;
    told->is_array = options->is_array;
}

/* The BsonError of a status that isn't one of success; NULL with an error set. */
PyObject *error_of(const struct bytes *bytes, const struct told *told);
void set_error_of(const struct bytes *bytes, const struct told *told);
/* The Breach that bsonraw_check told. */
PyObject *breach_of(const struct bytes *bytes, const struct told *told);
/* Sets the error of a cursor over one level. */
void set_cursor_error(struct state *state, const struct bytes *bytes, int32_t status, const struct bsonraw_iter *iter);
/* Goes into the document, the array or the scope that a cursor is at, and says whether there is one; if not, its error may say why. */
int go_into(struct bsonraw_iter *iter, const struct bytes *bytes);
/* Of bytes that no document is cut from. */
PyObject *error_no_document(struct state *state, uint32_t reason, uint64_t offset);
/* Of a document of a dump that is more than allowed. */
PyObject *error_refused(struct state *state, int reason, size_t limit, uint64_t offset);
/* Of what isn't written; the key may be NULL. */
void set_refused(struct state *state, int reason, size_t limit, PyObject *key);
void set_error(PyObject *error); /* takes it; NULL where an error is set */
PyObject *py_fault_text(PyObject *module, PyObject *args);

/* ---- tokens.c ---- */

/* The tokens of all levels: 0, or -1 with an error set. */
int tokens_read(struct tokens *tokens, const struct bytes *bytes, const struct options *options, uint64_t before);
void tokens_free(struct state *state, struct tokens *tokens);

/* ---- letters.c ---- */

void letters_init(struct letters *letters);
PyObject *letters_text(const struct letters *letters, const uint8_t *at, size_t len); /* of UTF-8 that isn't ASCII; raises UnicodeDecodeError where it isn't UTF-8 */

/* ---- decode.c ---- */

int tables_init(struct state *state);
void tables_clear(struct state *state);
PyObject *key_of(struct state *state, const uint8_t *at, size_t len);
PyObject *decoded(const struct bytes *bytes, const struct options *options, uint64_t before);
/* In place of a decoded document, which it takes: the object of the type that was asked for. */
PyObject *in_type(const struct options *options, PyObject *document);
/* Has each key of the first level taken, with its token: 0, or -1 with an error set. */
typedef int taker(void *to, PyObject *key, const struct bsonraw_token *token);
int take_keys(const struct bytes *bytes, const struct options *options, uint64_t before, taker *take, void *to);
PyObject *value_of_token(const struct bytes *bytes, const struct options *options, const struct bsonraw_token *token);
/* The value of one element of any kind. */
PyObject *value_at(const struct bytes *bytes, const struct bsonraw_iter *iter, const struct options *options);

/* ---- options.c: arguments ---- */

#define MAX_BYTES 16777216
#define MAX_DEPTH 500

#define MOST_PLACES 2
#define MOST_OPTIONS 14
#define MOST_INDENT 16

/* The arguments of a call: those that may be given by their places, and those that are given by their names alone. */
struct option;
struct signature {
    const char *call;
    const char *places[MOST_PLACES];
    const struct option *options[MOST_OPTIONS]; /* NULL after the last one */
    int placed; /* how many of them may be given by their places, too */
};
extern const struct signature OF_DECODE, OF_ENCODE, OF_VALUE, OF_ELEMENTS, OF_GET, OF_FIND, OF_WALK, OF_CANONICAL, OF_CHECK,
    OF_FIRST_FAULT, OF_TO_JSON, OF_EDIT, OF_DECODE_ALL, OF_COLUMNS, OF_CANONICAL_ALL;

int limit_of(PyObject *given, const char *name, size_t *limit);
int options_given(const struct signature *of, struct options *options, PyObject **data, PyObject *const *args, Py_ssize_t count,
                  PyObject *names);

static inline void options_begin(struct options *options, struct state *state) {
    memset(options, 0, sizeof *options);
    options->state = state;
    options->max_bytes = MAX_BYTES;
    options->max_depth = MAX_DEPTH;
    options->tz_aware = options->indent = -1;
    options->is_plain = 1;
    options->missing = Py_None;
}

static inline void options_end(const struct options *options) {
    Py_XDECREF(options->types);
    Py_XDECREF(options->into);
}

/* Reads the arguments of a call: 0, and they have to be ended; or -1 with an error set. Data has those that have places. */
static inline int options_read(PyObject *module, const struct signature *of, struct options *options, PyObject **data,
                               PyObject *const *args, Py_ssize_t count, PyObject *names) {
    options_begin(options, state_of(module));
    data[0] = count > 0 ? args[0] : NULL;
    return count == 1 && names == NULL && of->places[0] != NULL && of->places[1] == NULL
               ? 0
               : options_given(of, options, data, args, count, names);
}

/* The same, of a call of two arguments and no options. */
static inline int places_read(PyObject *module, const struct signature *of, PyObject **data, PyObject *const *args, Py_ssize_t count, PyObject *names) {
    struct options none;
    if (count == 2 && names == NULL) {
        data[0] = args[0];
        data[1] = args[1];
        return 0;
    }
    options_begin(&none, state_of(module));
    return options_given(of, &none, data, args, count, names);
}

/* ---- element.c, find.c ---- */

PyObject *element_new(Source *source, const struct bsonraw_iter *iter, size_t max_depth);
PyObject *element_key(PyObject *element);
uint64_t number_of_step(const uint8_t *at, size_t len); /* that it writes without a 0 too many; or UINT64_MAX */
const uint8_t *utf8_of(PyObject *text, const char *name, size_t *len); /* as long as it lives; NULL with an error set */

/* ---- lazy.c: what RawDocument is over ---- */

int lazy_bytes(PyObject *lazy, struct bytes *part); /* 0, or -1 with an error set */
/* Whether it has no fault and, with this many before, no more levels: 0, or -1 with an error set. */
int lazy_check(PyObject *lazy, size_t max_depth, size_t before);
PyObject *lazy_raw(PyObject *lazy, void *unused); /* its bytes as an object */

/* What iterators do. */
static inline PyObject *itself(PyObject *self) {
    Py_INCREF(self);
    return self;
}

static inline PyObject *itself_entered(PyObject *self, PyObject *unused) {
    (void)unused;
    return itself(self);
}

/* ---- the calls ---- */

int sources_add(PyObject *module);
int elements_add(PyObject *module);
int lazy_add(PyObject *module);
int walks_add(PyObject *module);
int documents_add(PyObject *module);
int decoded_add(PyObject *module);

#define CALL(name) PyObject *name(PyObject *module, PyObject *const *args, Py_ssize_t count, PyObject *names)
CALL(py_decode);
CALL(py_encode);
CALL(py_elements);
CALL(py_walk);
CALL(py_get);
CALL(py_find);
CALL(py_edit);
CALL(py_decode_all);
CALL(py_decode_iter);
CALL(py_columns);
CALL(py_canonical_all);
CALL(py_to_json);
PyObject *py_from_json(PyObject *module, PyObject *const *args, Py_ssize_t count);
PyObject *py_element(PyObject *module, PyObject *const *args, Py_ssize_t count);
PyObject *py_documents(PyObject *module, PyObject *const *args, Py_ssize_t count);
PyObject *py_partitions(PyObject *module, PyObject *const *args, Py_ssize_t count);
PyObject *py_listed(PyObject *module, PyObject *args);
PyObject *py_arrow(PyObject *module, PyObject *args);

#define FASTCALL(call) ((PyCFunction)(void (*)(void))(call))

#endif
