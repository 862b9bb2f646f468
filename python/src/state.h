/* What the module keeps. All of it is in the module's own memory: each interpreter has its own, and so has each import after the
 * module was taken out of sys.modules. Nothing of it is static. */
#ifndef BSONRAW_STATE_H
#define BSONRAW_STATE_H

#include <Python.h>
#include <bsonraw.h>
#include <stddef.h>
#include <stdint.h>

/* Up to 16 bytes: ids, decimals, timestamps. */
typedef struct {
    PyObject_HEAD
    uint8_t len;
    uint8_t bytes[16];
} Raw;

/* Two values: regular expressions, pointers. */
typedef struct {
    PyObject_HEAD
    PyObject *first;
    PyObject *second;
} Pair;

/* The classes that the package defines in Python over these, and what else the module makes or calls. Each member is an object, or
 * NULL: module.c goes through them as through an array. */
struct classes {
    PyTypeObject *raw, *pair;                             /* which are defined in C, as are these: */
    PyTypeObject *source, *element, *elements, *walk, *documents, *decoded, *lazy;
    PyTypeObject *object_id, *decimal128, *timestamp;     /* over Raw */
    PyTypeObject *regex, *db_pointer;                     /* over Pair */
    PyTypeObject *binary, *code;                          /* over bytes, str */
    PyTypeObject *int64, *datetime_ms, *symbol, *pairs;   /* over int, int, str, list */
    PyTypeObject *raw_document;                           /* over lazy */
    PyTypeObject *undefined_type, *min_key_type, *max_key_type;
    PyObject *undefined, *min_key, *max_key;
    PyObject *error, *breach, *remove;
    PyObject *again;             /* what a pickle has of a value of a class over ours */
    PyObject *convert;           /* a value of another class to one of these, for encoding; or NotImplemented */
    PyObject *placed;            /* an error of encoding with the place */
    PyObject *steps;             /* the steps of a path */
    PyObject *types_of;          /* what makes values of another package's classes */
    PyObject *into_of;           /* what makes an object of a type of a decoded document */
    PyObject *element_type[256]; /* by tag; NULL where there is none */
    PyTypeObject *datetime;
    PyObject *utc;
    PyObject *uuid, *unknown, *sixty_four; /* for UUIDs; NULL before the first one */
    PyObject *int64_args;        /* a tuple for one argument, for the next Int64; or NULL */
};

/* Names of attributes and keys; objects, too. */
struct names {
    PyObject *marker, *obj, *subtype, *scope, *ref, *integer, *is_safe, *id, *utcoffset;
    PyObject *of_time[8]; /* year, month, day, hour, minute, second, microsecond, tzinfo */
};

/* Tokens of a document. */
struct tokens {
    struct bsonraw_token *at;
    size_t count;
    size_t room;
};

/* A document that is written. */
struct state;
struct out {
    struct state *state;
    uint8_t *at;
    size_t len, room;
    size_t size; /* how many bytes there are at all, of which the room is what the limit leaves */
    size_t max;  /* the limit */
};

/* A text that is written. */
struct text_room {
    uint8_t *at;
    size_t len;
};

/* Of eight letters, those whose bits are set: where the bytes of each are, one after the other; and how many they are. */
#define BLOCK_OF_LETTERS 16
struct letters {
    uint8_t places[256][BLOCK_OF_LETTERS];
    uint8_t counts[256];
    int has_blocks; /* whether the processor can choose among the bytes of a block */
};

struct tables;

typedef PyObject *new_datetime(int, int, int, int, int, int, int, PyObject *, PyTypeObject *);

struct state {
    struct classes classes;
    struct names names;
    struct tables *tables;       /* the texts of keys, and how letters are chosen; see decode.c */
    void *tables_memory;
    unsigned in_a_row;           /* how many keys, up to the last one, weren't kept */
    unsigned seldom;
    newfunc new_int, new_bytes;  /* tp_new of int and of bytes */
    new_datetime *make_datetime; /* NULL where the class has to be called */
    struct tokens tokens;        /* rooms for the next call: who takes one owns it until it is given back */
    struct out out;
    struct text_room text;
    int is_held;                 /* the cyclic garbage collector was on, and is off */
};

struct state *state_of(PyObject *module);
struct PyModuleDef *module_definition(void);
int state_init(PyObject *module);
int state_traverse(PyObject *module, visitproc visit, void *arg);
int state_clear(PyObject *module);
void state_free(void *module);
/* Of an object of a class of the module, or of one over such a class; NULL, with no error set, where that hides it. */
struct state *state_of_object(PyObject *self);
/* A class that keeps its module. */
PyTypeObject *type_new(PyObject *module, PyType_Spec *spec, PyObject *bases);
int add_type(PyObject *module, const char *name, PyTypeObject *type);

#endif
