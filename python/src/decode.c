/* Python values of tokens. */
#include "native.h"

/* ---- what is kept of keys ---- */

/* The texts of keys of up to 255 bytes are kept, in sets of two slots: the last two keys that were put there, the last one
 * first. Each slot is a line of the processor's cache. */
#define SETS 1024
#define MIDDLE 36
#define MOST_IN_SLOT (8 + MIDDLE + 8)
#define MOST 255
#define SELDOM 8 /* into a set that is full, one in this many new keys is put, so that keys that never come again cost little */
#define MANY_NEW 64     /* after this many keys in a row that aren't kept */
#define LOOKED_UP 16    /* one in this many is looked up, until one is kept */

struct slot {
    PyObject *text;
    uint64_t front; /* the first eight bytes; of a shorter key its bytes come last, after 0 */
    uint64_t end;   /* the last eight bytes of a key of over eight */
    uint32_t len;   /* 0 where no key is here */
    uint8_t middle[MIDDLE]; /* of a key of 17 to 52 the bytes from the ninth on; of a longer one the address of all, in its text */
};

struct tables {
    struct slot slots[SETS][2];
    struct letters letters;
};

/* ---- texts ---- */

static int is_ascii(const uint8_t *at, size_t len) {
    const uint8_t *end = at + len;
    uint64_t all = 0;
    if (len < 8) {
        for (; at < end; at++) all |= *at;
        return all < 0x80;
    }
    for (; end - at > 8; at += 8) all |= (uint64_t)le_i64(at);
    return ((all | (uint64_t)le_i64(end - 8)) & HIGHS) == 0;
}

#define COPIED 64

/* Makes a copy of a text of eight to this many bytes, which begins at a multiple of eight; says whether it is ASCII. Python's decoder would go
 * one by one through the bytes before such a multiple. */
INLINE int ascii_copy(uint64_t copy[COPIED / 8], const uint8_t *at, size_t len) {
    uint64_t eight = (uint64_t)le_i64(at + len - 8), all = eight;
    size_t done;
    memcpy((uint8_t *)copy + len - 8, &eight, 8);
    for (done = 0; done + 8 <= len; done += 8) {
        all |= eight = (uint64_t)le_i64(at + done);
        memcpy((uint8_t *)copy + done, &eight, 8);
    }
    return (all & HIGHS) == 0;
}

INLINE PyObject *ascii_text(const void *at, size_t len) { return PyUnicode_DecodeUTF8(at, (Py_ssize_t)len, "strict"); }

/* Raises UnicodeDecodeError where the bytes aren't UTF-8. */
static PyObject *utf8(const struct state *state, const uint8_t *at, size_t len) {
    if (len >= 8 && len <= COPIED) {
        uint64_t copy[COPIED / 8];
        if (ascii_copy(copy, at, len)) return ascii_text(copy, len);
    } else if (is_ascii(at, len)) {
        return ascii_text(at, len);
    }
    return letters_text(&state->tables->letters, at, len);
}

/* ---- keys ---- */

/* Whether the next key isn't looked up. */
static inline int is_passed_over(struct state *state) { return state->in_a_row >= MANY_NEW && ++state->in_a_row % LOOKED_UP != 0; }

#define ODD 0x9E3779B97F4A7C15u

/* What is after a key of one to eight bytes goes out of its front. */
static inline uint64_t front_of(uint64_t eight, size_t len) { return eight << (64 - 8 * len); }

static inline struct slot *set_of_short(const struct state *state, uint64_t front) { return state->tables->slots[front * ODD >> 54]; }

static inline struct slot *set_of_long(const struct state *state, uint64_t front, uint64_t end, const uint8_t *at, size_t len) {
    uint64_t hash = front * ODD;
    size_t done;
    for (done = 8; done + 8 < len; done += 8) hash = (hash ^ hash >> 32 ^ (uint64_t)le_i64(at + done)) * ODD;
    hash = (hash ^ hash >> 32 ^ end) * ODD;
    return state->tables->slots[hash >> 54];
}

static inline int is_in(const struct slot *slot, uint64_t front, uint64_t end, const uint8_t *at, size_t len) {
    const uint8_t *all;
    if (slot->front != front || slot->end != end || slot->len != len) return 0;
    if (len <= MOST_IN_SLOT) return len <= 16 || memcmp(slot->middle, at + 8, len - 16) == 0;
    memcpy(&all, slot->middle, sizeof all);
    return memcmp(all + 8, at + 8, len - 16) == 0;
}

/* Has a slot hold a key: 0, or -1 with an error set. */
static int slot_fill(struct slot *slot, PyObject *text, uint64_t front, uint64_t end, const uint8_t *at, size_t len) {
    slot->text = text;
    slot->front = front;
    slot->end = end;
    slot->len = (uint32_t)len;
    if (len > MOST_IN_SLOT) {
        Py_ssize_t size;
        const char *all = PyUnicode_AsUTF8AndSize(text, &size);
        memcpy(slot->middle, &all, sizeof all);
        return all == NULL ? -1 : 0;
    }
    if (len > 16) memcpy(slot->middle, at + 8, len - 16);
    return 0;
}

/* The text of a key that isn't kept, which may be put into its set. */
NOT_INLINE PyObject *new_key(struct state *state, struct slot *set, const uint8_t *at, size_t len, uint64_t front, uint64_t end) {
    struct slot new = {0};
    PyObject *old, *text = utf8(state, at, len);
    state->in_a_row++;
    if (text == NULL || (set[1].text != NULL && ++state->seldom % SELDOM != 0)) return text;
    if (slot_fill(&new, text, front, end, at, len) < 0) {
        Py_DECREF(text);
        return NULL;
    }
    old = set[1].text;
    set[1] = set[0];
    set[0] = new;
    Py_INCREF(text);
    Py_XDECREF(old);
    return text;
}

INLINE PyObject *short_key(struct state *state, const uint8_t *at, size_t len) {
    uint64_t front = front_of((uint64_t)le_i64(at), len);
    struct slot *set = set_of_short(state, front), *slot = set;
    if ((slot->front != front || slot->len != len) && ((++slot)->front != front || slot->len != len))
        return new_key(state, set, at, len, front, 0);
    state->in_a_row = 0;
    Py_INCREF(slot->text);
    return slot->text;
}

INLINE PyObject *long_key(struct state *state, const uint8_t *at, size_t len) {
    uint64_t front = (uint64_t)le_i64(at), end = (uint64_t)le_i64(at + len - 8);
    struct slot *set = set_of_long(state, front, end, at, len), *slot = set;
    if (!is_in(slot, front, end, at, len) && !is_in(++slot, front, end, at, len)) return new_key(state, set, at, len, front, end);
    state->in_a_row = 0;
    Py_INCREF(slot->text);
    return slot->text;
}

/* A key of one to seven bytes near the end of all bytes. */
NOT_INLINE PyObject *last_key(struct state *state, const uint8_t *at, size_t len) {
    uint8_t bytes[8] = {0};
    memcpy(bytes, at, len);
    return short_key(state, bytes, len);
}

/* The text of a key, from whose first byte on this many are left, to the end of all bytes. */
INLINE PyObject *key_at(struct state *state, const uint8_t *at, size_t len, size_t left) {
    if (len - 1 >= MOST || is_passed_over(state)) return utf8(state, at, len);
    if (len > 8) return long_key(state, at, len);
    return left >= 8 ? short_key(state, at, len) : last_key(state, at, len);
}

PyObject *key_of(struct state *state, const uint8_t *at, size_t len) { return key_at(state, at, len, 0); }

#define LINE 64

int tables_init(struct state *state) {
    state->tables_memory = PyMem_Calloc(1, sizeof *state->tables + LINE);
    if (state->tables_memory == NULL) {
        PyErr_NoMemory();
        return -1;
    }
    state->tables = (struct tables *)(((uintptr_t)state->tables_memory + LINE - 1) / LINE * LINE);
    letters_init(&state->tables->letters);
    return 0;
}

void tables_clear(struct state *state) {
    size_t set, slot;
    for (set = 0; state->tables != NULL && set < SETS; set++)
        for (slot = 0; slot < 2; slot++) {
            PyObject *text = state->tables->slots[set][slot].text;
            memset(&state->tables->slots[set][slot], 0, sizeof(struct slot));
            Py_XDECREF(text);
        }
}

/* ---- values without others inside ---- */

/* The text of a string: its length in 4, the text and a 0. */
INLINE PyObject *string_of(const struct state *state, const uint8_t *at, size_t len) { return utf8(state, at + 4, len - 5); }

/* An Int64, by int's tp_new. One tuple for the argument is kept for the next call. It is taken where nobody else has it. */
static PyObject *int64_of(struct state *state, int64_t number) {
    PyObject *value, *plain = PyLong_FromLongLong(number), *args = state->classes.int64_args;
    if (plain == NULL) return NULL;
    if (args == NULL || Py_REFCNT(args) > 1) args = PyTuple_New(1);
    else state->classes.int64_args = NULL;
    if (args == NULL) Py_DECREF(plain);
    if (args == NULL || PyTuple_SetItem(args, 0, plain) < 0) {
        Py_XDECREF(args);
        return NULL;
    }
    value = state->new_int(state->classes.int64, args, NULL);
    if (state->classes.int64_args == NULL) state->classes.int64_args = args;
    else Py_DECREF(args);
    return value;
}

static PyObject *binary_of(struct state *state, const uint8_t *at, size_t len) {
    size_t head = at[4] == 2 ? 9 : 5;
    if (at[4] != 0) return binary_new(state, at + head, len - head, at[4]);
    return PyBytes_FromStringAndSize((const char *)at + 5, (Py_ssize_t)(len - 5));
}

static PyObject *regex_of(struct state *state, const uint8_t *at, size_t len) {
    size_t end = strlen((const char *)at);
    PyObject *pattern = utf8(state, at, end), *options = pattern == NULL ? NULL : utf8(state, at + end + 1, len - end - 2);
    return pair_new(state->classes.regex, pattern, options);
}

static PyObject *pointer_of(struct state *state, const uint8_t *at, size_t len) {
    PyObject *name = string_of(state, at, len - 12), *id = name == NULL ? NULL : raw_new(state->classes.object_id, at + len - 12, 12);
    return pair_new(state->classes.db_pointer, name, id);
}

static PyObject *code_of(struct state *state, const uint8_t *at, size_t len) {
    Py_INCREF(Py_None);
    return code_new(state, string_of(state, at, len), Py_None);
}

static PyObject *symbol_of(struct state *state, const uint8_t *at, size_t len) {
    PyObject *text = string_of(state, at, len);
    PyObject *symbol = text == NULL ? NULL : PyObject_CallFunctionObjArgs((PyObject *)state->classes.symbol, text, NULL);
    Py_XDECREF(text);
    return symbol;
}

/* A value of one of the kinds that are rare. */
NOT_INLINE PyObject *rare_of(struct state *state, uint32_t tag, const uint8_t *at, size_t len) {
    switch (tag) {
    case BSONRAW_TAG_UNDEFINED: return itself(state->classes.undefined);
    case BSONRAW_TAG_REGEX: return regex_of(state, at, len);
    case BSONRAW_TAG_DB_POINTER: return pointer_of(state, at, len);
    case BSONRAW_TAG_JAVASCRIPT: return code_of(state, at, len);
    case BSONRAW_TAG_SYMBOL: return symbol_of(state, at, len);
    case BSONRAW_TAG_TIMESTAMP: return raw_new(state->classes.timestamp, at, 8);
    case BSONRAW_TAG_DECIMAL128: return raw_new(state->classes.decimal128, at, 16);
    case BSONRAW_TAG_MIN_KEY: return itself(state->classes.min_key);
    case BSONRAW_TAG_MAX_KEY: return itself(state->classes.max_key);
    default: PyErr_Format(PyExc_SystemError, "an element of no kind: %u", (unsigned)tag); return NULL;
    }
}

INLINE PyObject *leaf_of(struct state *state, uint32_t tag, const uint8_t *at, size_t len) {
    switch (tag) {
    case BSONRAW_TAG_DOUBLE: return PyFloat_FromDouble(le_double(at));
    case BSONRAW_TAG_STRING: return string_of(state, at, len);
    case BSONRAW_TAG_BINARY: return binary_of(state, at, len);
    case BSONRAW_TAG_OBJECT_ID: return raw_new(state->classes.object_id, at, 12);
    case BSONRAW_TAG_BOOLEAN: return itself(*at != 0 ? Py_True : Py_False);
    case BSONRAW_TAG_DATETIME: return time_of(state, le_i64(at), 0);
    case BSONRAW_TAG_NULL: return itself(Py_None);
    case BSONRAW_TAG_INT32: return PyLong_FromLong(le_i32(at));
    case BSONRAW_TAG_INT64: return int64_of(state, le_i64(at));
    default: return rare_of(state, tag, at, len);
    }
}

/* The same, where naive times, UUIDs or classes of others were asked for. */
NOT_INLINE PyObject *asked_leaf(const struct options *options, uint32_t tag, const uint8_t *at, size_t len) {
    struct state *state = options->state;
    PyObject *value;
    if (tag == BSONRAW_TAG_BINARY && options->uuids && at[4] == 4 && len == 21) return uuid_of(state, at + 5);
    if (options->types != NULL && (value = foreign_leaf(state, options->types, tag, at, len)) != NULL) return value;
    if (PyErr_Occurred()) return NULL;
    value = tag == BSONRAW_TAG_DATETIME ? time_of(state, le_i64(at), options->is_naive) : leaf_of(state, tag, at, len);
    return options->types == NULL ? value : in_types(state, options->types, tag, value);
}

/* ---- all levels ---- */

/* What values are made of. */
struct maker {
    struct state *state;
    const uint8_t *bytes;
    size_t len;
    const struct options *options;
    int is_plain;
};

/* A document or an array that is being filled. */
struct level {
    PyObject *object;
    PyObject *code;                  /* the text of the code whose scope it is; or NULL */
    struct bsonraw_token of;         /* the element whose value it is; its depth is NO_ELEMENT where it is of none */
    const struct bsonraw_token *end; /* the token after it */
    enum { DICT, LIST, PAIRS } kind;
};

#define NO_ELEMENT UINT32_MAX

#define LEVELS 32

struct levels {
    struct level *at;
    size_t count, room;
    struct level first[LEVELS];
};

NOT_INLINE int append_pair(PyObject *pairs, PyObject *key, PyObject *value) {
    PyObject *pair = PyTuple_Pack(2, key, value);
    int status = pair == NULL ? -1 : PyList_Append(pairs, pair);
    Py_XDECREF(pair);
    return status;
}

/* Puts a value into a list. Takes it. */
INLINE int put_item(const struct level *level, PyObject *value) {
    int status = PyList_Append(level->object, value);
    Py_DECREF(value);
    return status;
}

/* Puts a value under a key, which may be NULL with an error set. Takes both. */
INLINE int put_pair(const struct level *level, PyObject *key, PyObject *value) {
    int status = -1;
    if (key != NULL) status = level->kind == DICT ? PyDict_SetItem(level->object, key, value) : append_pair(level->object, key, value);
    Py_XDECREF(key);
    Py_DECREF(value);
    return status;
}

/* Puts the value of a token into a level. Takes it. */
INLINE int put(const struct maker *maker, const struct level *level, const struct bsonraw_token *token, PyObject *value) {
    if (level->kind == LIST) return put_item(level, value);
    return put_pair(level, key_at(maker->state, maker->bytes + token->key_at, token->key_len, maker->len - token->key_at), value);
}

static int more_levels(struct levels *levels) {
    size_t size = levels->room * sizeof *levels->at;
    struct level *at = levels->at == levels->first ? PyMem_Malloc(2 * size) : PyMem_Realloc(levels->at, 2 * size);
    if (at == NULL) {
        PyErr_NoMemory();
        return -1;
    }
    if (levels->at == levels->first) memcpy(at, levels->first, size);
    levels->at = at;
    levels->room *= 2;
    return 0;
}

/* Begins an empty document or array; of a code with scope the scope. */
static int begin(const struct maker *maker, struct levels *levels, const struct bsonraw_token *of,
                 const struct bsonraw_token *end) {
    const uint32_t tag = of->tag;
    struct level *level;
    if (levels->count == levels->room && more_levels(levels) < 0) return -1;
    level = &levels->at[levels->count];
    level->of = *of;
    level->end = end;
    level->kind = tag == BSONRAW_TAG_ARRAY ? LIST : maker->options->is_pairs ? PAIRS : DICT;
    level->code = NULL;
    if (tag == BSONRAW_TAG_JAVASCRIPT_WITH_SCOPE) {
        const uint8_t *at = maker->bytes + of->payload_at;
        level->code = utf8(maker->state, at + 8, (uint32_t)le_i32(at + 4) - 1);
        if (level->code == NULL) return -1;
    }
    if (level->kind == DICT) level->object = PyDict_New();
    else level->object = level->kind == LIST ? PyList_New(0) : PyObject_CallObject((PyObject *)maker->state->classes.pairs, NULL);
    if (level->object == NULL) Py_CLEAR(level->code);
    if (level->object == NULL) return -1;
    levels->count++;
    return 0;
}

static int has_levels(uint32_t tag) {
    return tag == BSONRAW_TAG_DOCUMENT || tag == BSONRAW_TAG_ARRAY || tag == BSONRAW_TAG_JAVASCRIPT_WITH_SCOPE;
}

/* What the caller's hook makes of a document, and other classes of a document in another. Takes it. */
NOT_INLINE PyObject *asked_document(const struct options *options, PyObject *object, int is_inside) {
    PyObject *hook = options->pairs_hook != NULL ? options->pairs_hook : options->hook, *made;
    if (hook == NULL && options->types != NULL && is_inside && PyDict_CheckExact(object)) return foreign_document(options->state, options->types, object);
    if (hook == NULL) return object;
    made = PyObject_CallFunctionObjArgs(hook, object, NULL);
    Py_DECREF(object);
    return made;
}

/* The value of a level that is full. Takes what it has. */
static PyObject *finished(const struct maker *maker, const struct level *level) {
    int is_inside = level->of.depth != NO_ELEMENT && level->code == NULL;
    PyObject *object = level->object;
    if (!maker->is_plain && level->kind != LIST) object = asked_document(maker->options, object, is_inside);
    if (level->code == NULL) return object;
    object = code_new(maker->state, level->code, object);
    return maker->options->types == NULL ? object : in_types(maker->state, maker->options->types, BSONRAW_TAG_JAVASCRIPT_WITH_SCOPE, object);
}

/* Ends the last level: 1, and its value is in the level before; 0, and it is the value of the first; -1 with an error set. */
INLINE int end(const struct maker *maker, struct levels *levels, PyObject **value) {
    struct level *level = &levels->at[--levels->count];
    *value = finished(maker, level);
    if (*value == NULL) return -1;
    if (levels->count == 0) return 0;
    return put(maker, level - 1, &level->of, *value) < 0 ? -1 : 1;
}

INLINE PyObject *leaf_in(const struct maker *maker, uint32_t tag, uint32_t at, uint32_t len) {
    return maker->is_plain ? leaf_of(maker->state, tag, maker->bytes + at, len)
                                    : asked_leaf(maker->options, tag, maker->bytes + at, len);
}

/* Fills the levels with all tokens from this one on, up to the end of the first level, whose value comes back. */
static PyObject *fill(const struct maker *maker, struct levels *levels, const struct bsonraw_token *token) {
    struct level here = levels->at[levels->count - 1];
    PyObject *value;
    for (;;) {
        const struct bsonraw_token *of = token;
        int status;
        if (token == here.end) {
            status = end(maker, levels, &value);
            if (status <= 0) return status < 0 ? NULL : value;
            here = levels->at[levels->count - 1];
            continue;
        }
        token++;
        if (has_levels(of->tag)) {
            if (begin(maker, levels, of, token + of->inside) < 0) return NULL;
            here = levels->at[levels->count - 1];
            continue;
        }
        value = leaf_in(maker, of->tag, of->payload_at, of->payload_len);
        if (value == NULL || put(maker, &here, of, value) < 0) return NULL;
    }
}

/* Levels that are still there, where something failed. */
static void levels_close(struct levels *levels) {
    while (levels->count > 0) {
        Py_DECREF(levels->at[--levels->count].object);
        Py_XDECREF(levels->at[levels->count].code);
    }
    if (levels->at != levels->first) PyMem_Free(levels->at);
}

static void levels_open(struct levels *levels) {
    levels->at = levels->first;
    levels->count = 0;
    levels->room = LEVELS;
}

/* The value of an element, or of all bytes, whose tokens are these. */
static PyObject *nested_of(const struct maker *maker, const struct bsonraw_token *of, const struct bsonraw_token *first,
                           const struct bsonraw_token *end) {
    struct levels levels;
    int is_held = collector_hold(maker->options);
    PyObject *value = NULL;
    levels_open(&levels);
    if (begin(maker, &levels, of, end) == 0) value = fill(maker, &levels, first);
    levels_close(&levels);
    collector_free(maker->state, is_held);
    return value;
}

/* ---- by cursors: levels of many bytes, whose tokens would take more memory and time than they do ---- */

#ifndef MANY_BYTES
#define MANY_BYTES 524288 /* of more, a level is read by a cursor in any case */
#endif
#define FEW_BYTES (MANY_BYTES / 128) /* and of this many at most by its tokens, with all that is inside */
#define ENTRIES 32

/* A level whose elements are read. */
struct cursor {
    struct bsonraw_iter iter;
    struct bsonraw_entry entries[ENTRIES];
    uint64_t done, count;
    size_t in_rows; /* how many elements were taken without them */
    int32_t status; /* of the last entries that were read */
};

struct cursors {
    struct cursor *at;
    size_t count, room;
    struct breath breath;
    struct options inside; /* for what is read by its tokens */
};

/* Reads the next elements of a level: 0, or -1 with an error set. */
static int read_entries(const struct maker *maker, struct cursors *cursors, struct cursor *cursor) {
    cursor->done = 0;
    cursor->status = bsonraw_iter_next_many(&cursor->iter, maker->bytes, maker->len, cursor->entries, ENTRIES, &cursor->count);
    return breathe(maker->state, &cursors->breath, ENTRIES * sizeof *cursor->entries);
}

/* Goes into the document, the array or the scope that lies there, and reads its first elements: 1; 0 where there is none. */
static int go_in(const struct maker *maker, struct cursors *cursors, uint32_t at, uint32_t len) {
    struct cursor *cursor;
    if (cursors->count == cursors->room) {
        size_t room = 2 * cursors->room + 8;
        cursor = PyMem_Realloc(cursors->at, room * sizeof *cursor);
        if (cursor == NULL) PyErr_NoMemory();
        if (cursor == NULL) return 0;
        cursors->at = cursor;
        cursors->room = room;
    }
    cursor = &cursors->at[cursors->count++];
    cursor->in_rows = 0;
    return bsonraw_iter_init_at(&cursor->iter, maker->bytes, maker->len, at, len) == BSONRAW_OK && read_entries(maker, cursors, cursor) == 0;
}

/* Whether the level that was gone into is better read by its tokens: small ones, each of which would take a call, are among the
 * first that are in it. */
static int has_small_ones(const struct cursors *cursors, uint32_t len) {
    const struct cursor *cursor = &cursors->at[cursors->count - 1];
    uint64_t number;
    for (number = 0; len <= MANY_BYTES && number < cursor->count; number++)
        if (has_levels(cursor->entries[number].tag) && cursor->entries[number].payload_len <= FEW_BYTES) return 1;
    return 0;
}

/* Whether the library has to be asked if a payload means a value: one that it takes in any case needs no question, nor does a
 * string, which isn't read where it isn't UTF-8. */
INLINE int may_mean_none(const struct maker *maker, const struct bsonraw_entry *entry) {
    const uint8_t *at = maker->bytes + entry->payload_at;
    switch (entry->tag) {
    case BSONRAW_TAG_JAVASCRIPT:
    case BSONRAW_TAG_SYMBOL:
    case BSONRAW_TAG_DB_POINTER:
    case BSONRAW_TAG_JAVASCRIPT_WITH_SCOPE: return 1;
    case BSONRAW_TAG_BINARY: return at[4] == 2;
    case BSONRAW_TAG_BOOLEAN: return *at > 1;
    default: return 0;
    }
}

/* Whether an element has a value; of a scope, where it is. */
NOT_INLINE int has_value(const struct maker *maker, const struct cursor *cursor, const struct bsonraw_entry *entry,
                         struct bsonraw_value *value) {
    struct bsonraw_iter here = cursor->iter;
    here.tag = entry->tag;
    here.key_at = entry->key_at;
    here.key_len = entry->key_len;
    here.payload_at = entry->payload_at;
    here.payload_len = entry->payload_len;
    here.next = entry->payload_at + entry->payload_len;
    return bsonraw_iter_value(&here, maker->bytes, maker->len, value) == BSONRAW_OK;
}

/* Has no error set where it is one of the bytes: the tokens of all levels say which, and where. */
NOT_INLINE void clear_fault(PyObject *fault) {
    if (PyErr_ExceptionMatches(fault)) PyErr_Clear();
}

/* NULL, with no error set where a string isn't UTF-8. */
INLINE PyObject *entry_leaf(const struct maker *maker, const struct bsonraw_entry *entry) {
    PyObject *leaf = leaf_in(maker, entry->tag, entry->payload_at, entry->payload_len);
    if (leaf == NULL && entry->tag == BSONRAW_TAG_STRING) clear_fault(PyExc_UnicodeDecodeError);
    return leaf;
}

/* Takes a document or an array by its tokens: 1; 0 where something is wrong. */
static int take_by_tokens(const struct maker *maker, const struct levels *levels, struct cursors *cursors, const struct bsonraw_token *of) {
    struct bytes part = bytes_part(maker->bytes + of->payload_at, of->payload_len);
    struct maker inner = {maker->state, part.at, part.len, maker->options, maker->is_plain};
    struct tokens tokens;
    PyObject *value;
    cursors->inside.max_depth = maker->options->max_depth - levels->count;
    if (tokens_read(&tokens, &part, &cursors->inside, 0) < 0) {
        clear_fault(maker->state->classes.error);
        return 0;
    }
    value = nested_of(&inner, of, tokens.at, tokens.at + tokens.count);
    tokens_free(maker->state, &tokens);
    return value != NULL && put(maker, &levels->at[levels->count - 1], of, value) == 0;
}

/* Takes what has a level, or goes into it: 1; 0 where something is wrong. */
static int take_nested(const struct maker *maker, struct levels *levels, struct cursors *cursors, const struct bsonraw_token *of) {
    const int is_scope = of->tag == BSONRAW_TAG_JAVASCRIPT_WITH_SCOPE;
    const uint32_t head = is_scope ? 8 + (uint32_t)le_i32(maker->bytes + of->payload_at + 4) : 0, len = of->payload_len - head;
    if (levels->count >= maker->options->max_depth) return 0;
    if (!is_scope && len <= FEW_BYTES) return take_by_tokens(maker, levels, cursors, of);
    if (!go_in(maker, cursors, of->payload_at + head, len)) return 0;
    if (is_scope || !has_small_ones(cursors, len)) return begin(maker, levels, of, NULL) == 0;
    cursors->count--;
    return take_by_tokens(maker, levels, cursors, of);
}

/* Takes an element, or goes into it: 1; 0 where it has no value, or something else is wrong. */
INLINE int take_entry(const struct maker *maker, struct levels *levels, struct cursors *cursors, const struct bsonraw_entry *entry) {
    const struct bsonraw_token of = {entry->tag, 0, entry->key_at, entry->key_len, entry->payload_at, entry->payload_len, 0};
    struct bsonraw_value value;
    PyObject *leaf;
    if (may_mean_none(maker, entry) && !has_value(maker, &cursors->at[cursors->count - 1], entry, &value)) return 0;
    if (has_levels(entry->tag)) return take_nested(maker, levels, cursors, &of);
    leaf = entry_leaf(maker, entry);
    return leaf != NULL && put(maker, &levels->at[levels->count - 1], &of, leaf) == 0;
}

/* ---- elements in a row ---- */

#define ROW 256 /* after this many a level's keys aren't looked up: they are mostly its own */

/* Where the key ends that begins there, if it is ASCII: at its 0; else NULL. At the end is a 0. Of a key of fewer bytes than COPIED, and eight
 * more before the end, the copy has all. */
INLINE const uint8_t *ascii_end(const uint8_t *key, const uint8_t *end, uint64_t copy[COPIED / 8]) {
    const uint8_t *at = key;
    for (; end - at >= 8; at += 8) {
        uint64_t eight = (uint64_t)le_i64(at), stops = (eight | (eight - ONES)) & HIGHS; /* the first one of a byte that is 0 or isn't ASCII */
        copy[(size_t)(at - key) / 8 % (COPIED / 8)] = eight;
        if (stops != 0) at += first_byte(stops);
        if (stops != 0) return *at == 0 ? at : NULL;
    }
    while ((uint8_t)(*at - 1) < 0x7f) at++;
    return *at == 0 ? at : NULL;
}

/* Where a key of digits ends, as those of an array are; else NULL. */
INLINE const uint8_t *digits_end(const uint8_t *at) {
    while ((uint8_t)(*at - '0') < 10) at++;
    return *at == 0 ? at : NULL;
}

/* How many bytes a payload of this kind has that begins there, of the bytes that are left; more than those where it is damaged. */
INLINE size_t payload_len(uint8_t tag, const uint8_t *at, size_t left) {
    size_t len;
    switch (tag) {
    case BSONRAW_TAG_NULL: return 0;
    case BSONRAW_TAG_BOOLEAN: return left > 0 && *at > 1 ? left + 1 : 1;
    case BSONRAW_TAG_INT32: return 4;
    case BSONRAW_TAG_STRING:
        if (left < 5) return left + 1;
        len = (uint32_t)le_i32(at);
        return len - 1 >= left - 4 || at[3 + len] != 0 ? left + 1 : 4 + len;
    default: return 8;
    }
}

/* Puts the values of elements of this kind into a level as long as they come with keys of ASCII, at most this many: 0, or -1, with no error
 * set where a string isn't UTF-8. Such an element needs no check. The cursor goes on after them. */
INLINE int take_row_of(const struct maker *maker, const struct level *level, struct cursor *cursor, uint8_t tag) {
    struct bsonraw_iter *iter = &cursor->iter;
    const int is_new = cursor->in_rows >= ROW;
    const uint8_t *bytes = maker->bytes, *at = bytes + iter->next, *end = bytes + iter->document_at + iter->document_len - 1;
    size_t count;
    for (count = 0; count < ROW && *at == tag; count++) {
        uint64_t copy[COPIED / 8];
        const uint8_t *key = at + 1, *key_end = level->kind == LIST ? digits_end(key) : ascii_end(key, end, copy), *payload;
        PyObject *value;
        size_t len, key_len = (size_t)(key_end - key);
        int status;
        if (key_end == NULL || key_end == end) break;
        payload = key_end + 1;
        len = payload_len(tag, payload, (size_t)(end - payload));
        if (len > (size_t)(end - payload)) break;
        value = leaf_in(maker, tag, (uint32_t)(payload - bytes), (uint32_t)len);
        if (value == NULL && tag == BSONRAW_TAG_STRING) clear_fault(PyExc_UnicodeDecodeError);
        if (value == NULL) return -1;
        if (level->kind == LIST) status = put_item(level, value);
        else if (is_new && key_len < COPIED && key_len + 8 <= (size_t)(end - key)) status = put_pair(level, ascii_text(copy, key_len), value);
        else status = put_pair(level, key_at(maker->state, key, key_len, maker->len - (size_t)(key - bytes)), value);
        if (status < 0) return -1;
        at = payload + len;
    }
    cursor->in_rows += count;
    iter->next = (uint32_t)(at - bytes);
    return 0;
}

/* The same of elements of these kinds. */
NOT_INLINE int take_row(const struct maker *maker, const struct level *level, struct cursor *cursor) {
    const uint32_t begun = cursor->iter.next;
    uint32_t before;
    int status;
    do {
        before = cursor->iter.next;
        switch (maker->bytes[before]) {
        case BSONRAW_TAG_DOUBLE: status = take_row_of(maker, level, cursor, BSONRAW_TAG_DOUBLE); break;
        case BSONRAW_TAG_STRING: status = take_row_of(maker, level, cursor, BSONRAW_TAG_STRING); break;
        case BSONRAW_TAG_BOOLEAN: status = take_row_of(maker, level, cursor, BSONRAW_TAG_BOOLEAN); break;
        case BSONRAW_TAG_DATETIME: status = take_row_of(maker, level, cursor, BSONRAW_TAG_DATETIME); break;
        case BSONRAW_TAG_NULL: status = take_row_of(maker, level, cursor, BSONRAW_TAG_NULL); break;
        case BSONRAW_TAG_INT32: status = take_row_of(maker, level, cursor, BSONRAW_TAG_INT32); break;
        case BSONRAW_TAG_INT64: status = take_row_of(maker, level, cursor, BSONRAW_TAG_INT64); break;
        default: return 0;
        }
    } while (status == 0 && cursor->iter.next != before && cursor->iter.next - begun < LET_GO_OVER);
    return status;
}

static int append(PyObject *list, PyObject *value) {
    int status = value == NULL ? -1 : PyList_Append(list, value);
    Py_XDECREF(value);
    return status;
}

/* Appends the values of what was read to a list: all, or those before the first one that needs another look; 0 where one has
 * none. */
static int take_leaves(const struct maker *maker, PyObject *list, struct cursor *cursor) {
    const struct bsonraw_entry *entry = &cursor->entries[cursor->done], *end = &cursor->entries[cursor->count];
    for (; entry < end && !has_levels(entry->tag) && !may_mean_none(maker, entry); entry++)
        if (append(list, entry_leaf(maker, entry)) < 0) return 0;
    cursor->done = (uint64_t)(entry - cursor->entries);
    return 1;
}

/* ---- all levels by cursors ---- */

/* Reads on in a level whose entries are taken: 0, or -1 with an error set. */
static int read_on(const struct maker *maker, const struct level *level, struct cursors *cursors, struct cursor *cursor) {
    uint32_t before = cursor->iter.next;
    if (take_row(maker, level, cursor) < 0 || breathe(maker->state, &cursors->breath, cursor->iter.next - before) < 0) return -1;
    return read_entries(maker, cursors, cursor);
}

static PyObject *fill_by_cursors(const struct maker *maker, struct levels *levels, struct cursors *cursors) {
    PyObject *value;
    for (;;) {
        struct cursor *cursor = &cursors->at[cursors->count - 1];
        const struct level *level = &levels->at[levels->count - 1];
        int status;
        if (cursor->done == cursor->count && cursor->status == BSONRAW_OK && read_on(maker, level, cursors, cursor) < 0) return NULL;
        if (level->kind == LIST && !take_leaves(maker, level->object, cursor)) return NULL;
        if (cursor->done < cursor->count) {
            if (!take_entry(maker, levels, cursors, &cursor->entries[cursor->done++])) return NULL;
            continue;
        }
        if (cursor->status == BSONRAW_OK) continue;
        if (cursor->status != BSONRAW_NONE) return NULL;
        status = end(maker, levels, &value);
        cursors->count--;
        if (status <= 0) return status < 0 ? NULL : value;
    }
}

/* The value of all bytes; NULL, with no error set where they are for tokens, have a fault or are more than allowed. */
static PyObject *by_cursors(const struct maker *maker, const struct bsonraw_token *of) {
    struct levels levels;
    struct cursors cursors = {NULL, 0, 0, {0, 0}, *maker->options};
    PyObject *value = NULL;
    int is_held;
    if (maker->len > maker->options->max_bytes || maker->options->max_depth == 0) return NULL;
    is_held = collector_hold(maker->options);
    levels_open(&levels);
    if (go_in(maker, &cursors, 0, (uint32_t)maker->len) && !has_small_ones(&cursors, (uint32_t)maker->len) &&
        begin(maker, &levels, of, NULL) == 0)
        value = fill_by_cursors(maker, &levels, &cursors);
    levels_close(&levels);
    PyMem_Free(cursors.at);
    collector_free(maker->state, is_held);
    return value;
}

/* ---- documents ---- */

static int has_hooks(const struct options *options) { return options->hook != NULL || options->pairs_hook != NULL; }

/* Hooks are called for parts of a document that has no fault: 0, or -1 with the error set. */
NOT_INLINE int check_first(const struct bytes *bytes, const struct options *options, uint64_t before) {
    struct told told;
    told_begin(&told, options);
    told.before = before;
    WITHOUT_LOCK(bytes, told.status = bsonraw_first_fault(bytes->at, bytes->len, told.max_bytes, told.max_depth, &told.report, told.path, PATH_ROOM));
    if (told.status != BSONRAW_OK) set_error_of(bytes, &told);
    return told.status == BSONRAW_OK ? 0 : -1;
}

INLINE PyObject *decoded_as(const struct bytes *bytes, const struct options *options, uint64_t before, uint32_t tag) {
    struct bsonraw_token of = {tag, NO_ELEMENT, 0, 0, 0, (uint32_t)bytes->len, 0};
    struct tokens tokens;
    struct maker maker = {options->state, bytes->at, bytes->len, options, options->is_plain};
    PyObject *object;
    if (bytes->len > FEW_BYTES && bytes->len <= INT32_MAX) {
        if (has_hooks(options) && check_first(bytes, options, before) < 0) return NULL;
        object = by_cursors(&maker, &of);
        if (object != NULL || PyErr_Occurred()) return object;
    }
    if (tokens_read(&tokens, bytes, options, before) < 0) return NULL;
    object = nested_of(&maker, &of, tokens.at, tokens.at + tokens.count);
    tokens_free(options->state, &tokens);
    return object;
}

PyObject *decoded(const struct bytes *bytes, const struct options *options, uint64_t before) {
    return decoded_as(bytes, options, before, BSONRAW_TAG_DOCUMENT);
}

/* The value of a token, with all that is inside. */
static PyObject *value_of(const struct maker *maker, const struct bsonraw_token *token) {
    if (has_levels(token->tag)) return nested_of(maker, token, token + 1, token + 1 + token->inside);
    return leaf_in(maker, token->tag, token->payload_at, token->payload_len);
}

PyObject *value_of_token(const struct bytes *bytes, const struct options *options, const struct bsonraw_token *token) {
    struct maker maker = {options->state, bytes->at, bytes->len, options, options->is_plain};
    return value_of(&maker, token);
}

int take_keys(const struct bytes *bytes, const struct options *options, uint64_t before, taker *take, void *to) {
    struct tokens tokens;
    size_t at = 0;
    int status = tokens_read(&tokens, bytes, options, before);
    if (status < 0) return -1;
    while (status == 0 && at < tokens.count) {
        const struct bsonraw_token *token = &tokens.at[at];
        PyObject *key = key_at(options->state, bytes->at + token->key_at, token->key_len, bytes->len - token->key_at);
        status = key == NULL ? -1 : take(to, key, token);
        Py_XDECREF(key);
        at += 1 + token->inside;
    }
    tokens_free(options->state, &tokens);
    return status;
}

PyObject *in_type(const struct options *options, PyObject *document) {
    PyObject *made;
    if (document == NULL || options->into == NULL) return document;
    made = PyObject_CallFunctionObjArgs(options->into, document, NULL);
    Py_DECREF(document);
    return made;
}

CALL(py_decode) {
    struct options options;
    struct bytes bytes;
    PyObject *data, *object = NULL;
    if (options_read(module, &OF_DECODE, &options, &data, args, count, names) < 0) return NULL;
    if (bytes_open(options.state, &bytes, data) == 0) {
        object = decoded_as(&bytes, &options, 0, BSONRAW_TAG_DOCUMENT);
        if (options.into != NULL) object = in_type(&options, object);
        bytes_close(&bytes);
    }
    options_end(&options);
    return object;
}

/* ---- one element ---- */

/* What is inside a part of the bytes: a nested document, an array, or a scope. */
static PyObject *inside_of(const struct bytes *bytes, const struct bsonraw_iter *iter, uint32_t at, uint32_t len,
                           const struct options *options, uint32_t tag) {
    struct options inner = *options;
    struct bytes part = bytes_part(bytes->at + at, len);
    inner.outer = bytes;
    inner.element_at = iter->key_at - 1;
    inner.is_array = tag == BSONRAW_TAG_ARRAY;
    return decoded_as(&part, &inner, at, tag);
}

static PyObject *scoped_at(const struct bytes *bytes, const struct bsonraw_iter *iter, const struct bsonraw_value *value,
                           const struct options *options) {
    PyObject *scope = inside_of(bytes, iter, value->more_at, value->more_len, options, BSONRAW_TAG_DOCUMENT);
    PyObject *text = scope == NULL ? NULL : utf8(options->state, bytes->at + value->text_at, value->text_len);
    PyObject *code = code_new(options->state, text, scope);
    return options->types == NULL ? code : in_types(options->state, options->types, BSONRAW_TAG_JAVASCRIPT_WITH_SCOPE, code);
}

PyObject *value_at(const struct bytes *bytes, const struct bsonraw_iter *iter, const struct options *options) {
    struct bsonraw_iter here = *iter;
    struct bsonraw_value value;
    struct maker maker;
    int32_t status;
    memset(&value, 0, sizeof value);
    status = bsonraw_iter_value(&here, bytes->at, bytes->len, &value);
    here.error = value.error;
    if (status != BSONRAW_OK) {
        set_cursor_error(options->state, bytes, status, &here);
        return NULL;
    }
    if (value.tag == BSONRAW_TAG_DOCUMENT || value.tag == BSONRAW_TAG_ARRAY) {
        PyObject *object = inside_of(bytes, iter, value.text_at, value.text_len, options, value.tag);
        int is_asked = options->types != NULL && options->hook == NULL && options->pairs_hook == NULL;
        return object != NULL && is_asked && PyDict_CheckExact(object) ? foreign_document(options->state, options->types, object) : object;
    }
    if (value.tag == BSONRAW_TAG_JAVASCRIPT_WITH_SCOPE) return scoped_at(bytes, iter, &value, options);
    maker.state = options->state;
    maker.bytes = bytes->at;
    maker.len = bytes->len;
    maker.options = options;
    maker.is_plain = options->is_plain;
    return leaf_in(&maker, value.tag, here.payload_at, here.payload_len);
}
