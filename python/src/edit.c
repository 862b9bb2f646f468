/* Documents changed at a few places: all other bytes are copied as they are. */
#include "out.h"

#include <stdlib.h>

#define NONE UINT32_MAX
#define FEW 8 /* more steps of one level are looked up by a dict */
#define FIRST 4 /* changes that need no memory of their own */
#define MOST_STEPS 500
#define ENTRIES 32

enum kind { INNER, VALUE, REMOVED };

/* What is changed at a step: what is inside, or the whole value. */
struct change {
    const uint8_t *key; /* which the path keeps */
    size_t key_len;
    enum kind kind;
    size_t value_at, value_len;         /* the tag and the payload of a value, before the document */
    uint32_t next;                      /* the next step of the same level */
    uint32_t first, last, count;        /* the steps of the level inside */
    PyObject *numbers;                  /* of these by key, where they are many; or NULL */
    uint64_t number;                    /* of the last element with this key in its level; UINT64_MAX where none has it */
};

/* A document that is edited. The changes are numbers of an array, of which the first one is the document itself. */
struct editing {
    struct state *state;
    const struct bytes *bytes;
    struct out out;
    PyObject *owners; /* a list of what keeps the steps of paths that are no texts; or NULL */
    struct change *changes;
    uint32_t count, room;
    struct change first[FIRST];
};

/* ---- the changes ---- */

/* Makes room for twice as many changes: 0, or -1 with an error set. */
static int grow_changes(struct editing *all) {
    int is_first = all->changes == all->first;
    size_t size = 2 * all->room * sizeof *all->changes;
    struct change *changes = all->room > UINT32_MAX / 8 ? NULL : PyMem_Realloc(is_first ? NULL : all->changes, size);
    if (changes == NULL) {
        PyErr_NoMemory();
        return -1;
    }
    if (is_first) memcpy(changes, all->first, sizeof all->first);
    all->changes = changes;
    all->room *= 2;
    return 0;
}

static uint32_t new_change(struct editing *all, const uint8_t *key, size_t key_len) {
    struct change *change;
    if (all->count == all->room && grow_changes(all) < 0) return NONE;
    change = &all->changes[all->count];
    memset(change, 0, sizeof *change);
    change->key = key;
    change->key_len = key_len;
    change->next = change->first = change->last = NONE;
    return all->count++;
}

/* The change at a step of a level; NONE where there is none, or with an error set. */
static uint32_t find_change(const struct editing *all, uint32_t level, const uint8_t *key, size_t key_len) {
    const struct change *of = &all->changes[level];
    uint32_t number;
    if (of->numbers != NULL) {
        PyObject *text = key_of(all->state, key, key_len), *found = text == NULL ? NULL : PyDict_GetItemWithError(of->numbers, text);
        Py_XDECREF(text);
        return found == NULL ? NONE : (uint32_t)PyLong_AsUnsignedLong(found);
    }
    for (number = of->first; number != NONE; number = all->changes[number].next)
        if (all->changes[number].key_len == key_len && memcmp(all->changes[number].key, key, key_len) == 0) break;
    return number;
}

/* Puts a step of a level into its dict: 0, or -1 with an error set. */
static int note_number(const struct editing *all, uint32_t level, uint32_t number) {
    const struct change *change = &all->changes[number];
    PyObject *key = key_of(all->state, change->key, change->key_len), *value = PyLong_FromUnsignedLong(number);
    int status = key == NULL || value == NULL ? -1 : PyDict_SetItem(all->changes[level].numbers, key, value);
    Py_XDECREF(key);
    Py_XDECREF(value);
    return status;
}

/* Adds a step to a level, which doesn't have it: its number, or NONE with an error set. */
static uint32_t add_change(struct editing *all, uint32_t level, const uint8_t *key, size_t key_len) {
    uint32_t number = new_change(all, key, key_len), one;
    struct change *of = &all->changes[level];
    if (number == NONE) return NONE;
    if (of->first == NONE) of->first = number;
    else all->changes[of->last].next = number;
    of->last = number;
    if (++of->count <= FEW) return number;
    if (of->numbers != NULL) return note_number(all, level, number) < 0 ? NONE : number;
    if ((of->numbers = PyDict_New()) == NULL) return NONE;
    for (one = of->first; one != NONE; one = all->changes[one].next)
        if (note_number(all, level, one) < 0) return NONE;
    return number;
}

/* Goes to the change at a step, which is added where it isn't there. The last step of a path gets a value. NONE with an error set. */
static uint32_t go_to_step(struct editing *all, uint32_t level, const uint8_t *key, size_t key_len, int is_last, PyObject *path) {
    uint32_t number;
    if (memchr(key, 0, key_len) != NULL) {
        PyObject *text = PyUnicode_DecodeUTF8((const char *)key, (Py_ssize_t)key_len, "strict");
        if (text != NULL) set_refused(all->state, INTERIOR_NUL, 0, text);
        Py_XDECREF(text);
        return NONE;
    }
    number = find_change(all, level, key, key_len);
    if (number == NONE) return PyErr_Occurred() ? NONE : add_change(all, level, key, key_len);
    if (is_last) PyErr_Format(PyExc_ValueError, "the path %R is changed twice, or another one goes through it", path);
    else if (all->changes[number].kind != INNER) PyErr_Format(PyExc_ValueError, "the path %R goes through another one that is changed", path);
    else return number;
    return NONE;
}

/* The change at the end of a path that is a text; or NONE with an error set. */
static uint32_t go_along_text(struct editing *all, PyObject *path) {
    size_t len;
    const uint8_t *step = utf8_of(path, "path", &len), *end = step == NULL ? NULL : step + len, *behind;
    uint32_t level = 0, steps = 0;
    do {
        if (step == NULL) return NONE;
        behind = memchr(step, '.', (size_t)(end - step));
        if (++steps > MOST_STEPS) PyErr_SetString(PyExc_ValueError, "a path has more than 500 steps");
        level = steps > MOST_STEPS ? NONE : go_to_step(all, level, step, (size_t)((behind == NULL ? end : behind) - step), behind == NULL, path);
        step = behind == NULL ? NULL : behind + 1;
    } while (behind != NULL && level != NONE);
    return level;
}

/* The same of a tuple, whose steps are texts in a list. */
static uint32_t go_along_list(struct editing *all, PyObject *path, PyObject *steps) {
    Py_ssize_t number, count = PyList_Size(steps);
    uint32_t level = 0;
    if (count > MOST_STEPS) PyErr_SetString(PyExc_ValueError, "a path has more than 500 steps");
    if (count < 0 || count > MOST_STEPS) return NONE;
    for (number = 0; level != NONE && number < count; number++) {
        size_t len;
        const uint8_t *step = utf8_of(PyList_GetItem(steps, number), "a step", &len);
        level = step == NULL ? NONE : go_to_step(all, level, step, len, number == count - 1, path);
    }
    return level;
}

/* The steps of a path that is no text, which are kept as long as they are used; or NULL with an error set. */
static PyObject *kept_steps(struct editing *all, PyObject *path) {
    PyObject *steps = PyObject_CallFunctionObjArgs(all->state->classes.steps, path, NULL);
    if (all->owners == NULL) all->owners = PyList_New(0);
    if (steps == NULL || all->owners == NULL || !PyList_Check(steps) || PyList_Append(all->owners, steps) < 0) {
        Py_XDECREF(steps);
        return NULL;
    }
    Py_DECREF(steps);
    return steps;
}

/* The change at the end of a path; or NONE with an error set. */
static uint32_t go_along(struct editing *all, PyObject *path) {
    PyObject *steps;
    if (PyUnicode_CheckExact(path)) return go_along_text(all, path);
    steps = kept_steps(all, path);
    return steps == NULL ? NONE : go_along_list(all, path, steps);
}

/* Notes what is to be at a path. */
static int note_change(struct editing *all, PyObject *path, PyObject *value, PyObject *default_) {
    uint32_t number = go_along(all, path);
    size_t at = all->out.len;
    if (number == NONE) return -1;
    if (value == all->state->classes.remove) {
        all->changes[number].kind = REMOVED;
        return 0;
    }
    all->changes[number].kind = VALUE;
    if (put_tagged(&all->out, value, default_, path) < 0) return -1;
    all->changes[number].value_at = at;
    all->changes[number].value_len = all->out.len - at;
    return 0;
}

/* ---- what is written ---- */

/* Copies bytes that were written before. */
static int put_again(struct out *out, size_t at, size_t len) {
    if (need(out, len) < 0) return -1;
    memcpy(out->at + out->len, out->at + at, len);
    out->len += len;
    return 0;
}

static int put_byte(struct out *out, uint8_t byte) { return put(out, &byte, 1); }

static int put_key(struct out *out, const uint8_t *key, size_t len) { return put(out, key, len) < 0 ? -1 : put_byte(out, 0); }

static int put_new(struct editing *all, const struct change *change);

/* The document of the steps of a level that isn't there. */
static int put_new_document(struct editing *all, const struct change *of) {
    size_t from = all->out.len;
    uint32_t number;
    if (put_i32(&all->out, 0) < 0) return -1;
    for (number = of->first; number != NONE; number = all->changes[number].next)
        if (put_new(all, &all->changes[number]) < 0) return -1;
    return put_byte(&all->out, 0) < 0 ? -1 : end_length(&all->out, from);
}

/* An element that isn't there yet, unless it is to go. */
static int put_new(struct editing *all, const struct change *change) {
    struct out *out = &all->out;
    if (change->kind == REMOVED) return 0;
    if (change->kind == INNER)
        return put_byte(out, BSONRAW_TAG_DOCUMENT) < 0 || put_key(out, change->key, change->key_len) < 0 ? -1 : put_new_document(all, change);
    if (put_again(out, change->value_at, 1) < 0 || put_key(out, change->key, change->key_len) < 0) return -1;
    return put_again(out, change->value_at + 1, change->value_len - 1);
}

/* ---- levels ---- */

/* An element that is changed. */
struct match {
    struct bsonraw_entry entry;
    uint64_t number;
    uint32_t change;
};

struct matches {
    uint32_t document_at, document_len; /* the level */
    int is_array;
    struct match *at;
    size_t count, room;
    uint64_t elements; /* how many the level has */
    struct match first[4];
};

static int note_match(struct editing *all, struct matches *matches, const struct bsonraw_entry *entry, uint32_t change) {
    struct match *match;
    if (matches->count == matches->room) {
        size_t size = matches->room * sizeof *match;
        match = matches->at == matches->first ? PyMem_Malloc(2 * size) : PyMem_Realloc(matches->at, 2 * size);
        if (match == NULL) {
            PyErr_NoMemory();
            return -1;
        }
        if (matches->at == matches->first) memcpy(match, matches->first, size);
        matches->at = match;
        matches->room *= 2;
    }
    match = &matches->at[matches->count++];
    match->entry = *entry;
    match->number = matches->elements;
    match->change = change;
    all->changes[change].number = matches->elements;
    return 0;
}

/* The steps of an array's level, by their numbers. */
struct place {
    uint64_t number;
    uint32_t change;
};

static int by_number(const void *one, const void *two) {
    uint64_t first = ((const struct place *)one)->number, second = ((const struct place *)two)->number;
    return first < second ? -1 : first > second;
}

static struct place *places_of(const struct editing *all, uint32_t level) {
    const struct change *of = &all->changes[level];
    struct place *places = PyMem_Malloc((of->count + 1) * sizeof *places);
    uint32_t number, count = 0;
    if (places == NULL) PyErr_NoMemory();
    if (places == NULL) return NULL;
    for (number = of->first; number != NONE; number = all->changes[number].next) {
        places[count].number = number_of_step(all->changes[number].key, all->changes[number].key_len);
        places[count++].change = number;
    }
    qsort(places, count, sizeof *places, by_number);
    places[count].number = UINT64_MAX;
    return places;
}

/* Finds the elements of a level that are changed: BSONRAW_NONE; BSONRAW_FAULT at a stop; BSONRAW_OK with an error set. */
static int32_t find_matches(struct editing *all, uint32_t level, struct bsonraw_iter *iter, const struct place *places, struct matches *matches) {
    int32_t status = BSONRAW_OK;
    while (status == BSONRAW_OK) {
        struct bsonraw_entry entries[ENTRIES];
        uint64_t count, number;
        status = bsonraw_iter_next_many(iter, all->bytes->at, all->bytes->len, entries, ENTRIES, &count);
        for (number = 0; number < count; number++, matches->elements++) {
            const struct bsonraw_entry *entry = &entries[number];
            uint32_t change = NONE;
            if (places == NULL) change = find_change(all, level, all->bytes->at + entry->key_at, entry->key_len);
            else if (places->number == matches->elements) change = places++->change;
            if (change == NONE ? PyErr_Occurred() != NULL : note_match(all, matches, entry, change) < 0) return BSONRAW_OK;
        }
    }
    return status;
}

static int put_level(struct editing *all, uint32_t level, uint32_t at, uint32_t len, int is_array);

/* The payload of a code whose scope is changed. */
static int put_scoped(struct editing *all, const struct matches *level, const struct match *match) {
    const struct bsonraw_entry *entry = &match->entry;
    struct bsonraw_iter iter = {entry->tag, entry->key_at, entry->key_len, entry->payload_at, entry->payload_len,
                                entry->payload_at + entry->payload_len, level->document_at, level->document_len, {0, 0, 0, 0, 0}};
    struct bsonraw_value value;
    size_t from = all->out.len;
    int32_t status = bsonraw_iter_value(&iter, all->bytes->at, all->bytes->len, &value);
    if (status != BSONRAW_OK) {
        iter.error = value.error;
        set_cursor_error(all->state, all->bytes, status, &iter);
        return -1;
    }
    if (put(&all->out, all->bytes->at + entry->payload_at, value.more_at - entry->payload_at) < 0) return -1;
    return put_level(all, match->change, value.more_at, value.more_len, 0) < 0 ? -1 : end_length(&all->out, from);
}

/* The payload of an element in which something is changed. */
static int put_inside(struct editing *all, const struct matches *level, const struct match *match) {
    const struct bsonraw_entry *entry = &match->entry;
    int is_array = entry->tag == BSONRAW_TAG_ARRAY;
    PyObject *key;
    if (entry->tag == BSONRAW_TAG_JAVASCRIPT_WITH_SCOPE) return put_scoped(all, level, match);
    if (entry->tag == BSONRAW_TAG_DOCUMENT || is_array) return put_level(all, match->change, entry->payload_at, entry->payload_len, is_array);
    key = key_of(all->state, all->bytes->at + entry->key_at, entry->key_len);
    if (key != NULL) PyErr_Format(PyExc_ValueError, "a path goes through %R, which is no document and no array", key);
    Py_XDECREF(key);
    return -1;
}

/* What comes in place of an element that is changed. */
static int put_match(struct editing *all, const struct matches *level, const struct match *match) {
    const struct change *change = &all->changes[match->change];
    const struct bsonraw_entry *entry = &match->entry;
    struct out *out = &all->out;
    if (change->kind == REMOVED) {
        if (level->is_array) PyErr_SetString(PyExc_ValueError, "no element of an array can be removed: write the array");
        return level->is_array ? -1 : 0;
    }
    if ((change->kind == INNER ? put_byte(out, (uint8_t)entry->tag) : put_again(out, change->value_at, 1)) < 0) return -1;
    if (put_key(out, all->bytes->at + entry->key_at, entry->key_len) < 0) return -1;
    return change->kind == INNER ? put_inside(all, level, match) : put_again(out, change->value_at + 1, change->value_len - 1);
}

/* What comes after the elements of a level: the steps that none of them has. */
static int put_added(struct editing *all, uint32_t level, uint64_t count, int is_array) {
    uint32_t number;
    for (number = all->changes[level].first; number != NONE; number = all->changes[number].next) {
        const struct change *change = &all->changes[number];
        if (change->number != UINT64_MAX || change->kind == REMOVED) continue;
        if (is_array && number_of_step(change->key, change->key_len) != count) {
            PyObject *step = key_of(all->state, change->key, change->key_len);
            if (step != NULL) PyErr_Format(PyExc_ValueError, "an array of %llu elements has no place %U", (unsigned long long)count, step);
            Py_XDECREF(step);
            return -1;
        }
        count++;
        if (put_new(all, change) < 0) return -1;
    }
    return 0;
}

/* Writes a level with what is changed in it: that element of a repeated key which decode gives, the last one; or all that are to go. */
static int put_matches(struct editing *all, uint32_t level, const struct matches *matches) {
    struct out *out = &all->out;
    uint32_t copied = matches->document_at + 4, end = matches->document_at + matches->document_len - 1;
    size_t number, from = out->len;
    if (put_i32(out, 0) < 0) return -1;
    for (number = 0; number < matches->count; number++) {
        const struct match *match = &matches->at[number];
        const struct change *change = &all->changes[match->change];
        uint32_t begins = match->entry.key_at - 1;
        if (change->number != match->number && change->kind != REMOVED) continue;
        if (put(out, all->bytes->at + copied, begins - copied) < 0 || put_match(all, matches, match) < 0) return -1;
        copied = match->entry.payload_at + match->entry.payload_len;
    }
    if (put(out, all->bytes->at + copied, end - copied) < 0 || put_added(all, level, matches->elements, matches->is_array) < 0) return -1;
    return put_byte(out, 0) < 0 ? -1 : end_length(out, from);
}

static int put_level(struct editing *all, uint32_t level, uint32_t at, uint32_t len, int is_array) {
    struct matches matches = {at, len, is_array, NULL, 0, 4, 0, {{{0, 0, 0, 0, 0}, 0, 0}}};
    struct bsonraw_iter iter;
    struct place *places = NULL;
    uint32_t number;
    int status = -1;
    int32_t read = bsonraw_iter_init_at(&iter, all->bytes->at, all->bytes->len, at, len);
    matches.at = matches.first;
    for (number = all->changes[level].first; number != NONE; number = all->changes[number].next) all->changes[number].number = UINT64_MAX;
    if (read == BSONRAW_OK && is_array && (places = places_of(all, level)) == NULL) return -1;
    if (read == BSONRAW_OK) read = find_matches(all, level, &iter, places, &matches);
    if (read == BSONRAW_NONE) status = put_matches(all, level, &matches);
    else if (read != BSONRAW_OK) set_cursor_error(all->state, all->bytes, read, &iter);
    if (matches.at != matches.first) PyMem_Free(matches.at);
    PyMem_Free(places);
    return status;
}

/* ---- the call ---- */

/* Notes the changes of a list of pairs: 0, or -1 with an error set. */
static int note_items(struct editing *all, PyObject *items, PyObject *default_) {
    Py_ssize_t number, count = items == NULL ? -1 : PyList_Size(items);
    for (number = 0; number < count; number++) {
        PyObject *pair = PyList_GetItem(items, number);
        if (!PyTuple_Check(pair) || PyTuple_Size(pair) != 2) {
            PyErr_SetString(PyExc_TypeError, "changes are a mapping of paths and values");
            return -1;
        }
        if (note_change(all, PyTuple_GetItem(pair, 0), PyTuple_GetItem(pair, 1), default_) < 0) return -1;
    }
    return count < 0 ? -1 : 0;
}

/* Notes all changes; *kept is what keeps their paths: 0, or -1 with an error set. */
static int note_all(struct editing *all, PyObject *changes, PyObject *default_, PyObject **kept) {
    PyObject *path, *value;
    Py_ssize_t at = 0;
    int status;
    if (new_change(all, NULL, 0) == NONE) return -1;
    if (!PyDict_CheckExact(changes) || PyDict_Size(changes) != 1 || !PyDict_Next(changes, &at, &path, &value))
        return note_items(all, *kept = PyMapping_Items(changes), default_);
    Py_INCREF(*kept = path);
    Py_INCREF(value);
    status = note_change(all, path, value, default_);
    Py_DECREF(value);
    return status;
}

static PyObject *edited(struct state *state, const struct bytes *bytes, PyObject *changes, PyObject *default_) {
    struct editing all;
    PyObject *kept = NULL, *made = NULL;
    struct bsonraw_iter iter;
    int32_t status = bsonraw_iter_init(&iter, bytes->at, bytes->len);
    all.state = state, all.bytes = bytes, all.owners = NULL;
    all.changes = all.first, all.count = 0, all.room = FIRST;
    out_open(state, &all.out, SIZE_MAX);
    if (note_all(&all, changes, default_, &kept) == 0) {
        size_t from = all.out.len;
        if (status != BSONRAW_OK) set_cursor_error(state, bytes, status, &iter);
        else if (put_level(&all, 0, 0, (uint32_t)bytes->len, 0) == 0)
            made = PyBytes_FromStringAndSize((const char *)all.out.at + from, (Py_ssize_t)(all.out.len - from));
    }
    while (all.count > 0) Py_XDECREF(all.changes[--all.count].numbers);
    if (all.changes != all.first) PyMem_Free(all.changes);
    out_close(&all.out);
    Py_XDECREF(all.owners);
    Py_XDECREF(kept);
    return made;
}

CALL(py_edit) {
    struct options options;
    struct bytes bytes;
    PyObject *data[MOST_PLACES], *made;
    options_begin(&options, state_of(module));
    if (options_given(&OF_EDIT, &options, data, args, count, names) < 0 || bytes_open(options.state, &bytes, data[0]) < 0) return NULL;
    made = edited(options.state, &bytes, data[1], options.other);
    bytes_close(&bytes);
    return made;
}
