/* A dump as a table: lists of values, or buffers, by the keys of the first level or by paths. */
#include "dumps.h"
#include "typed.h"

/* The values of one key or path, of all documents up to the last one that has it: in a list, or where that is NULL typed. */
struct column {
    PyObject *key, *values;
    struct typed typed;
    size_t count;
};

/* A step of paths, with those after it. */
struct step {
    const uint8_t *key; /* which the path keeps */
    size_t len;
    uint64_t number;    /* in an array */
    size_t column;      /* of the path that ends here; NO_COLUMN where none does */
    struct step *next;
    size_t count, room;
};

#define NO_COLUMN SIZE_MAX
#define MOST_STEPS 500

struct columns {
    PyObject *numbers; /* of columns, by key */
    const struct options *options;
    struct column *at;
    size_t count, room;
    size_t document; /* how many documents are before the one that is read */
    size_t next;     /* the number of the column that the next key is most likely in: the one after the last key's */
    struct step first; /* before all paths */
};

/* ---- columns ---- */

static int more_columns(struct columns *all) {
    size_t room = 2 * all->room + 16;
    struct column *more = PyMem_Realloc(all->at, room * sizeof *more);
    if (more == NULL) {
        PyErr_NoMemory();
        return -1;
    }
    all->at = more;
    all->room = room;
    return 0;
}

/* Begins the column of a key, which has none. */
static struct column *new_column(struct columns *all, PyObject *key) {
    struct column *column;
    PyObject *number, *values;
    int status;
    if (all->count == all->room && more_columns(all) < 0) return NULL;
    number = PyLong_FromSize_t(all->count);
    status = number == NULL ? -1 : PyDict_SetItem(all->numbers, key, number);
    Py_XDECREF(number);
    values = status < 0 || all->options->is_typed ? NULL : PyList_New(0);
    if (status < 0 || (values == NULL && !all->options->is_typed)) return NULL;
    Py_INCREF(key);
    column = &all->at[all->count++];
    memset(column, 0, sizeof *column);
    column->key = key;
    column->values = values;
    all->next = all->count;
    return column;
}

static struct column *column_of(struct columns *all, PyObject *key) {
    PyObject *number;
    if (all->next < all->count && all->at[all->next].key == key) return &all->at[all->next++];
    number = PyDict_GetItemWithError(all->numbers, key);
    if (number == NULL) return PyErr_Occurred() ? NULL : new_column(all, key);
    all->next = PyLong_AsSize_t(number);
    return &all->at[all->next++];
}

/* Has a column as many values as there are documents before this one. */
static int pad(struct column *column, size_t count, PyObject *missing) {
    for (; column->count < count; column->count++)
        if ((column->values == NULL ? typed_skip(&column->typed) : PyList_Append(column->values, missing)) < 0) return -1;
    return 0;
}

/* A document whose tokens are gone through. */
struct reading {
    struct columns *to;
    const struct bytes *bytes;
    const struct options *options;
};

/* Puts a value into a column that is a list; of a repeated key the last one stays. Takes it. */
static int put_value(const struct reading *reading, struct column *column, PyObject *value) {
    size_t document = reading->to->document;
    int status;
    if (value == NULL) return -1;
    if (column->count > document) return PyList_SetItem(column->values, (Py_ssize_t)document, value);
    status = PyList_Append(column->values, value);
    Py_DECREF(value);
    column->count++;
    return status;
}

/* Puts the value of a token into a column that is typed: 1; 0 where that has a list from now on; -1 with an error set. */
static int put_typed(const struct reading *reading, struct column *column, const struct bsonraw_token *token) {
    int status;
    if (column->count > reading->to->document) {
        typed_drop(&column->typed);
        column->count--;
    }
    status = typed_put(&column->typed, reading->bytes->at, token);
    if (status > 0) column->count++;
    if (status != 0) return status;
    column->values = typed_list(reading->options->state, &column->typed, 0, column->typed.count, reading->options->is_naive);
    typed_free(&column->typed);
    return column->values == NULL ? -1 : 0;
}

/* Puts the value of a token into its column. Where columns are typed, an int64 is an int in each. */
static int put_token(const struct reading *reading, struct column *column, const struct bsonraw_token *token) {
    const struct options *options = reading->options;
    int status;
    if (column == NULL || pad(column, reading->to->document, options->missing) < 0) return -1;
    if (column->values == NULL && (status = put_typed(reading, column, token)) != 0) return status < 0 ? -1 : 0;
    if (options->is_typed && token->tag == BSONRAW_TAG_INT64)
        return put_value(reading, column, PyLong_FromLongLong(le_i64(reading->bytes->at + token->payload_at)));
    return put_value(reading, column, value_of_token(reading->bytes, options, token));
}

static int take_key(void *to, PyObject *key, const struct bsonraw_token *token) {
    const struct reading *reading = to;
    return put_token(reading, column_of(reading->to, key), token);
}

/* ---- paths ---- */

static void free_steps(struct step *step) {
    while (step->count > 0) free_steps(&step->next[--step->count]);
    PyMem_Free(step->next);
}

/* The step with this key after another one, which is added where it isn't there; NULL with an error set. */
static struct step *next_step(struct step *of, PyObject *key) {
    struct step *step;
    size_t len, number;
    const uint8_t *at = utf8_of(key, "a step", &len);
    if (at == NULL) return NULL;
    for (number = 0; number < of->count; number++)
        if (of->next[number].len == len && memcmp(of->next[number].key, at, len) == 0) return &of->next[number];
    if (of->count == of->room) {
        step = PyMem_Realloc(of->next, (2 * of->room + 4) * sizeof *step);
        if (step == NULL) PyErr_NoMemory();
        if (step == NULL) return NULL;
        of->next = step;
        of->room = 2 * of->room + 4;
    }
    step = &of->next[of->count++];
    memset(step, 0, sizeof *step);
    step->key = at;
    step->len = len;
    step->number = number_of_step(at, len);
    step->column = NO_COLUMN;
    return step;
}

/* Adds a path, a tuple of keys, with its column. */
static int add_path(struct columns *all, PyObject *name, PyObject *keys) {
    struct step *step = &all->first;
    Py_ssize_t number, count = PyTuple_Size(keys);
    if (count > MOST_STEPS) PyErr_SetString(PyExc_ValueError, "a path has more than 500 steps");
    if (count < 0 || count > MOST_STEPS) return -1;
    for (number = 0; step != NULL && number < count; number++) step = next_step(step, PyTuple_GetItem(keys, number));
    if (step == NULL) return -1;
    if (step->column == NO_COLUMN) {
        step->column = all->count;
        return new_column(all, name) == NULL ? -1 : 0;
    }
    PyErr_Format(PyExc_ValueError, "the path %R is there twice", name);
    return -1;
}

/* Adds the paths of a list of tuples of a name and keys. */
static int add_paths(struct columns *all, PyObject *paths) {
    Py_ssize_t number, count = PyList_Size(paths);
    for (number = 0; number < count; number++) {
        PyObject *path = PyList_GetItem(paths, number), *name, *keys;
        if (!PyArg_ParseTuple(path, "OO!", &name, &PyTuple_Type, &keys) || add_path(all, name, keys) < 0) return -1;
    }
    return count < 0 ? -1 : 0;
}

static int take_level(const struct reading *reading, const struct step *of, const struct bsonraw_token *token,
                      const struct bsonraw_token *end, int is_array);

/* Takes the value of a token at a step, and what is inside it. */
static int take_step(const struct reading *reading, const struct step *step, const struct bsonraw_token *token) {
    if (step->column != NO_COLUMN && put_token(reading, &reading->to->at[step->column], token) < 0) return -1;
    if (step->count == 0 || token->inside == 0) return 0;
    return take_level(reading, step, token + 1, token + 1 + token->inside, token->tag == BSONRAW_TAG_ARRAY);
}

static int take_level(const struct reading *reading, const struct step *of, const struct bsonraw_token *token,
                      const struct bsonraw_token *end, int is_array) {
    uint64_t number;
    for (number = 0; token < end; number++, token += 1 + token->inside) {
        const uint8_t *key = reading->bytes->at + token->key_at;
        const struct step *step = of->next, *last = step + of->count;
        for (; step < last; step++) {
            int is_it = is_array ? step->number == number : step->len == token->key_len && memcmp(step->key, key, step->len) == 0;
            if (is_it && take_step(reading, step, token) < 0) return -1;
        }
    }
    return 0;
}

static int take_paths(const struct reading *reading, uint64_t before) {
    struct tokens tokens;
    int status;
    if (tokens_read(&tokens, reading->bytes, reading->options, before) < 0) return -1;
    status = take_level(reading, &reading->to->first, tokens.at, tokens.at + tokens.count, 0);
    tokens_free(reading->options->state, &tokens);
    return status;
}

/* ---- tables ---- */

static int take_into_columns(void *to, const struct bytes *document, const struct options *options, uint64_t before) {
    struct columns *columns = to;
    struct reading reading = {columns, document, options};
    columns->next = 0;
    if ((options->paths != NULL ? take_paths(&reading, before) : take_keys(document, options, before, take_key, &reading)) < 0)
        return -1;
    columns->document++;
    return 0;
}

/* What a column is in the end: its list, or the parts of a Column; where it has no value, a list. */
static PyObject *column_end(const struct state *state, struct column *column) {
    struct typed *typed = &column->typed;
    if (column->values != NULL) return itself(column->values);
    return typed->kind == OF_NOTHING ? typed_list(state, typed, 0, typed->count, 0) : typed_parts(typed);
}

/* The columns by their keys. */
static PyObject *columns_end(struct columns *columns) {
    PyObject *ended = PyDict_New();
    size_t number;
    for (number = 0; ended != NULL && number < columns->count; number++) {
        struct column *column = &columns->at[number];
        PyObject *values = pad(column, columns->document, columns->options->missing) < 0 ? NULL : column_end(columns->options->state, column);
        typed_free(&column->typed);
        if (values == NULL || PyDict_SetItem(ended, column->key, values) < 0) Py_CLEAR(ended);
        Py_XDECREF(values);
    }
    return ended;
}

static PyObject *columns_of(Documents *all, const struct options *options) {
    struct columns columns = {PyDict_New(), options, NULL, 0, 0, 0, 0, {0}};
    PyObject *ended = NULL;
    int status = columns.numbers == NULL ? -1 : 0;
    columns.first.column = NO_COLUMN;
    if (status == 0 && options->paths != NULL) status = add_paths(&columns, options->paths);
    if (status == 0 && take_each(all, options, take_into_columns, &columns) == 0) ended = columns_end(&columns);
    while (columns.count > 0) {
        struct column *column = &columns.at[--columns.count];
        Py_DECREF(column->key);
        Py_XDECREF(column->values);
        typed_free(&column->typed);
    }
    free_steps(&columns.first);
    PyMem_Free(columns.at);
    Py_XDECREF(columns.numbers);
    return ended;
}

/* columns(documents, ..): the values of the rest of them, by key. */
CALL(py_columns) {
    struct options options;
    PyObject *documents;
    if (options_read(module, &OF_COLUMNS, &options, &documents, args, count, names) < 0) return NULL;
    return made_of(documents, &options, columns_of);
}
