/* Documents as Extended JSON. */
#include "native.h"

#define LEAST_ROOM 65536
#define KEPT_ROOM (1 << 20) /* a larger one is freed */

static int make_room(struct text_room *room, size_t len) {
    PyMem_Free(room->at);
    room->at = PyMem_Malloc(len);
    room->len = room->at == NULL ? 0 : len;
    if (room->at == NULL) PyErr_NoMemory();
    return room->at == NULL ? -1 : 0;
}

static void give_back(struct state *state, struct text_room *room) {
    if (state->text.at == NULL && room->len <= KEPT_ROOM) state->text = *room;
    else PyMem_Free(room->at);
}

/* The room that most texts of a document fit into. */
static size_t room_for(const struct bytes *bytes, size_t max_bytes) {
    int is_sound = bytes->len >= 5 && bytes->len <= max_bytes && (size_t)le_i32(bytes->at) == bytes->len;
    return bytes->len < LEAST_ROOM / 4 || !is_sound ? LEAST_ROOM : 3 * bytes->len;
}

/* Has the text written into a room that is large enough: 0, or -1 with an error set. */
static int write_text(const struct bytes *bytes, struct told *told, const struct options *options, struct text_room *room) {
    size_t wanted = room_for(bytes, told->max_bytes);
    do {
        if (room->len < wanted && make_room(room, wanted) < 0) return -1;
        WITHOUT_LOCK(bytes, told->status = bsonraw_json(bytes->at, bytes->len, told->max_bytes, told->max_depth,
                                                        (uint32_t)options->is_canonical, options->indent >= 0,
                                                        room->at, room->len, &told->report, told->path, PATH_ROOM));
        wanted = (size_t)told->report.count + 1;
    } while (told->status == BSONRAW_SMALL_BUFFER);
    if (told->status != BSONRAW_OK) set_error_of(bytes, told);
    return told->status == BSONRAW_OK ? 0 : -1;
}

/* The text, whose levels are of two spaces, with levels of this many. */
static PyObject *with_indent(const uint8_t *text, size_t len, int width) {
    const uint8_t *from = text, *end = text + len;
    PyObject *wider;
    size_t lines = 1, spaces = 0, at;
    uint8_t *made, *to;
    for (at = 0; at < len; at++)
        if (text[at] == '\n') {
            size_t first = ++at;
            while (at < len && text[at] == ' ') at++;
            spaces += at - first;
            lines++;
            at--;
        }
    made = to = PyMem_Malloc(len - spaces + spaces / 2 * (size_t)width + lines);
    if (made == NULL) return PyErr_NoMemory();
    while (from < end) {
        const uint8_t *line = memchr(from, '\n', (size_t)(end - from));
        size_t size = (size_t)((line == NULL ? end : line + 1) - from);
        memcpy(to, from, size);
        to += size;
        from += size;
        for (spaces = 0; from < end && *from == ' '; from++) spaces++;
        memset(to, ' ', spaces / 2 * (size_t)width);
        to += spaces / 2 * (size_t)width;
    }
    wider = PyUnicode_DecodeUTF8((const char *)made, (Py_ssize_t)(to - made), "strict");
    PyMem_Free(made);
    return wider;
}

static PyObject *json_of(const struct bytes *bytes, const struct options *options) {
    struct state *state = options->state;
    struct told told;
    struct text_room room = state->text;
    PyObject *text = NULL;
    state->text.at = NULL;
    state->text.len = 0;
    told_begin(&told, options);
    if (write_text(bytes, &told, options, &room) == 0) {
        size_t len = (size_t)told.report.count;
        if (options->indent < 0 || options->indent == 2) text = PyUnicode_DecodeUTF8((const char *)room.at, (Py_ssize_t)len, "strict");
        else text = with_indent(room.at, len, options->indent);
    }
    give_back(state, &room);
    return text;
}

CALL(py_to_json) {
    struct options options;
    struct bytes bytes;
    PyObject *data, *text;
    if (options_read(module, &OF_TO_JSON, &options, &data, args, count, names) < 0 || bytes_open(options.state, &bytes, data) < 0) return NULL;
    text = json_of(&bytes, &options);
    bytes_close(&bytes);
    return text;
}
