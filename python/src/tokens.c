/* The tokens of a document: the one place where this module asks the library for all levels at once. */
#include "native.h"

#define KEPT_ROOM 65536 /* a larger one is freed */

static int make_room(struct tokens *tokens, size_t room) {
    PyMem_Free(tokens->at);
    tokens->at = room > SIZE_MAX / sizeof *tokens->at ? NULL : PyMem_Malloc(room * sizeof *tokens->at);
    tokens->room = tokens->at == NULL ? 0 : room;
    if (tokens->at == NULL) PyErr_NoMemory();
    return tokens->at == NULL ? -1 : 0;
}

void tokens_free(struct state *state, struct tokens *tokens) {
    if (state->tokens.at == NULL && tokens->room <= KEPT_ROOM) state->tokens = *tokens;
    else PyMem_Free(tokens->at);
    tokens->at = NULL;
    tokens->room = 0;
}

static inline int32_t flatten(const struct tokens *tokens, const struct bytes *bytes, const struct options *options, struct told *told) {
    return bsonraw_flatten(bytes->at, bytes->len, options->max_bytes, options->max_depth, tokens->at, tokens->room, &told->report,
                           told->path, PATH_ROOM);
}

/* Without the interpreter's lock. */
NOT_INLINE int32_t flatten_alone(const struct tokens *tokens, const struct bytes *bytes, const struct options *options, struct told *told) {
    int was_held = collector_pause(options->state);
    int32_t status;
    Py_BEGIN_ALLOW_THREADS
    status = flatten(tokens, bytes, options, told);
    Py_END_ALLOW_THREADS
    collector_resume(options->state, was_held);
    return status;
}

static int32_t flatten_into(const struct tokens *tokens, const struct bytes *bytes, const struct options *options, struct told *told) {
    return LETS_GO(bytes) ? flatten_alone(tokens, bytes, options, told) : flatten(tokens, bytes, options, told);
}

/* Sets the error that was told, and gives the tokens back: -1. */
NOT_INLINE int refused(struct tokens *tokens, const struct bytes *bytes, const struct options *options, uint64_t before, struct told *told) {
    told_begin(told, options);
    told->before = before;
    set_error_of(bytes, told);
    tokens_free(options->state, tokens);
    return -1;
}

int tokens_read(struct tokens *tokens, const struct bytes *bytes, const struct options *options, uint64_t before) {
    size_t wanted = bytes->len / 8 + 64;
    int is_sound = bytes->len >= 5 && (size_t)le_i32(bytes->at) == bytes->len && bytes->len <= options->max_bytes;
    struct told told;
    *tokens = options->state->tokens;
    options->state->tokens.at = NULL;
    options->state->tokens.room = 0;
    if (tokens->room < wanted && is_sound && make_room(tokens, wanted) < 0) return -1;
    told.status = flatten_into(tokens, bytes, options, &told);
    if (told.status == BSONRAW_SMALL_BUFFER) {
        if (make_room(tokens, (size_t)told.report.count) < 0) return -1;
        told.status = flatten_into(tokens, bytes, options, &told);
    }
    if (told.status != BSONRAW_OK) return refused(tokens, bytes, options, before, &told);
    tokens->count = (size_t)told.report.count;
    return 0;
}
