/* Changes by path of bsonraw.h: a document is copied with them in one walk, over the calls that the library exports. Tested, not proved.
 *
 * The changes are sorted by the steps of their paths, and made into a tree. A node has another one for each next step, in a row that is
 * sorted by the step. The elements of a level are looked up in that row, since chosen keys could crowd a hash. Each element of a key that
 * repeats is changed, since readers differ in which one they take. Levels are kept in memory, not on the stack. */
#define BSONRAW_UNCHECKED
#include "bsonraw.h"

#define COPY 4u /* a change of bsonraw_buffer_copy_with: it gets the element that one, a cursor, is at in the bytes at two */

/* What becomes of the elements at a step. */
struct node {
    const char *step;
    size_t step_len;
    struct bsonraw_change *change; /* NULL where a path goes on */
    size_t from, to;               /* the changes that go through it, of those that are sorted */
    size_t first, count;           /* the nodes of the next steps */
    size_t least;                  /* the number of the first of its changes that give a value, as they were given */
    uint64_t met;                  /* the last level in which an element was at the step */
    int sets;                      /* one of its changes gives a value */
};

/* A level that is copied, and then gets what is new. */
struct level {
    struct bsonraw_iter it;
    size_t node;
    size_t next;     /* the number of the next node that may be new */
    uint64_t number; /* of the next element */
    uint64_t id;
    int is_array, is_read;
};

struct edit {
    struct bsonraw_buffer *buffer;
    const uint8_t *bytes;
    size_t len;
    struct bsonraw_change *changes;
    size_t change_count;
    char separator; /* of steps; 0 where a path is a key */
    struct bsonraw_change **sorted;
    struct node *nodes;
    size_t node_count, *order; /* order: the nodes of each row by their least change */
    struct level *levels;
    size_t depth;
    uint64_t last_id;
    char *key; /* room for a step with a 0 */
};

static void stick(struct bsonraw_buffer *buffer, int32_t status) {
    if (buffer->status == BSONRAW_OK) buffer->status = buffer->level.status = status;
}

/* The key as the level that is open in the buffer takes it. */
static const char *key_in(const struct bsonraw_buffer *buffer, const char *key) {
    return buffer->level.tag == BSONRAW_TAG_ARRAY ? NULL : key;
}

/* ---- changes ---- */

static struct bsonraw_change change_of(const char *path, uint32_t kind, uint32_t tag) {
    static const struct bsonraw_change nothing;
    struct bsonraw_change change = nothing;
    change.path = path;
    change.kind = kind;
    change.tag = tag;
    return change;
}

static struct bsonraw_change number_change(const char *path, uint32_t tag, uint64_t number, size_t len) {
    struct bsonraw_change change = change_of(path, BSONRAW_CHANGE_SET, tag);
    const struct bsonraw_number bytes = bsonraw_number_of(number);
    memcpy(change.number, bytes.bytes, 8);
    change.one_len = len;
    return change;
}

struct bsonraw_change bsonraw_change_remove(const char *path) {
    return change_of(path, BSONRAW_CHANGE_REMOVE, 0);
}

struct bsonraw_change bsonraw_change_rename(const char *path, const char *key) {
    struct bsonraw_change change = change_of(path, BSONRAW_CHANGE_RENAME, 0);
    change.key = key;
    return change;
}

struct bsonraw_change bsonraw_change_value(const char *path, uint32_t tag, const void *one, size_t one_len, const void *two,
                                           size_t two_len) {
    struct bsonraw_change change = change_of(path, BSONRAW_CHANGE_SET, tag);
    if (BSONRAW_LACKS(BSONRAW_BYTES(one), one_len) || BSONRAW_LACKS(BSONRAW_BYTES(two), two_len)) change.status = BSONRAW_NULL;
    change.one = bsonraw_some_bytes(one), change.one_len = one_len;
    change.two = bsonraw_some_bytes(two), change.two_len = two_len;
    return change;
}

struct bsonraw_change bsonraw_change_int32(const char *path, int32_t number) {
    return number_change(path, BSONRAW_TAG_INT32, (uint32_t)number, 4);
}

struct bsonraw_change bsonraw_change_int64(const char *path, int64_t number) {
    return number_change(path, BSONRAW_TAG_INT64, (uint64_t)number, 8);
}

struct bsonraw_change bsonraw_change_double(const char *path, double number) {
    uint64_t bits;
    memcpy(&bits, &number, sizeof bits);
    return number_change(path, BSONRAW_TAG_DOUBLE, bits, 8);
}

struct bsonraw_change bsonraw_change_bool(const char *path, int32_t is_true) {
    return number_change(path, BSONRAW_TAG_BOOLEAN, is_true != 0, 1);
}

struct bsonraw_change bsonraw_change_date_time(const char *path, int64_t millis) {
    return number_change(path, BSONRAW_TAG_DATETIME, (uint64_t)millis, 8);
}

struct bsonraw_change bsonraw_change_null(const char *path) {
    return change_of(path, BSONRAW_CHANGE_SET, BSONRAW_TAG_NULL);
}

struct bsonraw_change bsonraw_change_utf8(const char *path, const char *text) {
    return bsonraw_change_value(path, BSONRAW_TAG_STRING, text, text == NULL ? 1 : strlen(text), NULL, 0);
}

/* The parts of the value that a cursor is at, as bsonraw_append takes them. */
static int32_t parts_of(const struct bsonraw_iter *iter, const uint8_t *bytes, size_t len, struct bsonraw_change *change) {
    struct bsonraw_value value;
    int32_t status = bsonraw_iter_value(iter, bytes, len, &value);
    if (status != BSONRAW_OK) return status;
    change->tag = value.tag;
    change->one = bytes + iter->payload_at, change->one_len = iter->payload_len;
    change->two = bytes, change->two_len = 0;
    switch (value.tag) {
    case BSONRAW_TAG_BINARY: change->two = bytes + iter->payload_at + 4, change->two_len = 1; /* fall through */
    case BSONRAW_TAG_STRING:
    case BSONRAW_TAG_SYMBOL:
    case BSONRAW_TAG_JAVASCRIPT: change->one = bytes + value.text_at, change->one_len = value.text_len; break;
    case BSONRAW_TAG_REGEX:
    case BSONRAW_TAG_DB_POINTER:
    case BSONRAW_TAG_JAVASCRIPT_WITH_SCOPE:
        change->one = bytes + value.text_at, change->one_len = value.text_len;
        change->two = bytes + value.more_at, change->two_len = value.more_len;
        break;
    default: break;
    }
    return BSONRAW_OK;
}

struct bsonraw_change bsonraw_change_iter(const char *path, const struct bsonraw_iter *iter, const uint8_t *bytes, size_t len) {
    struct bsonraw_change change = change_of(path, BSONRAW_CHANGE_SET, 0);
    change.status = iter == NULL || BSONRAW_LACKS(bytes, len) ? BSONRAW_NULL : parts_of(iter, bsonraw_some_bytes(bytes), len, &change);
    return change;
}

/* ---- the tree of the changes ---- */

/* The order of two bytes of paths: the end first, then the separator, so that the paths through one step follow each other. */
static int rank_of(const struct edit *e, char byte) {
    if (byte == 0) return 0;
    return byte == e->separator ? 1 : 2 + (uint8_t)byte;
}

/* Whether one change is before another one, of those that are sorted; of equal paths the one that was given first. */
static int is_before(const struct edit *e, const struct bsonraw_change *one, const struct bsonraw_change *other) {
    size_t at = 0;
    int first, second;
    while (one->path[at] == other->path[at] && one->path[at] != 0) at++;
    first = rank_of(e, one->path[at]), second = rank_of(e, other->path[at]);
    return first != second ? first < second : one < other;
}

/* Puts the change at this place below those that are after it, in a heap of this many. */
static void sift(const struct edit *e, size_t at, size_t count) {
    struct bsonraw_change *change = e->sorted[at];
    size_t below;
    while ((below = 2 * at + 1) < count) {
        if (below + 1 < count && is_before(e, e->sorted[below], e->sorted[below + 1])) below++;
        if (!is_before(e, change, e->sorted[below])) break;
        e->sorted[at] = e->sorted[below];
        at = below;
    }
    e->sorted[at] = change;
}

static void sort_changes(const struct edit *e) {
    size_t at;
    for (at = 0; at < e->change_count; at++) e->sorted[at] = &e->changes[at];
    for (at = e->change_count / 2; at > 0; at--) sift(e, at - 1, e->change_count);
    for (at = e->change_count; at > 1; at--) {
        struct bsonraw_change *last = e->sorted[at - 1];
        e->sorted[at - 1] = e->sorted[0];
        e->sorted[0] = last;
        sift(e, 0, at - 1);
    }
}

/* The same of the nodes of a row, by their least change. */
static void sift_node(const struct edit *e, size_t *order, size_t at, size_t count) {
    size_t node = order[at], below;
    while ((below = 2 * at + 1) < count) {
        if (below + 1 < count && e->nodes[order[below]].least < e->nodes[order[below + 1]].least) below++;
        if (e->nodes[node].least >= e->nodes[order[below]].least) break;
        order[at] = order[below];
        at = below;
    }
    order[at] = node;
}

static void sort_row(const struct edit *e, size_t first, size_t count) {
    size_t *order = e->order + first, at, last;
    for (at = 0; at < count; at++) order[at] = first + at;
    for (at = count / 2; at > 0; at--) sift_node(e, order, at - 1, count);
    for (at = count; at > 1; at--) {
        last = order[at - 1];
        order[at - 1] = order[0];
        order[0] = last;
        sift_node(e, order, 0, at - 1);
    }
}

static size_t step_len(const struct edit *e, const char *step) {
    size_t len = 0;
    while (step[len] != 0 && step[len] != e->separator) len++;
    return len;
}

/* Makes a node of the changes from this one on that go through the same step, which begins at this byte of their paths. Returns whether
 * no other change is at the end of one; where a path is a key, those of one key are alike. */
static int add_node(struct edit *e, size_t from, size_t end, size_t at) {
    struct node *node = &e->nodes[e->node_count++];
    const char *step = e->sorted[from]->path + at;
    size_t len = step_len(e, step);
    memset(node, 0, sizeof *node);
    node->step = step, node->step_len = len;
    node->least = e->change_count;
    for (node->from = node->to = from; node->to < end; node->to++) {
        struct bsonraw_change *change = e->sorted[node->to];
        if (step_len(e, change->path + at) != len || memcmp(change->path + at, step, len) != 0) break;
        if (change->kind != BSONRAW_CHANGE_SET && change->kind != COPY) continue;
        node->sets = 1;
        if ((size_t)(change - e->changes) < node->least) node->least = (size_t)(change - e->changes);
    }
    if (step[len] == 0) node->change = e->sorted[from];
    return node->change == NULL || node->to - from == 1 || e->separator == 0;
}

/* Makes the nodes of each level's steps, level by level. */
static int add_nodes(struct edit *e) {
    size_t number, from;
    for (number = 0; number < e->node_count; number++) {
        struct node *node = &e->nodes[number];
        const char *path = node->from < node->to ? e->sorted[node->from]->path : "";
        size_t at = node->step == NULL ? 0 : (size_t)(node->step - path) + node->step_len + 1;
        if (node->change != NULL) continue;
        node->first = e->node_count;
        for (from = node->from; from < node->to; from = e->nodes[e->node_count - 1].to)
            if (!add_node(e, from, node->to, at)) return 0;
        node->count = e->node_count - node->first;
        sort_row(e, node->first, node->count);
    }
    return 1;
}

/* The node of this step among those after a node; NULL where there is none. */
static struct node *find_step(const struct edit *e, const struct node *node, const char *step, size_t len) {
    size_t from = node->first, to = from + node->count;
    while (from < to) {
        size_t middle = from + (to - from) / 2;
        struct node *found = &e->nodes[middle];
        int order = memcmp(step, found->step, len < found->step_len ? len : found->step_len);
        if (order == 0 && len == found->step_len) return found;
        if (order < 0 || (order == 0 && len < found->step_len)) to = middle;
        else from = middle + 1;
    }
    return NULL;
}

/* ---- the walk ---- */

/* The decimal of a number, and its length. */
static size_t put_decimal(uint64_t number, char text[21]) {
    char digits[20];
    size_t count = 0, at;
    do digits[count++] = (char)('0' + number % 10);
    while ((number /= 10) > 0);
    for (at = 0; at < count; at++) text[at] = digits[count - 1 - at];
    text[count] = 0;
    return count;
}

static void push(struct edit *e, const struct node *node, const struct bsonraw_iter *it, int is_array) {
    struct level *level = &e->levels[e->depth++];
    memset(level, 0, sizeof *level);
    if (it != NULL) level->it = *it, level->is_read = 1;
    level->node = (size_t)(node - e->nodes);
    level->is_array = is_array;
    level->id = ++e->last_id;
}

/* Appends a value under a key. */
static void append_parts(struct edit *e, const char *key, const struct bsonraw_change *change) {
    const void *one = change->one == NULL ? change->number : change->one;
    if (change->status != BSONRAW_OK) stick(e->buffer, change->status);
    else (void)bsonraw_buffer_append(e->buffer, change->tag, key_in(e->buffer, key), one, change->one_len, change->two, change->two_len);
}

/* Puts what a change makes of the element that a cursor is at, whose key ends with a 0. */
static void apply(struct edit *e, struct bsonraw_change *change, const struct bsonraw_iter *it) {
    struct bsonraw_change value;
    change->count++;
    switch (change->kind) {
    case BSONRAW_CHANGE_REMOVE: break;
    case BSONRAW_CHANGE_SET: append_parts(e, BSONRAW_CHARS(e->bytes + it->key_at), change); break;
    case BSONRAW_CHANGE_RENAME:
        value = change_of(NULL, BSONRAW_CHANGE_SET, 0);
        value.status = change->key == NULL ? BSONRAW_NULL : parts_of(it, e->bytes, e->len, &value);
        if (e->buffer->level.tag == BSONRAW_TAG_ARRAY) value.status = BSONRAW_MISUSE;
        append_parts(e, change->key, &value);
        break;
    default: (void)bsonraw_buffer_iter(e->buffer, change->one, change->two, change->two_len);
    }
}

/* Begins a level in the buffer, and here. */
static void go_into(struct edit *e, const struct node *node, const char *key, const struct bsonraw_iter *inside, int is_array) {
    key = key_in(e->buffer, key);
    if ((is_array ? bsonraw_buffer_begin_array(e->buffer, key) : bsonraw_buffer_begin_document(e->buffer, key)) == BSONRAW_OK)
        push(e, node, inside, is_array);
}

/* Copies an element, or puts what is made of it. */
static void copy_element(struct edit *e, struct level *level) {
    const struct bsonraw_iter it = level->it;
    struct bsonraw_iter inside;
    char number[21];
    size_t number_len = level->is_array ? put_decimal(level->number, number) : 0;
    const char *step = level->is_array ? number : BSONRAW_CHARS(e->bytes + it.key_at);
    struct node *node = find_step(e, &e->nodes[level->node], step, level->is_array ? number_len : it.key_len);
    level->number++;
    if (node != NULL) node->met = level->id;
    if (node != NULL && node->change != NULL)
        apply(e, node->change, &it);
    else if (node != NULL && bsonraw_iter_recurse(&it, e->bytes, e->len, &inside) == BSONRAW_OK)
        go_into(e, node, BSONRAW_CHARS(e->bytes + it.key_at), &inside, it.tag == BSONRAW_TAG_ARRAY);
    else if (node != NULL && node->sets)
        stick(e->buffer, BSONRAW_OTHER_KIND);
    else
        (void)bsonraw_buffer_iter(e->buffer, &it, e->bytes, e->len);
}

/* Appends what a node makes where no element was at its step: its value, or a document of what is after it. */
static void put_new(struct edit *e, struct level *level, const struct node *node) {
    char number[21];
    size_t at;
    if (!node->sets || node->met == level->id) return;
    if (level->is_array && (put_decimal(level->number++, number) != node->step_len || memcmp(number, node->step, node->step_len) != 0)) {
        stick(e->buffer, BSONRAW_BAD_OFFSET);
        return;
    }
    memcpy(e->key, node->step, node->step_len);
    e->key[node->step_len] = 0;
    if (node->change == NULL) {
        go_into(e, node, e->key, NULL, 0);
        return;
    }
    for (at = node->from; at < node->to; at++) {
        struct bsonraw_change *change = e->sorted[at];
        change->count++;
        if (change->kind == COPY) (void)bsonraw_buffer_iter(e->buffer, change->one, change->two, change->two_len);
        else append_parts(e, e->key, change);
    }
}

/* One step of the innermost level: its next element, or what is new, or its end. */
static void walk_on(struct edit *e) {
    struct level *level = &e->levels[e->depth - 1];
    const struct node *node = &e->nodes[level->node];
    int32_t status;
    if (level->is_read) {
        status = bsonraw_iter_next(&level->it, e->bytes, e->len);
        if (status == BSONRAW_OK) copy_element(e, level);
        else if (status == BSONRAW_NONE) level->is_read = 0;
        else stick(e->buffer, status);
    } else if (level->next < node->count) {
        put_new(e, level, &e->nodes[e->order[node->first + level->next++]]);
    } else if (--e->depth > 0) {
        (void)bsonraw_buffer_end(e->buffer);
    }
}

/* ---- the calls ---- */

/* Why the changes are none: a path that is NULL, or a kind that isn't one. Else counts the steps of all paths, the most steps of one, and
 * the most bytes of a step. */
static int32_t measure(struct edit *e, size_t *deepest, size_t *steps, size_t *longest) {
    size_t number;
    *deepest = *steps = *longest = 0;
    for (number = 0; number < e->change_count; number++) {
        const struct bsonraw_change *change = &e->changes[number];
        const char *step = change->path;
        size_t count = 0, len;
        if (step == NULL) return BSONRAW_NULL;
        if (change->kind < BSONRAW_CHANGE_SET || change->kind > COPY) return BSONRAW_OTHER_KIND;
        for (;; step += len + 1) {
            len = step_len(e, step);
            count++;
            if (len > *longest) *longest = len;
            if (step[len] == 0) break;
        }
        if (count > *deepest) *deepest = count;
        *steps += count;
    }
    return BSONRAW_OK;
}

/* Takes memory for the tree and the levels. */
static void *take_memory(struct edit *e, size_t deepest, size_t steps, size_t longest) {
    size_t nodes = (steps + 1) * sizeof *e->nodes, levels = (deepest + 1) * sizeof *e->levels;
    size_t sorted = (e->change_count + 1) * sizeof *e->sorted, order = (steps + 1) * sizeof *e->order;
    uint8_t *memory = e->buffer->resize(e->buffer->context, NULL, nodes + levels + sorted + order + longest + 1);
    if (memory == NULL) return NULL;
    e->nodes = (struct node *)(void *)memory;
    e->levels = (struct level *)(void *)(memory + nodes);
    e->sorted = (struct bsonraw_change **)(void *)(memory + nodes + levels);
    e->order = (size_t *)(void *)(memory + nodes + levels + sorted);
    e->key = (char *)(memory + nodes + levels + sorted + order);
    return memory;
}

static void walk(struct edit *e, const struct bsonraw_iter *it) {
    struct node *root = e->nodes;
    memset(root, 0, sizeof *root);
    root->to = e->change_count;
    e->node_count = 1;
    sort_changes(e);
    if (!add_nodes(e)) {
        stick(e->buffer, BSONRAW_MISUSE);
        return;
    }
    push(e, root, it, 0);
    while (e->depth > 0 && e->buffer->status == BSONRAW_OK) walk_on(e);
}

static int32_t edit(struct edit *e) {
    struct bsonraw_iter it;
    size_t deepest, steps, longest;
    int32_t status = bsonraw_iter_init(&it, e->bytes, e->len);
    void *memory = NULL;
    if (status == BSONRAW_OK) status = measure(e, &deepest, &steps, &longest);
    if (status == BSONRAW_OK && (memory = take_memory(e, deepest, steps, longest)) == NULL) status = BSONRAW_NO_MEMORY;
    if (status == BSONRAW_OK) walk(e, &it);
    else stick(e->buffer, status);
    if (memory != NULL) e->buffer->resize(e->buffer->context, memory, 0);
    return e->buffer->status;
}

/* Whether a call may append to the buffer, as one of no elements shows. */
static int is_ready(struct bsonraw_buffer *buffer) {
    return bsonraw_buffer_concat(buffer, BSONRAW_BYTES("\5\0\0\0"), 5) == BSONRAW_OK;
}

static int32_t edit_with(struct bsonraw_buffer *buffer, const uint8_t *bytes, size_t len, struct bsonraw_change *changes, size_t count,
                         char separator) {
    struct edit e = {buffer, bsonraw_some_bytes(bytes), len, changes, count, separator, NULL, NULL, 0, NULL, NULL, 0, 0, NULL};
    return edit(&e);
}

int32_t bsonraw_buffer_edit(struct bsonraw_buffer *buffer, const uint8_t *bytes, size_t len, struct bsonraw_change *changes, size_t count) {
    size_t at;
    if (buffer == NULL) return BSONRAW_NULL;
    if (!is_ready(buffer)) return buffer->status;
    if (BSONRAW_LACKS(bytes, len) || BSONRAW_LACKS(changes, count)) return stick(buffer, BSONRAW_NULL), buffer->status;
    for (at = 0; at < count; at++) changes[at].count = 0;
    return edit_with(buffer, bytes, len, changes, count, '.');
}

int32_t bsonraw_buffer_copy_without(struct bsonraw_buffer *buffer, const uint8_t *bytes, size_t len, const char *const *keys,
                                    size_t count) {
    struct bsonraw_change *changes;
    size_t at;
    if (buffer == NULL) return BSONRAW_NULL;
    if (!is_ready(buffer)) return buffer->status;
    if (BSONRAW_LACKS(bytes, len) || BSONRAW_LACKS(keys, count)) return stick(buffer, BSONRAW_NULL), buffer->status;
    changes = buffer->resize(buffer->context, NULL, (count + 1) * sizeof *changes);
    if (changes == NULL) return stick(buffer, BSONRAW_NO_MEMORY), buffer->status;
    for (at = 0; at < count; at++) changes[at] = bsonraw_change_remove(keys[at]);
    (void)edit_with(buffer, bytes, len, changes, count, 0);
    buffer->resize(buffer->context, changes, 0);
    return buffer->status;
}

/* Makes a change of each element of a document, and a cursor that is at it. Returns what ended the walk. */
static int32_t make_copies(const uint8_t *over, size_t over_len, struct bsonraw_change *changes, struct bsonraw_iter *at_each) {
    struct bsonraw_iter it;
    int32_t status = bsonraw_iter_init(&it, over, over_len);
    for (; status == BSONRAW_OK && (status = bsonraw_iter_next(&it, over, over_len)) == BSONRAW_OK; changes++, at_each++) {
        *at_each = it;
        *changes = change_of(BSONRAW_CHARS(over + it.key_at), COPY, 0);
        changes->one = at_each, changes->two = over, changes->two_len = over_len;
    }
    return status;
}

int32_t bsonraw_buffer_copy_with(struct bsonraw_buffer *buffer, const uint8_t *bytes, size_t len, const uint8_t *over, size_t over_len) {
    struct bsonraw_change *changes;
    uint64_t count;
    int32_t status;
    if (buffer == NULL) return BSONRAW_NULL;
    if (!is_ready(buffer)) return buffer->status;
    status = BSONRAW_LACKS(bytes, len) ? BSONRAW_NULL : bsonraw_count(over, over_len, &count);
    if (status != BSONRAW_OK) return stick(buffer, status), buffer->status;
    changes = buffer->resize(buffer->context, NULL, (size_t)(count + 1) * (sizeof *changes + sizeof(struct bsonraw_iter)));
    if (changes == NULL) return stick(buffer, BSONRAW_NO_MEMORY), buffer->status;
    (void)make_copies(over, over_len, changes, (struct bsonraw_iter *)(void *)(changes + count + 1));
    (void)edit_with(buffer, bytes, len, changes, (size_t)count, 0);
    buffer->resize(buffer->context, changes, 0);
    return buffer->status;
}
