/* The functions of bsonraw.h for daily use, over the calls that the library exports. Tested, not proved. */
#define BSONRAW_UNCHECKED
#include "bsonraw.h"

#include <stdlib.h>

#define LONGEST 2147483647u /* bytes of a document */

/* The length that four bytes say. */
static uint32_t length_at(const uint8_t *bytes) {
    return (uint32_t)bytes[0] | (uint32_t)bytes[1] << 8 | (uint32_t)bytes[2] << 16 | (uint32_t)bytes[3] << 24;
}

/* ---- texts ---- */

const char *bsonraw_status_text(int32_t status) {
    static const char *const texts[] = {
        "done", "no more", "a fault", "not canonical", "no document", "too many bytes", "too deep",
        "a document would be too long", "the room is too small", "no place in the bytes", "not enough memory", "another kind",
        "NULL", "a call out of turn", "cut off", "the file can't be read",
    };
    if (status < 0) return "a level is open";
    return (size_t)status < sizeof texts / sizeof *texts ? texts[status] : "no status";
}

const char *bsonraw_reason_text(uint32_t reason) {
    static const char *const texts[] = {
        "no reason", "a document of under five bytes", "a document's length is wrong", "no final 0", "no element and no final 0",
        "no kind has this tag", "a string's length is cut off", "a length is negative", "a string's length is 0",
        "a string is longer than what is left", "a string has no final 0", "a value is longer than what is left",
        "a nested document's length is under 5", "a nested document has no final 0", "a value's length is cut off",
        "a text has no final 0", "a boolean is neither 0 nor 1", "an old binary has no inner length",
        "an old binary's inner length is negative", "an old binary's inner length is wrong", "a code with scope is too short",
    };
    return reason < sizeof texts / sizeof *texts ? texts[reason] : "no reason";
}

const char *bsonraw_cause_text(uint32_t cause) {
    static const char *const texts[] = {"no cause", "stop", "value", "repeated-key", "array-key", "options", "dollar-key", "dotted-key", "empty-key"};
    return cause < sizeof texts / sizeof *texts ? texts[cause] : "no cause";
}

const char *bsonraw_tag_text(uint32_t tag) {
    static const char *const texts[] = {
        "no kind", "double", "string", "document", "array", "binary", "undefined", "ObjectId", "boolean", "datetime", "null",
        "regular expression", "DBPointer", "JavaScript", "symbol", "JavaScript with scope", "int32", "timestamp", "int64", "Decimal128",
    };
    if (tag == BSONRAW_TAG_MAX_KEY) return "MaxKey";
    if (tag == BSONRAW_TAG_MIN_KEY) return "MinKey";
    return tag < sizeof texts / sizeof *texts ? texts[tag] : "no kind";
}

const char *bsonraw_error_text(const struct bsonraw_error *error) {
    if (error == NULL || error->kind == 0) return "no fault";
    return error->kind == BSONRAW_NOT_UTF8 ? "a text isn't UTF-8" : bsonraw_reason_text(error->reason);
}

/* Sets a cursor before the first element of what the element has inside: a document, an array, or a scope. */
static int32_t go_into(const struct bsonraw_iter *iter, const uint8_t *bytes, size_t len, struct bsonraw_iter *inside) {
    struct bsonraw_value value;
    if (iter->tag != BSONRAW_TAG_JAVASCRIPT_WITH_SCOPE) return bsonraw_iter_recurse(iter, bytes, len, inside);
    if (bsonraw_iter_value(iter, bytes, len, &value) != BSONRAW_OK) return BSONRAW_FAULT;
    return bsonraw_iter_init_at(inside, bytes, len, value.more_at, value.more_len);
}

/* ---- by path ---- */

int32_t bsonraw_get(const uint8_t *bytes, size_t len, const char *path, struct bsonraw_iter *iter) {
    if (iter == NULL || path == NULL || BSONRAW_LACKS(bytes, len)) return BSONRAW_NULL;
    return bsonraw_iter_init_find_descendant(iter, bsonraw_some_bytes(bytes), len, BSONRAW_STR(path), '.');
}

/* The value at a path, if its tag is one of these, or if there are none. */
static int32_t value_at(const uint8_t *bytes, size_t len, const char *path, const uint32_t *tags, size_t count,
                        struct bsonraw_value *value) {
    static const struct bsonraw_value nothing;
    *value = nothing;
    if (path == NULL || BSONRAW_LACKS(bytes, len)) return BSONRAW_NULL;
    return bsonraw_value_at(bsonraw_some_bytes(bytes), len, BSONRAW_STR(path), '.', tags, count, value);
}

int32_t bsonraw_get_value(const uint8_t *bytes, size_t len, const char *path, struct bsonraw_value *value) {
    static const uint32_t any[1] = {0};
    return value == NULL ? BSONRAW_NULL : value_at(bytes, len, path, any, 0, value);
}

static double double_of(uint64_t bits) {
    double number;
    memcpy(&number, &bits, sizeof number);
    return number;
}

/* What is handed out of the value v at a path, which has one of the tags. */
#define GET(name, parameters, places, hands, ...)                                                \
    int32_t bsonraw_get_##name(const uint8_t *bytes, size_t len, const char *path, parameters) { \
        static const uint32_t tags[] = {__VA_ARGS__};                                            \
        struct bsonraw_value v;                                                                  \
        int32_t status = value_at(bytes, len, path, tags, sizeof tags / sizeof *tags, &v);       \
        if (!(places)) return BSONRAW_NULL;                                                      \
        hands;                                                                                   \
        return status;                                                                           \
    }
#define AND ,
#define PART (status == BSONRAW_OK ? bytes + v.text_at : NULL)

GET(int32, int32_t *number, number, *number = (int32_t)v.integer, BSONRAW_TAG_INT32)
GET(int64, int64_t *number, number, *number = v.integer, BSONRAW_TAG_INT64)
GET(double, double *number, number, *number = double_of(v.bits), BSONRAW_TAG_DOUBLE)
GET(as_int64, int64_t *number, number, *number = v.integer, BSONRAW_TAG_INT32, BSONRAW_TAG_INT64)
GET(as_double, double *number, number, *number = v.tag == BSONRAW_TAG_DOUBLE ? double_of(v.bits) : (double)v.integer, BSONRAW_TAG_DOUBLE,
    BSONRAW_TAG_INT32, BSONRAW_TAG_INT64)
GET(bool, int32_t *is_true, is_true, *is_true = (int32_t)v.integer, BSONRAW_TAG_BOOLEAN)
GET(date_time, int64_t *millis, millis, *millis = v.integer, BSONRAW_TAG_DATETIME)
GET(timestamp, uint32_t *time AND uint32_t *increment, time && increment, (*time = v.time, *increment = v.increment),
    BSONRAW_TAG_TIMESTAMP)
GET(utf8, const char **text AND size_t *text_len, text && text_len, (*text = (const char *)PART, *text_len = v.text_len),
    BSONRAW_TAG_STRING)
GET(oid, const uint8_t **id, id, *id = PART, BSONRAW_TAG_OBJECT_ID)
GET(decimal128, const uint8_t **decimal, decimal, *decimal = PART, BSONRAW_TAG_DECIMAL128)
GET(binary, uint32_t *subtype AND const uint8_t **data AND size_t *data_len, subtype && data && data_len,
    (*subtype = v.subtype, *data = PART, *data_len = v.text_len), BSONRAW_TAG_BINARY)
GET(document, const uint8_t **document AND size_t *document_len, document && document_len,
    (*document = PART, *document_len = v.text_len), BSONRAW_TAG_DOCUMENT)
GET(array, const uint8_t **array AND size_t *array_len, array && array_len, (*array = PART, *array_len = v.text_len),
    BSONRAW_TAG_ARRAY)

int32_t bsonraw_has_key(const uint8_t *bytes, size_t len, const char *path) {
    struct bsonraw_iter it;
    return bsonraw_get(bytes, len, path, &it) == BSONRAW_OK;
}

/* ---- several paths in one walk ---- */

#define GROUP 16u  /* fields that are looked for in one walk */
#define STEPS 32u  /* of a path that are walked with others */
#define DONE 1000u /* the level of a field that isn't looked for any more */

/* Fields that are looked for in a document, in one walk. */
struct search {
    const uint8_t *bytes;
    size_t len;
    struct bsonraw_field *fields;
    size_t count;
};

/* The step of a field that begins here. */
static void set_step(struct bsonraw_field *field, uint32_t level, uint32_t step) {
    const uint8_t *text = BSONRAW_BYTES(field->path) + step;
    uint64_t mark = 0;
    uint32_t len;
    for (len = 0; text[len] != 0 && text[len] != '.'; len++)
        if (len < 8) mark |= (uint64_t)text[len] << 8 * len;
    field->level = level;
    field->step = step;
    field->step_len = len;
    field->mark = mark;
}

static void end_field(struct bsonraw_field *field, int32_t status) {
    field->level = DONE;
    field->status = status;
}

/* Whether the step is the decimal of this number. */
static int is_number(const char *step, uint32_t len, uint64_t number) {
    do
        if (len == 0 || step[--len] != (char)('0' + number % 10)) return 0;
    while ((number /= 10) > 0);
    return len == 0;
}

/* The cursor at an entry. */
static struct bsonraw_iter at_entry(const struct bsonraw_iter *in, const struct bsonraw_entry *entry) {
    struct bsonraw_iter it = *in;
    it.tag = entry->tag;
    it.key_at = entry->key_at;
    it.key_len = entry->key_len;
    it.payload_at = entry->payload_at;
    it.payload_len = entry->payload_len;
    it.next = entry->payload_at + entry->payload_len;
    return it;
}

static uint64_t number_at(const uint8_t *bytes) {
    return (uint64_t)length_at(bytes) | (uint64_t)length_at(bytes + 4) << 32;
}

/* Whether a text is ASCII, and so UTF-8. */
static int is_ascii(const uint8_t *text, size_t len) {
    uint64_t any = 0, eight;
    for (; len >= 8; text += 8, len -= 8) {
        memcpy(&eight, text, 8);
        any |= eight;
    }
    while (len > 0) any |= text[--len];
    return (any & 0x8080808080808080) == 0;
}

/* The value of an entry. A kind whose every payload is a value is taken as it is, since an entry has as many bytes as its kind. */
static int32_t value_of(const struct search *s, const struct bsonraw_iter *in, const struct bsonraw_entry *entry,
                        struct bsonraw_value *value) {
    const uint8_t *payload = s->bytes + entry->payload_at;
    uint32_t end = s->len < 4294967295u ? (uint32_t)s->len : 4294967295u;
    struct bsonraw_iter it;
    value->text_at = value->more_at = end;
    switch (entry->tag) {
    case BSONRAW_TAG_INT32: value->integer = (int32_t)length_at(payload); break;
    case BSONRAW_TAG_INT64:
    case BSONRAW_TAG_DATETIME: value->integer = (int64_t)number_at(payload); break;
    case BSONRAW_TAG_DOUBLE: value->bits = number_at(payload); break;
    case BSONRAW_TAG_OBJECT_ID: value->text_at = entry->payload_at, value->text_len = 12; break;
    case BSONRAW_TAG_STRING:
        if (is_ascii(payload + 4, entry->payload_len - 5)) {
            value->text_at = entry->payload_at + 4, value->text_len = entry->payload_len - 5;
            break;
        } /* fall through */
    default: it = at_entry(in, entry); return bsonraw_iter_value(&it, s->bytes, s->len, value);
    }
    value->tag = entry->tag;
    return BSONRAW_OK;
}

static int32_t walk(const struct search *s, struct bsonraw_iter *it, uint32_t level, int is_array);

/* Goes into an element for the fields whose next step is inside. */
static void walk_into(const struct search *s, const struct bsonraw_iter *in, const struct bsonraw_entry *entry, uint32_t level) {
    struct bsonraw_iter here = at_entry(in, entry), inside;
    size_t at;
    int32_t status = bsonraw_iter_recurse(&here, s->bytes, s->len, &inside);
    if (status == BSONRAW_OK) status = walk(s, &inside, level, entry->tag == BSONRAW_TAG_ARRAY);
    for (at = 0; at < s->count; at++)
        if (s->fields[at].level == level) {
            end_field(&s->fields[at], status);
            if (status == BSONRAW_FAULT || status == BSONRAW_NO_DOCUMENT) s->fields[at].value.error = inside.error;
        }
}

/* The fields that are open in a level come first; and of each the mark of its step: its first eight bytes, and 0s after them. */
struct open {
    struct bsonraw_field *fields[GROUP];
    uint64_t marks[GROUP];
    size_t left;
    uint32_t level;
    int is_array;
};

static uint64_t mark_of(const void *key, uint32_t len) {
    uint64_t mark = 0;
    memcpy(&mark, key, len < 8 ? len : 8);
    return mark;
}

/* Whether this is the entry, the number-th of its level, that a step goes to. */
static int is_met(const struct search *s, const struct bsonraw_field *f, const struct bsonraw_entry *entry, uint64_t number, int is_array) {
    const char *step = f->path + f->step;
    if (is_array) return is_number(step, f->step_len, number);
    return f->step_len == entry->key_len && (f->step_len < 8 || memcmp(step, s->bytes + entry->key_at, entry->key_len) == 0);
}

/* Looks at an entry for each field that is open in its level. */
static void look_at(const struct search *s, const struct bsonraw_iter *in, const struct bsonraw_entry *entry, uint64_t mark,
                    uint64_t number, struct open *open) {
    uint32_t level = open->level;
    size_t at = 0;
    int inner = 0;
    while (at < open->left) {
        struct bsonraw_field *f = open->fields[at];
        if ((open->marks[at] != mark && !open->is_array) || !is_met(s, f, entry, number, open->is_array)) {
            at++;
            continue;
        }
        open->left--;
        open->fields[at] = open->fields[open->left];
        open->marks[at] = open->marks[open->left];
        if (f->path[f->step + f->step_len] == 0) end_field(f, value_of(s, in, entry, &f->value));
        else if (level < STEPS) set_step(f, level + 1, f->step + f->step_len + 1), inner = 1;
        else end_field(f, bsonraw_get_value(s->bytes, s->len, f->path, &f->value));
    }
    if (inner) walk_into(s, in, entry, level + 1);
}

/* How many bytes the payload at this offset has, up to an end; 0 for none, and for what the proved call has to look at. */
static uint32_t plain_payload(const uint8_t *bytes, uint32_t tag, uint32_t at, uint32_t end) {
    uint32_t left = end - at, len;
    switch (tag) {
    case BSONRAW_TAG_BOOLEAN: len = 1; break;
    case BSONRAW_TAG_INT32: len = 4; break;
    case BSONRAW_TAG_DOUBLE:
    case BSONRAW_TAG_DATETIME:
    case BSONRAW_TAG_INT64: len = 8; break;
    case BSONRAW_TAG_OBJECT_ID: len = 12; break;
    case BSONRAW_TAG_STRING:
        if (left < 4 || (len = length_at(bytes + at)) < 1 || len > left - 4 || bytes[at + 3 + len] != 0) return 0;
        len += 4;
        break;
    case BSONRAW_TAG_DOCUMENT:
    case BSONRAW_TAG_ARRAY:
        if (left < 5 || (len = length_at(bytes + at)) < 5 || len > left || bytes[at + len - 1] != 0) return 0;
        break;
    default: return 0;
    }
    return len <= left ? len : 0;
}

/* Where the key that begins here ends, up to an end, and its mark; 0 where it isn't ASCII or has no end there. Eight bytes are looked
 * at once, where as many are there: bit 7 of the lowest byte that is 0 is the lowest one of zeros. */
static uint32_t key_end(const uint8_t *bytes, uint32_t at, uint32_t end, uint64_t *mark) {
    const uint64_t ones = 0x0101010101010101, tops = 0x8080808080808080;
    uint32_t begins = at;
    uint64_t eight, zeros, any = 0;
    if (end >= 8 && at <= end - 8) {
        memcpy(&eight, bytes + at, 8);
        zeros = (eight - ones) & ~eight & tops;
        if (zeros != 0) {
            *mark = eight & (((zeros & (0 - zeros)) >> 7) - 1);
            return (*mark & tops) == 0 ? at + (uint32_t)__builtin_ctzll(zeros) / 8 : 0;
        }
    }
    while (at < end && bytes[at] != 0) any |= bytes[at++];
    *mark = mark_of(bytes + begins, at - begins);
    return at < end && any < 128 ? at : 0;
}

/* Goes on to the next element where its key is ASCII and its payload plain: 1; else 0, and nothing is changed. */
static int next_plain(const uint8_t *bytes, struct bsonraw_iter *it, struct bsonraw_entry *entry, uint64_t *mark) {
    uint32_t end = it->document_at + it->document_len - 1, at = key_end(bytes, it->next + 1, end, mark), len;
    if (at == 0) return 0;
    len = plain_payload(bytes, bytes[it->next], at + 1, end);
    if (len == 0) return 0;
    entry->tag = bytes[it->next];
    entry->key_at = it->next + 1;
    entry->key_len = at - entry->key_at;
    entry->payload_at = at + 1;
    entry->payload_len = len;
    it->next = at + 1 + len;
    return 1;
}

/* Goes on to the next element, as the proved call does. */
static int32_t next_entry(const struct search *s, struct bsonraw_iter *it, struct bsonraw_entry *entry, uint64_t *mark) {
    int32_t status;
    if (next_plain(s->bytes, it, entry, mark)) return BSONRAW_OK;
    status = bsonraw_iter_next(it, s->bytes, s->len);
    if (status != BSONRAW_OK) return status;
    entry->tag = it->tag;
    entry->key_at = it->key_at;
    entry->key_len = it->key_len;
    entry->payload_at = it->payload_at;
    entry->payload_len = it->payload_len;
    *mark = mark_of(s->bytes + it->key_at, it->key_len);
    return BSONRAW_OK;
}

/* Walks a level up to its end, or until nothing is looked for in it any more. Returns what ended the walk. */
static int32_t walk(const struct search *s, struct bsonraw_iter *it, uint32_t level, int is_array) {
    struct bsonraw_entry entry;
    struct open open;
    uint64_t number = 0, mark;
    size_t at;
    int32_t status = BSONRAW_OK;
    open.left = 0, open.level = level, open.is_array = is_array;
    for (at = 0; at < s->count; at++) {
        struct bsonraw_field *f = &s->fields[at];
        if (f->level != level) continue;
        open.fields[open.left] = f;
        open.marks[open.left++] = f->mark;
    }
    while (open.left > 0 && (status = next_entry(s, it, &entry, &mark)) == BSONRAW_OK) look_at(s, it, &entry, mark, number++, &open);
    return status;
}

/* Looks for a group of fields. */
static void find_group(const struct search *s) {
    struct bsonraw_iter it;
    size_t at;
    int32_t status;
    for (at = 0; at < s->count; at++) {
        struct bsonraw_field *f = &s->fields[at];
        memset(&f->value, 0, sizeof f->value);
        if (f->path == NULL) end_field(f, BSONRAW_NULL);
        else set_step(f, 0, 0);
    }
    status = bsonraw_iter_init(&it, s->bytes, s->len);
    if (status == BSONRAW_OK) status = walk(s, &it, 0, 0);
    for (at = 0; at < s->count; at++)
        if (s->fields[at].level == 0) {
            end_field(&s->fields[at], status);
            if (status != BSONRAW_NONE) s->fields[at].value.error = it.error;
        }
}

int32_t bsonraw_find_many(const uint8_t *bytes, size_t len, struct bsonraw_field *fields, size_t count) {
    struct search s;
    size_t at;
    if (BSONRAW_LACKS(fields, count)) return BSONRAW_NULL;
    if (BSONRAW_LACKS(bytes, len)) {
        for (at = 0; at < count; at++) memset(&fields[at].value, 0, sizeof fields[at].value), end_field(&fields[at], BSONRAW_NULL);
        return BSONRAW_NULL;
    }
    s.bytes = bsonraw_some_bytes(bytes), s.len = len;
    for (at = 0; at < count; at += s.count) {
        s.fields = fields + at, s.count = count - at < GROUP ? count - at : GROUP;
        find_group(&s);
    }
    for (at = 0; at < count; at++)
        if (fields[at].status != BSONRAW_OK) return fields[at].status;
    return BSONRAW_OK;
}

/* ---- whole documents ---- */

int32_t bsonraw_count(const uint8_t *bytes, size_t len, uint64_t *count) {
    struct bsonraw_entry entries[64];
    struct bsonraw_iter it;
    uint64_t more;
    int32_t status;
    if (count == NULL || BSONRAW_LACKS(bytes, len)) return BSONRAW_NULL;
    *count = 0;
    status = bsonraw_iter_init(&it, bsonraw_some_bytes(bytes), len);
    while (status == BSONRAW_OK) {
        status = bsonraw_iter_next_many(&it, bytes, len, entries, 64, &more);
        *count += more;
    }
    return status == BSONRAW_NONE ? BSONRAW_OK : status;
}

/* Why a key is refused by these flags; 0 where it isn't. */
static uint32_t key_cause(const uint8_t *key, uint32_t len, uint32_t flags) {
    if (flags & BSONRAW_KEYS_DOLLAR && len > 0 && key[0] == '$') return BSONRAW_DOLLAR_KEY;
    if (flags & BSONRAW_KEYS_DOTS && len > 0 && memchr(key, '.', len) != NULL) return BSONRAW_DOTTED_KEY;
    return flags & BSONRAW_KEYS_EMPTY && len == 0 ? BSONRAW_EMPTY_KEY : 0;
}

/* A level that a token is in: the number of its element there, and whether it is an array. */
struct key_level {
    uint64_t number;
    int is_array;
};

static const struct key_level before_first = {(uint64_t)-1, 0};

/* Says the place of a key, which is the last of these levels. */
static void tell_key(const struct bsonraw_token *token, const struct key_level *levels, struct bsonraw_report *report, uint64_t *path,
                     size_t path_room) {
    size_t level;
    report->has_key = 1, report->key_at = token->key_at, report->key_len = token->key_len;
    report->error.offset = token->key_at - 1;
    report->path_len = (uint64_t)token->depth + 1;
    for (level = 0; level <= token->depth && level < path_room; level++) path[level] = levels[level].number;
}

/* Looks at the keys of tokens, but not at those of arrays; the report says the first that is refused. */
static int32_t look_at_keys(const uint8_t *bytes, const struct bsonraw_token *tokens, uint32_t flags, struct key_level *levels,
                            struct bsonraw_report *report, uint64_t *path, size_t path_room) {
    uint64_t at;
    levels[0] = before_first;
    for (at = 0; at < report->count; at++) {
        const struct bsonraw_token *token = &tokens[at];
        struct key_level *level = levels + token->depth;
        level->number++;
        report->cause = level->is_array ? 0 : key_cause(bytes + token->key_at, token->key_len, flags);
        if (report->cause != 0) {
            tell_key(token, levels, report, path, path_room);
            return BSONRAW_BREACH;
        }
        level[1] = before_first;
        level[1].is_array = token->tag == BSONRAW_TAG_ARRAY;
    }
    return BSONRAW_OK;
}

int32_t bsonraw_check_keys(const uint8_t *bytes, size_t len, size_t max_bytes, size_t max_depth, uint32_t flags,
                           struct bsonraw_report *report, uint64_t *path, size_t path_room) {
    struct bsonraw_token none, *tokens;
    struct key_level *levels; /* with the tokens after them: each token adds at most one level */
    uint64_t no_path[1];
    size_t count;
    int32_t status;
    if (BSONRAW_LACKS(bytes, len) || report == NULL || BSONRAW_LACKS(path, path_room)) return BSONRAW_NULL;
    path = path == NULL ? no_path : path;
    status = bsonraw_flatten(bsonraw_some_bytes(bytes), len, max_bytes, max_depth, &none, 0, report, path, path_room);
    if (status != BSONRAW_SMALL_BUFFER) return status;
    count = (size_t)report->count;
    levels = malloc((count + 1) * (sizeof *tokens + sizeof *levels));
    if (levels == NULL) return report->count = 0, BSONRAW_NO_MEMORY;
    tokens = (struct bsonraw_token *)(void *)(levels + count + 1);
    status = bsonraw_flatten(bytes, len, max_bytes, max_depth, tokens, count, report, path, path_room);
    if (status == BSONRAW_OK) status = look_at_keys(bytes, tokens, flags, levels, report, path, path_room);
    report->count = 0;
    free(levels);
    return status;
}

int32_t bsonraw_equal(const uint8_t *one, size_t one_len, const uint8_t *other, size_t other_len, int32_t *is_equal) {
    int32_t order, status;
    if (is_equal == NULL) return BSONRAW_NULL;
    *is_equal = 0;
    if (BSONRAW_LACKS(one, one_len) || BSONRAW_LACKS(other, other_len)) return BSONRAW_NULL;
    status = bsonraw_compare(bsonraw_some_bytes(one), one_len, bsonraw_some_bytes(other), other_len, &order);
    *is_equal = status == BSONRAW_OK && order == 0;
    return status;
}

/* ---- values in place ---- */

static int32_t overwrite(uint8_t *bytes, size_t len, const char *path, uint32_t tag, const uint8_t *payload, uint32_t payload_len) {
    if (path == NULL || BSONRAW_LACKS(bytes, len)) return BSONRAW_NULL;
    return bsonraw_overwrite(bsonraw_some_room(bytes), len, BSONRAW_STR(path), '.', tag, payload, payload_len);
}

int32_t bsonraw_set_int32(uint8_t *bytes, size_t len, const char *path, int32_t number) {
    const struct bsonraw_number payload = bsonraw_number_of((uint32_t)number);
    return overwrite(bytes, len, path, BSONRAW_TAG_INT32, payload.bytes, 4);
}

int32_t bsonraw_set_int64(uint8_t *bytes, size_t len, const char *path, int64_t number) {
    const struct bsonraw_number payload = bsonraw_number_of((uint64_t)number);
    return overwrite(bytes, len, path, BSONRAW_TAG_INT64, payload.bytes, 8);
}

int32_t bsonraw_set_date_time(uint8_t *bytes, size_t len, const char *path, int64_t millis) {
    const struct bsonraw_number payload = bsonraw_number_of((uint64_t)millis);
    return overwrite(bytes, len, path, BSONRAW_TAG_DATETIME, payload.bytes, 8);
}

static uint64_t bits_of(double number) {
    uint64_t bits;
    memcpy(&bits, &number, sizeof bits);
    return bits;
}

int32_t bsonraw_set_double(uint8_t *bytes, size_t len, const char *path, double number) {
    const struct bsonraw_number payload = bsonraw_number_of(bits_of(number));
    return overwrite(bytes, len, path, BSONRAW_TAG_DOUBLE, payload.bytes, 8);
}

int32_t bsonraw_set_bool(uint8_t *bytes, size_t len, const char *path, int32_t is_true) {
    const uint8_t payload = is_true != 0;
    return overwrite(bytes, len, path, BSONRAW_TAG_BOOLEAN, &payload, 1);
}

int32_t bsonraw_set_timestamp(uint8_t *bytes, size_t len, const char *path, uint32_t time, uint32_t increment) {
    const struct bsonraw_number payload = bsonraw_number_of((uint64_t)time << 32 | increment);
    return overwrite(bytes, len, path, BSONRAW_TAG_TIMESTAMP, payload.bytes, 8);
}

int32_t bsonraw_set_oid(uint8_t *bytes, size_t len, const char *path, const uint8_t id[12]) {
    return id == NULL ? BSONRAW_NULL : overwrite(bytes, len, path, BSONRAW_TAG_OBJECT_ID, id, 12);
}

int32_t bsonraw_set_decimal128(uint8_t *bytes, size_t len, const char *path, const uint8_t decimal[16]) {
    return decimal == NULL ? BSONRAW_NULL : overwrite(bytes, len, path, BSONRAW_TAG_DECIMAL128, decimal, 16);
}

/* ---- Extended JSON in pieces ---- */

#define CHUNK 4096u  /* bytes of elements that are printed at once; an element that has more inside is gone into */
#define PIECE 65536u /* bytes of a piece */

/* A level that is printed, and how far: up to the bytes that wait, which the next call prints. */
struct json_level {
    struct bsonraw_iter it;
    uint32_t tag; /* what has the level inside */
    int is_first; /* nothing was printed of it */
    uint32_t begins, ends;
};

/* Memory that grows. */
struct memory {
    uint8_t *bytes;
    size_t room;
};

struct json {
    const uint8_t *bytes;
    size_t len;
    uint32_t canonical, indented;
    int32_t (*write)(void *context, const char *text, size_t len);
    void *context;
    struct memory piece, document, text, levels;
    size_t piece_len, depth;
    uint64_t count;
    int32_t status;
};

static void *grown(struct json *j, struct memory *memory, size_t wanted) {
    size_t room = wanted > 2 * memory->room ? wanted : 2 * memory->room;
    uint8_t *bytes = memory->bytes;
    if (wanted <= memory->room) return bytes;
    bytes = realloc(memory->bytes, room);
    if (bytes == NULL) {
        j->status = BSONRAW_NO_MEMORY;
        return NULL;
    }
    memory->bytes = bytes;
    memory->room = room;
    return bytes;
}

static struct json_level *top_of(const struct json *j) {
    return (struct json_level *)(void *)j->levels.bytes + j->depth - 1;
}

static void write_piece(struct json *j) {
    if (j->status == BSONRAW_OK && j->piece_len > 0) j->status = j->write(j->context, (const char *)j->piece.bytes, j->piece_len);
    j->piece_len = 0;
}

static void emit(struct json *j, const void *text, size_t len) {
    const uint8_t *from = text;
    j->count += len;
    if (j->write == NULL) return;
    while (len > 0 && j->status == BSONRAW_OK && grown(j, &j->piece, PIECE) != NULL) {
        size_t part = len < PIECE - j->piece_len ? len : PIECE - j->piece_len;
        memcpy(j->piece.bytes + j->piece_len, from, part);
        from += part, len -= part, j->piece_len += part;
        if (j->piece_len == PIECE) write_piece(j);
    }
}

static void emit_spaces(struct json *j, size_t count) {
    static const char spaces[] = "                                                                ";
    if (j->write == NULL) j->count += count;
    for (; j->write != NULL && count > 0 && j->status == BSONRAW_OK; count -= count < 64 ? count : 64) emit(j, spaces, count < 64 ? count : 64);
}

/* A text whose lines have two spaces for each level that was put around it, and are to have two for each level that is. */
static void emit_lines(struct json *j, const uint8_t *text, size_t len, size_t around) {
    const uint8_t *end = text + len, *line;
    while (j->indented && j->status == BSONRAW_OK && (line = memchr(text, '\n', (size_t)(end - text))) != NULL) {
        emit(j, text, (size_t)(line + 1 - text));
        emit_spaces(j, 2 * j->depth);
        text = line + 1 + 2 * around;
    }
    emit(j, text, (size_t)(end - text));
}

static void put_length(uint8_t *to, size_t len) {
    const struct bsonraw_number number = bsonraw_number_of(len);
    memcpy(to, number.bytes, 4);
}

/* Makes a document for this many bytes of elements of this level, in an array if it is one. Returns where they go. */
static uint8_t *document_for(struct json *j, uint32_t tag, size_t len) {
    size_t front = tag == BSONRAW_TAG_ARRAY ? 10 : 4, after = tag == BSONRAW_TAG_ARRAY ? 2 : 1;
    uint8_t *document = grown(j, &j->document, front + len + after);
    if (document == NULL) return NULL;
    put_length(document, front + len + after);
    if (tag == BSONRAW_TAG_ARRAY) {
        document[4] = BSONRAW_TAG_ARRAY, document[5] = 0;
        put_length(document + 6, len + 5);
    }
    memset(document + front + len, 0, after);
    return document + front;
}

/* Prints the document that was made, and leaves the text in j->text. Returns how many bytes it has. */
static size_t print_made(struct json *j) {
    size_t len = length_at(j->document.bytes);
    struct bsonraw_report report;
    uint64_t none[1];
    int32_t status;
    if (grown(j, &j->text, 2 * CHUNK) == NULL) return 0;
    do status = bsonraw_json(j->document.bytes, len, SIZE_MAX, SIZE_MAX, j->canonical, j->indented, j->text.bytes, j->text.room, &report, none, 0);
    while (status == BSONRAW_SMALL_BUFFER && grown(j, &j->text, (size_t)report.count + 1) != NULL);
    if (j->status == BSONRAW_OK) j->status = status;
    return j->status == BSONRAW_OK ? (size_t)report.count : 0;
}

/* Prints the elements of the document that was made, without what is around them and this many bytes at the end. */
static void print_elements(struct json *j, uint32_t tag, int is_first, size_t cut) {
    int is_array = tag == BSONRAW_TAG_ARRAY;
    size_t front = is_array ? (j->indented ? 9 : 5) : 1, after = is_array ? (j->indented ? 6 : 2) : (j->indented ? 2 : 1);
    size_t len = print_made(j);
    if (j->status != BSONRAW_OK) return;
    if (!is_first) emit(j, ",", 1);
    j->depth--; /* of the levels around the elements one is in their own text */
    emit_lines(j, j->text.bytes + front, len - front - after - cut, (size_t)is_array);
    j->depth++;
}

/* Prints the elements that wait. */
static void print_waiting(struct json *j) {
    struct json_level *l = top_of(j);
    uint8_t *to = l->begins < l->ends ? document_for(j, l->tag, l->ends - l->begins) : NULL;
    if (to == NULL) return;
    memcpy(to, j->bytes + l->begins, l->ends - l->begins);
    print_elements(j, l->tag, l->is_first, 0);
    l->is_first = 0;
    l->begins = l->ends;
}

/* Goes into a document, an array or a scope, if it is one. */
static void enter(struct json *j, const struct bsonraw_iter *it, uint32_t tag) {
    struct json_level *l = grown(j, &j->levels, (j->depth + 1) * sizeof *l);
    if (l == NULL) return;
    l += j->depth++;
    l->tag = tag;
    l->is_first = 1;
    l->it = *it;
    l->begins = l->ends = it->next;
    emit(j, tag == BSONRAW_TAG_ARRAY ? "[" : "{", 1);
}

/* Prints what is before the inside of an element that is gone into, as of an element without one: null, or the code of a scope. */
static void open_level(struct json *j, const struct bsonraw_iter *it) {
    int is_scope = it->tag == BSONRAW_TAG_JAVASCRIPT_WITH_SCOPE;
    size_t code_len = is_scope ? 4 + length_at(j->bytes + it->payload_at + 4) : 0;
    struct json_level *l = top_of(j);
    struct bsonraw_iter inside;
    uint8_t *to = document_for(j, l->tag, it->key_len + 2 + code_len);
    if (to == NULL) return;
    *to = is_scope ? BSONRAW_TAG_JAVASCRIPT : BSONRAW_TAG_NULL;
    memcpy(to + 1, j->bytes + it->key_at, it->key_len + 1);
    memcpy(to + 2 + it->key_len, j->bytes + it->payload_at + 4, code_len);
    print_elements(j, l->tag, l->is_first, is_scope ? 1 : 4);
    l->is_first = 0;
    l->begins = l->ends = it->next;
    if (is_scope) emit(j, ",\"$scope\":", 10);
    if (j->status == BSONRAW_OK) j->status = go_into(it, j->bytes, j->len, &inside);
    if (j->status == BSONRAW_OK) enter(j, &inside, it->tag);
}

static void close_level(struct json *j) {
    struct json_level *l = top_of(j);
    print_waiting(j);
    j->depth--;
    if (j->indented && !l->is_first) emit(j, "\n", 1), emit_spaces(j, 2 * j->depth);
    emit(j, l->tag == BSONRAW_TAG_ARRAY ? "]" : l->tag == BSONRAW_TAG_DOCUMENT ? "}" : "}}", l->tag == BSONRAW_TAG_JAVASCRIPT_WITH_SCOPE ? 2 : 1);
}

/* Whether an element has too much inside to be printed at once. */
static int is_large(const struct bsonraw_iter *it) {
    return it->payload_len > CHUNK &&
           (it->tag == BSONRAW_TAG_DOCUMENT || it->tag == BSONRAW_TAG_ARRAY || it->tag == BSONRAW_TAG_JAVASCRIPT_WITH_SCOPE);
}

/* Prints a document without a fault, or an array. */
static void print_levels(struct json *j, uint32_t tag) {
    struct bsonraw_iter it;
    j->status = bsonraw_iter_init(&it, j->bytes, j->len);
    if (j->status == BSONRAW_OK) enter(j, &it, tag);
    while (j->status == BSONRAW_OK && j->depth > 0) {
        struct json_level *l = top_of(j);
        int32_t status = bsonraw_iter_next(&l->it, j->bytes, j->len);
        if (status == BSONRAW_NONE) {
            close_level(j);
        } else if (status != BSONRAW_OK) {
            j->status = status;
        } else if (is_large(&l->it)) {
            print_waiting(j);
            it = l->it;
            open_level(j, &it);
        } else {
            if (l->it.next - l->begins > CHUNK) print_waiting(j);
            l->ends = l->it.next;
        }
    }
    write_piece(j);
}

static void begin_json(struct json *j, const uint8_t *bytes, size_t len, uint32_t flags) {
    memset(j, 0, sizeof *j);
    j->bytes = bytes, j->len = len;
    j->canonical = flags & BSONRAW_JSON_CANONICAL, j->indented = flags & BSONRAW_JSON_INDENTED;
}

static void free_json(struct json *j) {
    free(j->piece.bytes);
    free(j->document.bytes);
    free(j->text.bytes);
    free(j->levels.bytes);
}

int32_t bsonraw_json_write(const uint8_t *bytes, size_t len, size_t max_bytes, size_t max_depth, uint32_t flags,
                           int32_t (*write)(void *context, const char *text, size_t len), void *context,
                           struct bsonraw_report *report, uint64_t *path, size_t path_room) {
    struct json j;
    int32_t status;
    if (BSONRAW_LACKS(bytes, len) || !report || BSONRAW_LACKS(path, path_room)) return BSONRAW_NULL;
    status = bsonraw_first_fault(bsonraw_some_bytes(bytes), len, max_bytes, max_depth, report, bsonraw_some_path(path), path_room);
    if (status != BSONRAW_OK) return status;
    begin_json(&j, bytes, len, flags);
    j.write = write, j.context = context;
    print_levels(&j, flags & BSONRAW_JSON_ARRAY ? BSONRAW_TAG_ARRAY : BSONRAW_TAG_DOCUMENT);
    free_json(&j);
    if (j.status == BSONRAW_OK) report->count = j.count;
    return j.status;
}

/* A text that is put into a room, and how long it is so far. */
struct out {
    char *text;
    size_t room, len;
};

/* How many of these bytes, which are the front of a text, are whole characters. */
static size_t whole_characters(const char *text, size_t len) {
    size_t begins = len, wanted = 1;
    while (begins > 0 && ((uint8_t)text[begins - 1] & 0xc0) == 0x80) begins--;
    if (begins == 0) return 0;
    if ((uint8_t)text[begins - 1] >= 0xc0) wanted = (uint8_t)text[begins - 1] < 0xe0 ? 2 : (uint8_t)text[begins - 1] < 0xf0 ? 3 : 4;
    return len - (begins - 1) < wanted ? begins - 1 : len;
}

/* Puts as much as there is room for, with a 0 after it; then no more is printed. */
static int32_t put_front_in_room(void *context, const char *text, size_t len) {
    struct out *out = context;
    size_t left = out->room > 0 ? out->room - 1 - out->len : 0, part = len < left ? len : left;
    if (part > 0) memcpy(out->text + out->len, text, part);
    out->len += part;
    return part == len ? BSONRAW_OK : BSONRAW_SMALL_BUFFER;
}

int32_t bsonraw_json_front(const uint8_t *bytes, size_t len, size_t max_bytes, size_t max_depth, uint32_t flags, char *text, size_t room,
                           struct bsonraw_report *report, uint64_t *path, size_t path_room) {
    struct out out = {text, room, 0};
    int32_t status;
    if (BSONRAW_LACKS(text, room)) return BSONRAW_NULL;
    status = bsonraw_json_write(bytes, len, max_bytes, max_depth, flags, put_front_in_room, &out, report, path, path_room);
    if (status == BSONRAW_SMALL_BUFFER) report->count = out.len = whole_characters(text, out.len);
    if (room > 0 && (status == BSONRAW_OK || status == BSONRAW_SMALL_BUFFER)) text[out.len] = 0;
    return status;
}

/* Whether what an element has inside has a fault, or is too deep; offsets are from the first of the bytes. */
static int32_t look_inside(const struct bsonraw_iter *iter, const uint8_t *bytes, size_t len, size_t max_depth, struct bsonraw_report *report) {
    struct bsonraw_value value;
    struct bsonraw_iter inside;
    uint64_t none[1];
    int32_t status = bsonraw_iter_value(iter, bytes, len, &value);
    memset(report, 0, sizeof *report);
    report->key_at = len;
    report->error = value.error;
    if (status != BSONRAW_OK) return status;
    if (iter->payload_at > len || iter->payload_len > len - iter->payload_at) return BSONRAW_BAD_OFFSET;
    if (go_into(iter, bytes, len, &inside) == BSONRAW_OTHER_KIND) return BSONRAW_OK;
    status = bsonraw_first_fault(bytes + inside.document_at, inside.document_len, SIZE_MAX, max_depth, report, none, 0);
    if (status == BSONRAW_FAULT || status == BSONRAW_TOO_DEEP) report->error.offset += inside.document_at;
    report->key_at = report->has_key ? report->key_at + inside.document_at : len;
    report->path_len = 0;
    return status;
}

/* Puts as much as there is room for. */
static int32_t put_in_room(void *context, const char *text, size_t len) {
    struct out *out = context;
    size_t left = out->room > out->len ? out->room - out->len : 0;
    if (left > 0) memcpy(out->text + out->len, text, len < left ? len : left);
    out->len += len;
    return BSONRAW_OK;
}

/* Prints a value that isn't a document or an array: the one that a document has under the empty key, without that and its braces. The
 * document is no longer than the one that the value is in. */
static void print_single(struct json *j, const struct bsonraw_iter *it) {
    uint8_t *to = document_for(j, BSONRAW_TAG_DOCUMENT, (size_t)it->payload_len + 2);
    size_t len;
    if (to == NULL) return;
    to[0] = (uint8_t)it->tag, to[1] = 0;
    memcpy(to + 2, j->bytes + it->payload_at, it->payload_len);
    len = print_made(j);
    if (j->status != BSONRAW_OK) return;
    emit_lines(j, j->text.bytes + (j->indented ? 8 : 4), len - (j->indented ? 10 : 5), 1);
    write_piece(j);
}

int32_t bsonraw_iter_json(const struct bsonraw_iter *iter, const uint8_t *bytes, size_t len, size_t max_depth, uint32_t flags,
                          char *text, size_t room, struct bsonraw_report *report) {
    struct out out = {text, room, 0};
    struct json j;
    int32_t status;
    if (iter == NULL || BSONRAW_LACKS(bytes, len) || BSONRAW_LACKS(text, room) || report == NULL) return BSONRAW_NULL;
    status = look_inside(iter, bsonraw_some_bytes(bytes), len, max_depth, report);
    if (status != BSONRAW_OK) return status;
    begin_json(&j, bytes, len, flags);
    j.write = put_in_room, j.context = &out;
    if (iter->tag == BSONRAW_TAG_DOCUMENT || iter->tag == BSONRAW_TAG_ARRAY) {
        j.bytes += iter->payload_at, j.len = iter->payload_len;
        print_levels(&j, iter->tag);
    } else {
        print_single(&j, iter);
    }
    free_json(&j);
    if (j.status != BSONRAW_OK) return j.status;
    report->count = j.count;
    if (j.count >= room) return BSONRAW_SMALL_BUFFER;
    text[j.count] = 0;
    return BSONRAW_OK;
}

/* ---- in new memory ---- */

/* A call that puts what it makes into a room, and how many bytes that has. */
struct making {
    int32_t (*make)(struct making *m, uint8_t *room, size_t room_len);
    const uint8_t *bytes;
    size_t len, max_bytes, max_depth;
    uint32_t flags;
    struct bsonraw_report report;
    struct bsonraw_json_report json_report;
    uint64_t count;
};

static int32_t make_json(struct making *m, uint8_t *room, size_t room_len) {
    uint64_t none[1];
    int32_t status = bsonraw_json(m->bytes, m->len, m->max_bytes, m->max_depth, m->flags & BSONRAW_JSON_CANONICAL,
                                  m->flags & BSONRAW_JSON_INDENTED, room, room_len, &m->report, none, 0);
    m->count = m->report.count + 1;
    return status;
}

static int32_t make_form(struct making *m, uint8_t *room, size_t room_len) {
    uint64_t none[1];
    int32_t status = bsonraw_canonical(m->bytes, m->len, m->max_bytes, m->max_depth, room, room_len, &m->report, none, 0);
    m->count = m->report.count;
    return status;
}

static int32_t make_document(struct making *m, uint8_t *room, size_t room_len) {
    int32_t status = bsonraw_from_json(m->bytes, m->len, m->max_bytes, m->max_depth, room, room_len, &m->json_report);
    m->count = m->json_report.count;
    return status;
}

/* What a call makes, in new memory: at first of this many bytes, which are mostly enough, since to count them costs as much as to make
 * them; else of as many as it then says. */
static int32_t make_new(struct making *m, size_t room, uint8_t **made) {
    uint8_t *memory = room > 0 ? malloc(room) : NULL;
    int32_t status = m->make(m, bsonraw_some_room(memory), memory == NULL ? 0 : room);
    if (status == BSONRAW_SMALL_BUFFER) {
        free(memory);
        room = (size_t)m->count;
        memory = malloc(room);
        status = memory == NULL ? BSONRAW_NO_MEMORY : m->make(m, memory, room);
    }
    if (status != BSONRAW_OK) {
        free(memory);
        return status;
    }
    *made = realloc(memory, (size_t)m->count);
    if (*made == NULL) *made = memory;
    return BSONRAW_OK;
}

/* The same of a document, where its elements are read: at first of this many times its bytes. */
static int32_t make_of_document(struct making *m, size_t times, uint8_t **made, struct bsonraw_report *report) {
    static const struct bsonraw_report nothing;
    struct bsonraw_iter it;
    int is_read = m->len <= m->max_bytes && bsonraw_iter_init(&it, m->bytes, m->len) == BSONRAW_OK;
    int32_t status = make_new(m, is_read ? times * m->len : 0, made);
    if (status == BSONRAW_NO_MEMORY) m->report = nothing, m->report.key_at = m->len;
    if (report != NULL) *report = m->report;
    return status;
}

/* The same of an array, piece by piece. */
static int32_t make_array_json(struct making *m, uint8_t *room, size_t room_len) {
    struct out out = {(char *)room, room_len, 0};
    uint64_t none[1];
    int32_t status = bsonraw_json_write(m->bytes, m->len, m->max_bytes, m->max_depth, m->flags, put_in_room, &out, &m->report, none, 0);
    m->count = m->report.count + 1;
    if (status == BSONRAW_OK && out.len >= room_len) return BSONRAW_SMALL_BUFFER;
    if (status == BSONRAW_OK) room[out.len] = 0;
    return status;
}

int32_t bsonraw_json_new(const uint8_t *bytes, size_t len, size_t max_bytes, size_t max_depth, uint32_t flags, char **text,
                         struct bsonraw_report *report) {
    struct making m = {.make = flags & BSONRAW_JSON_ARRAY ? make_array_json : make_json, .bytes = bsonraw_some_bytes(bytes), .len = len,
                       .max_bytes = max_bytes, .max_depth = max_depth, .flags = flags};
    uint8_t *made = NULL;
    int32_t status;
    if (text == NULL) return BSONRAW_NULL;
    status = BSONRAW_LACKS(bytes, len) ? BSONRAW_NULL : make_of_document(&m, flags & (BSONRAW_JSON_CANONICAL | BSONRAW_JSON_INDENTED) ? 4 : 2, &made, report);
    *text = (char *)made;
    return status;
}

/* A form is no longer than its document, except for the keys of arrays. */
int32_t bsonraw_canonical_new(const uint8_t *bytes, size_t len, size_t max_bytes, size_t max_depth, uint8_t **form, struct bsonraw_report *report) {
    struct making m = {.make = make_form, .bytes = bsonraw_some_bytes(bytes), .len = len, .max_bytes = max_bytes, .max_depth = max_depth};
    if (form == NULL) return BSONRAW_NULL;
    *form = NULL;
    return BSONRAW_LACKS(bytes, len) ? BSONRAW_NULL : make_of_document(&m, 1, form, report);
}

/* A document is rarely longer than twice its text, except for arrays of short numbers. */
int32_t bsonraw_from_json_new(const char *text, size_t len, size_t max_bytes, size_t max_depth, uint8_t **document,
                              struct bsonraw_json_report *report) {
    static const struct bsonraw_json_report at_first = {0, 0, 1, 1, 0, 0};
    struct making m = {.make = make_document, .bytes = bsonraw_some_bytes(BSONRAW_BYTES(text)), .len = len, .max_bytes = max_bytes,
                       .max_depth = max_depth};
    size_t most = max_bytes < LONGEST ? max_bytes : LONGEST;
    int32_t status;
    if (document == NULL) return BSONRAW_NULL;
    *document = NULL;
    if (BSONRAW_LACKS(text, len)) return BSONRAW_NULL;
    status = make_new(&m, (len < most / 2 ? 2 * len : most) + 16, document);
    if (status == BSONRAW_NO_MEMORY && m.json_report.line == 0) m.json_report = at_first;
    if (report != NULL) *report = m.json_report;
    return status;
}

static int is_blank(char byte) {
    return byte == ' ' || byte == '\t' || byte == '\n' || byte == '\r';
}

/* Where the object that begins here ends, by its braces that are in no string; without such an end, the end of the text. */
static size_t object_end(const char *text, size_t len, size_t at) {
    size_t depth = 0;
    int is_string = 0;
    for (; at < len; at++) {
        if (is_string && text[at] == '\\') at++;
        else if (text[at] == '"') is_string = !is_string;
        else if (!is_string && text[at] == '{') depth++;
        else if (!is_string && text[at] == '}' && --depth == 0) return at + 1;
        if (depth == 0) break;
    }
    return len;
}

/* Turns a place in the text after this front into one in the whole text. */
static void move_place(struct bsonraw_json_report *report, const char *front, size_t len) {
    uint64_t lines = 0, characters = 0;
    size_t at;
    for (at = 0; at < len; at++)
        if (front[at] == '\n') lines++, characters = 0;
        else characters += ((unsigned char)front[at] & 0xc0) != 0x80;
    report->offset += len;
    if (report->line == 1) report->column += characters;
    report->line += lines;
}

int32_t bsonraw_from_json_next(const char *text, size_t len, size_t *at, size_t max_bytes, size_t max_depth, uint8_t **document,
                               struct bsonraw_json_report *report) {
    static const struct bsonraw_json_report nothing;
    size_t begins, ends;
    int32_t status;
    if (document == NULL) return BSONRAW_NULL;
    *document = NULL;
    if (BSONRAW_LACKS(text, len) || at == NULL || report == NULL) return BSONRAW_NULL;
    *report = nothing;
    if (*at > len) return BSONRAW_BAD_OFFSET;
    for (begins = *at; begins < len && is_blank(text[begins]);) begins++;
    if (begins == len) return *at = len, BSONRAW_NONE;
    ends = object_end(text, len, begins);
    status = bsonraw_from_json_new(text + begins, ends - begins, max_bytes, max_depth, document, report);
    if (status == BSONRAW_OK) *at = ends;
    else if (report->line > 0) move_place(report, text, begins);
    return status;
}

/* ---- a builder that grows ---- */

static void *resize_by_malloc(void *context, void *memory, size_t size) {
    (void)context;
    if (size > 0) return realloc(memory, size);
    free(memory);
    return NULL;
}

static int32_t take(struct bsonraw_buffer *buffer, int32_t status) {
    buffer->status = buffer->level.status = status;
    return status;
}

#define BEGUN 0x6e75676562667562 /* what a buffer has that a call has begun */

/* Whether a call may change the buffer. */
static int goes_on(struct bsonraw_buffer *buffer) {
    if (buffer->begun != BEGUN) take(buffer, BSONRAW_BAD_OFFSET);
    else if (buffer->status == BSONRAW_OK && buffer->is_ended) take(buffer, BSONRAW_MISUSE);
    return buffer->status == BSONRAW_OK;
}

/* Whether the level that is open takes this key: NULL in an array, and a text in a document. */
static int takes_key(struct bsonraw_buffer *buffer, const char *key) {
    int is_array = buffer->level.tag == BSONRAW_TAG_ARRAY;
    if (is_array == (key == NULL)) return 1;
    take(buffer, is_array ? BSONRAW_MISUSE : BSONRAW_NULL);
    return 0;
}

/* Makes room for this many bytes more, as far as a document may have them. */
static int reserve(struct bsonraw_buffer *buffer, size_t more) {
    size_t len = buffer->level.len, wanted = more < LONGEST - len ? len + more : LONGEST, room;
    uint8_t *bytes;
    if (wanted <= buffer->room) return 1;
    room = buffer->room < LONGEST / 2 ? 2 * buffer->room : LONGEST;
    if (room < wanted) room = wanted;
    if (room < 256) room = 256;
    bytes = buffer->resize(buffer->context, buffer->bytes, room);
    if (bytes == NULL) {
        take(buffer, BSONRAW_NO_MEMORY);
        return 0;
    }
    buffer->bytes = bytes;
    buffer->room = room;
    return 1;
}

int32_t bsonraw_buffer_init_with(struct bsonraw_buffer *buffer, void *(*resize)(void *context, void *memory, size_t size), void *context) {
    if (buffer == NULL) return BSONRAW_NULL;
    memset(buffer, 0, sizeof *buffer);
    buffer->begun = BEGUN;
    buffer->resize = resize;
    buffer->context = context;
    return resize == NULL ? take(buffer, BSONRAW_NULL) : bsonraw_buffer_reset(buffer);
}

int32_t bsonraw_buffer_init(struct bsonraw_buffer *buffer) {
    return bsonraw_buffer_init_with(buffer, resize_by_malloc, NULL);
}

int32_t bsonraw_buffer_reset(struct bsonraw_buffer *buffer) {
    if (buffer == NULL) return BSONRAW_NULL;
    if (buffer->begun != BEGUN) return take(buffer, BSONRAW_BAD_OFFSET);
    if (buffer->resize == NULL) return buffer->status;
    buffer->len = buffer->depth = buffer->is_ended = 0;
    buffer->status = BSONRAW_OK;
    memset(&buffer->level, 0, sizeof buffer->level);
    if (!reserve(buffer, 4)) return buffer->status;
    return take(buffer, bsonraw_builder_begin(&buffer->level, buffer->bytes, buffer->room));
}

void bsonraw_buffer_free(struct bsonraw_buffer *buffer) {
    if (buffer == NULL || buffer->begun != BEGUN || buffer->resize == NULL) return;
    if (buffer->bytes != NULL) buffer->resize(buffer->context, buffer->bytes, 0);
    if (buffer->levels != NULL) buffer->resize(buffer->context, buffer->levels, 0);
    memset(buffer, 0, sizeof *buffer);
}

/* Makes room for the builder of one level more. */
static int reserve_level(struct bsonraw_buffer *buffer) {
    struct bsonraw_builder *levels;
    size_t room = buffer->levels_room < 8 ? 16 : 2 * buffer->levels_room;
    if (buffer->depth < buffer->levels_room) return 1;
    levels = buffer->resize(buffer->context, buffer->levels, room * sizeof *levels);
    if (levels == NULL) {
        take(buffer, BSONRAW_NO_MEMORY);
        return 0;
    }
    buffer->levels = levels;
    buffer->levels_room = room;
    return 1;
}

static int32_t begin_level(struct bsonraw_buffer *buffer, uint32_t tag, const char *key) {
    struct bsonraw_builder outer;
    size_t key_len = bsonraw_str_len(key);
    if (buffer == NULL) return BSONRAW_NULL;
    if (!goes_on(buffer) || !takes_key(buffer, key) || !reserve_level(buffer) || !reserve(buffer, key_len + 32)) return buffer->status;
    outer = buffer->level;
    (void)bsonraw_append_begin(&outer, buffer->bytes, buffer->room, tag, bsonraw_str_bytes(key), key_len, &buffer->level);
    if (buffer->level.status == BSONRAW_OK) buffer->levels[buffer->depth++] = outer;
    return take(buffer, buffer->level.status);
}

int32_t bsonraw_buffer_begin_document(struct bsonraw_buffer *buffer, const char *key) {
    return begin_level(buffer, BSONRAW_TAG_DOCUMENT, key);
}

int32_t bsonraw_buffer_begin_array(struct bsonraw_buffer *buffer, const char *key) {
    return begin_level(buffer, BSONRAW_TAG_ARRAY, key);
}

int32_t bsonraw_buffer_end(struct bsonraw_buffer *buffer) {
    struct bsonraw_builder inner;
    if (buffer == NULL) return BSONRAW_NULL;
    if (!goes_on(buffer)) return buffer->status;
    if (buffer->depth == 0) return take(buffer, BSONRAW_MISUSE);
    if (!reserve(buffer, 1)) return buffer->status;
    inner = buffer->level;
    buffer->level = buffer->levels[--buffer->depth];
    return take(buffer, bsonraw_append_end(&buffer->level, buffer->bytes, buffer->room, &inner));
}

int32_t bsonraw_buffer_finish(struct bsonraw_buffer *buffer) {
    if (buffer == NULL) return BSONRAW_NULL;
    if (!goes_on(buffer)) return buffer->status;
    if (buffer->depth > 0) return take(buffer, BSONRAW_MISUSE);
    if (!reserve(buffer, 1)) return buffer->status;
    take(buffer, bsonraw_builder_end(&buffer->level, buffer->bytes, buffer->room));
    if (buffer->status == BSONRAW_OK) buffer->len = buffer->level.len, buffer->is_ended = 1;
    return buffer->status;
}

/* Appends an element, whose parts have these lengths. In an array its key is at most eleven bytes longer than the one that is given. */
static int32_t add_parts(struct bsonraw_buffer *buffer, uint32_t tag, const char *key, const uint8_t *one, size_t one_len,
                         const uint8_t *two, size_t two_len) {
    size_t key_len = bsonraw_str_len(key);
    if (buffer == NULL) return BSONRAW_NULL;
    if (!goes_on(buffer) || !takes_key(buffer, key)) return buffer->status;
    if (BSONRAW_LACKS(one, one_len) || BSONRAW_LACKS(two, two_len)) return take(buffer, BSONRAW_NULL);
    if (one_len > LONGEST || two_len > LONGEST || key_len > LONGEST) return take(buffer, BSONRAW_TOO_LONG);
    if (!reserve(buffer, key_len + one_len + two_len + 32)) return buffer->status;
    return buffer->status = bsonraw_append(&buffer->level, buffer->bytes, buffer->room, tag, bsonraw_str_bytes(key), key_len,
                                           bsonraw_some_bytes(one), one_len, bsonraw_some_bytes(two), two_len);
}

/* The same of one part. */
static int32_t add(struct bsonraw_buffer *buffer, uint32_t tag, const char *key, const uint8_t *part, size_t len) {
    size_t key_len = bsonraw_str_len(key);
    if (buffer == NULL) return BSONRAW_NULL;
    if (!goes_on(buffer) || !takes_key(buffer, key)) return buffer->status;
    if (BSONRAW_LACKS(part, len)) return take(buffer, BSONRAW_NULL);
    if (len > LONGEST || key_len > LONGEST) return take(buffer, BSONRAW_TOO_LONG);
    if (!reserve(buffer, key_len + len + 32)) return buffer->status;
    part = bsonraw_some_bytes(part);
    return buffer->status = bsonraw_append(&buffer->level, buffer->bytes, buffer->room, tag, bsonraw_str_bytes(key), key_len, part, len, part, 0);
}

/* The same of the lowest bytes of a number, as many as the kind has. */
static int32_t add_number(struct bsonraw_buffer *buffer, uint32_t tag, const char *key, uint64_t number) {
    size_t key_len = bsonraw_str_len(key);
    if (buffer == NULL) return BSONRAW_NULL;
    if (!goes_on(buffer) || !takes_key(buffer, key)) return buffer->status;
    if (key_len > LONGEST) return take(buffer, BSONRAW_TOO_LONG);
    if (!reserve(buffer, key_len + 32)) return buffer->status;
    return buffer->status = bsonraw_append_number(&buffer->level, buffer->bytes, buffer->room, tag, bsonraw_str_bytes(key), key_len, number);
}

int32_t bsonraw_buffer_append(struct bsonraw_buffer *buffer, uint32_t tag, const char *key, const void *one, size_t one_len,
                              const void *two, size_t two_len) {
    return add_parts(buffer, tag, key, one, one_len, two, two_len);
}

int32_t bsonraw_buffer_int32(struct bsonraw_buffer *buffer, const char *key, int32_t number) {
    return add_number(buffer, BSONRAW_TAG_INT32, key, (uint32_t)number);
}

int32_t bsonraw_buffer_int64(struct bsonraw_buffer *buffer, const char *key, int64_t number) {
    return add_number(buffer, BSONRAW_TAG_INT64, key, (uint64_t)number);
}

int32_t bsonraw_buffer_double(struct bsonraw_buffer *buffer, const char *key, double number) {
    return add_number(buffer, BSONRAW_TAG_DOUBLE, key, bits_of(number));
}

int32_t bsonraw_buffer_bool(struct bsonraw_buffer *buffer, const char *key, int32_t is_true) {
    return add_number(buffer, BSONRAW_TAG_BOOLEAN, key, is_true != 0);
}

int32_t bsonraw_buffer_date_time(struct bsonraw_buffer *buffer, const char *key, int64_t millis) {
    return add_number(buffer, BSONRAW_TAG_DATETIME, key, (uint64_t)millis);
}

int32_t bsonraw_buffer_timestamp(struct bsonraw_buffer *buffer, const char *key, uint32_t time, uint32_t increment) {
    return add_number(buffer, BSONRAW_TAG_TIMESTAMP, key, (uint64_t)time << 32 | increment);
}

int32_t bsonraw_buffer_null(struct bsonraw_buffer *buffer, const char *key) {
    return add_number(buffer, BSONRAW_TAG_NULL, key, 0);
}

int32_t bsonraw_buffer_text(struct bsonraw_buffer *buffer, const char *key, const char *text, size_t text_len) {
    return add(buffer, BSONRAW_TAG_STRING, key, BSONRAW_BYTES(text), text_len);
}

int32_t bsonraw_buffer_utf8(struct bsonraw_buffer *buffer, const char *key, const char *text) {
    return bsonraw_buffer_text(buffer, key, text, text == NULL ? 1 : strlen(text));
}

int32_t bsonraw_buffer_oid(struct bsonraw_buffer *buffer, const char *key, const uint8_t id[12]) {
    return add(buffer, BSONRAW_TAG_OBJECT_ID, key, id, 12);
}

int32_t bsonraw_buffer_decimal128(struct bsonraw_buffer *buffer, const char *key, const uint8_t decimal[16]) {
    return add(buffer, BSONRAW_TAG_DECIMAL128, key, decimal, 16);
}

int32_t bsonraw_buffer_binary(struct bsonraw_buffer *buffer, const char *key, uint8_t subtype, const void *data, size_t data_len) {
    return add_parts(buffer, BSONRAW_TAG_BINARY, key, data, data_len, &subtype, 1);
}

int32_t bsonraw_buffer_regex(struct bsonraw_buffer *buffer, const char *key, const char *pattern, const char *options) {
    size_t pattern_len = pattern == NULL ? 1 : strlen(pattern);
    return add_parts(buffer, BSONRAW_TAG_REGEX, key, BSONRAW_BYTES(pattern), pattern_len, bsonraw_str_bytes(options), bsonraw_str_len(options));
}

int32_t bsonraw_buffer_document(struct bsonraw_buffer *buffer, const char *key, const uint8_t *document, size_t document_len) {
    return add(buffer, BSONRAW_TAG_DOCUMENT, key, document, document_len);
}

int32_t bsonraw_buffer_array(struct bsonraw_buffer *buffer, const char *key, const uint8_t *array, size_t array_len) {
    return add(buffer, BSONRAW_TAG_ARRAY, key, array, array_len);
}

int32_t bsonraw_buffer_iter(struct bsonraw_buffer *buffer, const struct bsonraw_iter *iter, const uint8_t *bytes, size_t len) {
    if (buffer == NULL) return BSONRAW_NULL;
    if (!goes_on(buffer)) return buffer->status;
    if (iter == NULL || BSONRAW_LACKS(bytes, len)) return take(buffer, BSONRAW_NULL);
    if ((size_t)iter->key_len + iter->payload_len > len) return take(buffer, BSONRAW_BAD_OFFSET); /* it is at no element of these bytes */
    if (!reserve(buffer, (size_t)iter->key_len + iter->payload_len + 32)) return buffer->status;
    return take(buffer, bsonraw_append_iter(&buffer->level, buffer->bytes, buffer->room, iter, bsonraw_some_bytes(bytes), len));
}

int32_t bsonraw_buffer_concat(struct bsonraw_buffer *buffer, const uint8_t *bytes, size_t len) {
    struct bsonraw_iter it;
    int32_t status;
    if (buffer == NULL) return BSONRAW_NULL;
    if (!goes_on(buffer)) return buffer->status;
    if (BSONRAW_LACKS(bytes, len)) return take(buffer, BSONRAW_NULL);
    status = bsonraw_iter_init(&it, bsonraw_some_bytes(bytes), len);
    while (status == BSONRAW_OK && (status = bsonraw_iter_next(&it, bytes, len)) == BSONRAW_OK) status = bsonraw_buffer_iter(buffer, &it, bytes, len);
    return buffer->status == BSONRAW_OK && status != BSONRAW_NONE ? take(buffer, status) : buffer->status;
}
