/* The library with one mistake, whose number is MISTAKE: what the tests have to notice. The right functions are renamed. */
#define BSONRAW_UNCHECKED
#include <bsonraw.h>

#include <stdlib.h>
#include <string.h>

uint32_t right_version(void);
int32_t right_canonical(const uint8_t *bytes, size_t len, size_t max_bytes, size_t max_depth, uint8_t *form, size_t form_len,
                        struct bsonraw_report *report, uint64_t *path, size_t path_room);
int32_t right_json(const uint8_t *bytes, size_t len, size_t max_bytes, size_t max_depth, uint32_t canonical, uint32_t indented,
                   uint8_t *text, size_t text_len, struct bsonraw_report *report, uint64_t *path, size_t path_room);
int32_t right_first_fault(const uint8_t *bytes, size_t len, size_t max_bytes, size_t max_depth, struct bsonraw_report *report,
                          uint64_t *path, size_t path_room);
int32_t right_check(const uint8_t *bytes, size_t len, size_t max_bytes, size_t max_depth, struct bsonraw_report *report,
                    uint64_t *path, size_t path_room);
int32_t right_iter_init_find(struct bsonraw_iter *iter, const uint8_t *bytes, size_t len, const uint8_t *key, size_t key_len);
int32_t right_iter_init(struct bsonraw_iter *iter, const uint8_t *bytes, size_t len);
int32_t right_iter_init_at(struct bsonraw_iter *iter, const uint8_t *bytes, size_t len, uint32_t document_at,
                           uint32_t document_len);
int32_t right_iter_recurse(const struct bsonraw_iter *iter, const uint8_t *bytes, size_t len, struct bsonraw_iter *child);
int32_t right_iter_next(struct bsonraw_iter *iter, const uint8_t *bytes, size_t len);
int32_t right_iter_find(struct bsonraw_iter *iter, const uint8_t *bytes, size_t len, const uint8_t *key, size_t key_len);
int32_t right_iter_find_descendant(struct bsonraw_iter *iter, const uint8_t *bytes, size_t len, const uint8_t *path,
                                   size_t path_len, uint8_t separator);
int32_t right_iter_init_find_descendant(struct bsonraw_iter *iter, const uint8_t *bytes, size_t len, const uint8_t *path,
                                        size_t path_len, uint8_t separator);
int32_t right_iter_next_many(struct bsonraw_iter *iter, const uint8_t *bytes, size_t len, struct bsonraw_entry *entries,
                             size_t room, uint64_t *count);
int32_t right_value_at(const uint8_t *bytes, size_t len, const uint8_t *path, size_t path_len, uint8_t separator,
                       const uint32_t *tags, size_t count, struct bsonraw_value *value);
int32_t right_iter_value(const struct bsonraw_iter *iter, const uint8_t *bytes, size_t len, struct bsonraw_value *value);
int32_t right_overwrite(uint8_t *bytes, size_t len, const uint8_t *path, size_t path_len, uint8_t separator, uint32_t tag,
                        const uint8_t *payload, size_t payload_len);
int32_t right_compare(const uint8_t *one, size_t one_len, const uint8_t *other, size_t other_len, int32_t *order);
int32_t right_reader_read(struct bsonraw_reader *reader, const uint8_t *bytes, size_t len);
int32_t right_flatten(const uint8_t *bytes, size_t len, size_t max_bytes, size_t max_depth, struct bsonraw_token *tokens,
                      size_t room, struct bsonraw_report *report, uint64_t *path, size_t path_room);
int32_t right_reader_resync(struct bsonraw_reader *reader, const uint8_t *bytes, size_t len, size_t max_bytes, size_t max_depth,
                            struct bsonraw_resync *resync);
int32_t right_from_json(const uint8_t *text, size_t len, size_t max_bytes, size_t max_depth, uint8_t *document, size_t document_len,
                        struct bsonraw_json_report *report);
int sched_yield(void);

uint32_t bsonraw_version(void) {
    return right_version();
}

/* 1: a byte after the document is read. */
int32_t bsonraw_iter_init(struct bsonraw_iter *iter, const uint8_t *bytes, size_t len) {
    const volatile uint8_t *after = bytes + len;
    if (MISTAKE == 1 && *after == 1) len++;
    return right_iter_init(iter, bytes, len);
}

/* 2: the cursor passes through memory that all threads share. */
int32_t bsonraw_iter_init_find(struct bsonraw_iter *iter, const uint8_t *bytes, size_t len, const uint8_t *key, size_t key_len) {
    static struct bsonraw_iter shared;
    int32_t status = right_iter_init_find(iter, bytes, len, key, key_len);
    if (MISTAKE != 2) return status;
    shared = *iter;
    sched_yield();
    *iter = shared;
    return status;
}

/* 3: a byte after the form is written. 4: a part of the form is written where it doesn't fit. 20: the form is the document. */
int32_t bsonraw_canonical(const uint8_t *bytes, size_t len, size_t max_bytes, size_t max_depth, uint8_t *form, size_t form_len,
                          struct bsonraw_report *report, uint64_t *path, size_t path_room) {
    int32_t status = right_canonical(bytes, len, max_bytes, max_depth, form, form_len, report, path, path_room);
    if (MISTAKE == 3 && status == BSONRAW_OK) form[report->count] = 0;
    if (MISTAKE == 4 && status == BSONRAW_SMALL_BUFFER) memset(form, 0, form_len);
    if (MISTAKE == 20 && status == BSONRAW_OK && len == report->count) memcpy(form, bytes, len);
    return status;
}

/* 23: a byte after the text and its 0 is written. 24: the flags are swapped. 25: only 1 sets a flag.
 * 26: the text passes through memory that all threads share. */
int32_t bsonraw_json(const uint8_t *bytes, size_t len, size_t max_bytes, size_t max_depth, uint32_t canonical,
                     uint32_t indented, uint8_t *text, size_t text_len, struct bsonraw_report *report, uint64_t *path,
                     size_t path_room) {
    static uint8_t shared[1 << 16];
    uint32_t one = MISTAKE == 24 ? indented : MISTAKE == 25 ? canonical == 1 : canonical;
    uint32_t two = MISTAKE == 24 ? canonical : MISTAKE == 25 ? indented == 1 : indented;
    int32_t status = right_json(bytes, len, max_bytes, max_depth, one, two, text, text_len, report, path, path_room);
    if (MISTAKE == 23 && status == BSONRAW_OK) text[report->count + 1] = 0;
    if (MISTAKE == 26 && status == BSONRAW_OK) {
        memcpy(shared, text, report->count);
        sched_yield();
        memcpy(text, shared, report->count);
    }
    return status;
}

/* 5: out of memory is no fault. 6: a number is another at its greatest. 21: the key of a stop is hidden. */
int32_t bsonraw_first_fault(const uint8_t *bytes, size_t len, size_t max_bytes, size_t max_depth, struct bsonraw_report *report,
                            uint64_t *path, size_t path_room) {
    int32_t status = right_first_fault(bytes, len, max_bytes, max_depth, report, path, path_room);
    if (MISTAKE == 5 && status == BSONRAW_NO_MEMORY) return BSONRAW_OK;
    if (MISTAKE == 6 && report->error.reason == BSONRAW_PAST_END && report->error.left == 16) report->error.left--;
    if (MISTAKE == 21 && report->error.reason == BSONRAW_STRING_PAST_END) report->has_key = 0;
    return status;
}

/* 7: a block is kept. 22: a breach inside another level is at that level. */
int32_t bsonraw_check(const uint8_t *bytes, size_t len, size_t max_bytes, size_t max_depth, struct bsonraw_report *report,
                      uint64_t *path, size_t path_room) {
    static void *kept;
    int32_t status = right_check(bytes, len, max_bytes, max_depth, report, path, path_room);
    if (MISTAKE == 7) kept = malloc(1);
    if (kept != NULL) memset(kept, 0, 1);
    if (MISTAKE == 22 && report->path_len > 1) report->path_len--;
    return status;
}

/* 8: a document in another is begun where it isn't. */
int32_t bsonraw_iter_recurse(const struct bsonraw_iter *iter, const uint8_t *bytes, size_t len, struct bsonraw_iter *child) {
    int32_t status = right_iter_recurse(iter, bytes, len, child);
    if (MISTAKE == 8) child->next++;
    return status;
}

/* 27: any part of the bytes that ends with a 0 is a document. */
int32_t bsonraw_iter_init_at(struct bsonraw_iter *iter, const uint8_t *bytes, size_t len, uint32_t document_at,
                             uint32_t document_len) {
    int32_t status = right_iter_init_at(iter, bytes, len, document_at, document_len);
    if (MISTAKE == 27 && iter->error.reason == BSONRAW_LENGTH_INCORRECT && bytes[document_at + document_len - 1] == 0) return BSONRAW_OK;
    return status;
}

/* 9: a stop is the end. */
int32_t bsonraw_iter_next(struct bsonraw_iter *iter, const uint8_t *bytes, size_t len) {
    int32_t status = right_iter_next(iter, bytes, len);
    return MISTAKE == 9 && status == BSONRAW_FAULT ? BSONRAW_NONE : status;
}

/* 10: a key that only begins with the one that is looked for. */
int32_t bsonraw_iter_find(struct bsonraw_iter *iter, const uint8_t *bytes, size_t len, const uint8_t *key, size_t key_len) {
    return right_iter_find(iter, bytes, len, key, MISTAKE == 10 && key_len > 3 ? 3 : key_len);
}

/* 11: the reader goes on after a length that isn't sound. */
int32_t bsonraw_reader_read(struct bsonraw_reader *reader, const uint8_t *bytes, size_t len) {
    uint64_t next = reader->next;
    int32_t status = right_reader_read(reader, bytes, len);
    if (MISTAKE == 11 && status == BSONRAW_NO_DOCUMENT && reader->next == len) reader->next = next + 1;
    return status;
}

/* 32: the length of a damaged document is always believed. 33: a search leaves no mark of what it cost. */
int32_t bsonraw_reader_resync(struct bsonraw_reader *reader, const uint8_t *bytes, size_t len, size_t max_bytes, size_t max_depth,
                              struct bsonraw_resync *resync) {
    uint64_t at = reader->document_at, end = at + reader->document_len;
    int32_t status = right_reader_resync(reader, bytes, len, max_bytes, max_depth, resync);
    if (MISTAKE == 32 && status == BSONRAW_OK && at < end) reader->next = end;
    if (MISTAKE == 33) resync->spent += 8 * resync->reach + 1;
    return status;
}

/* 34: a byte after the document is written. 35: columns are counted from 0. 36: out of memory is a fault. */
int32_t bsonraw_from_json(const uint8_t *text, size_t len, size_t max_bytes, size_t max_depth, uint8_t *document, size_t document_len,
                          struct bsonraw_json_report *report) {
    int32_t status = right_from_json(text, len, max_bytes, max_depth, document, document_len, report);
    if (MISTAKE == 34 && status == BSONRAW_OK) document[report->count] = 0;
    if (MISTAKE == 35 && report->column > 0) report->column--;
    if (MISTAKE == 36 && status == BSONRAW_NO_MEMORY) status = BSONRAW_FAULT;
    return status;
}

/* 12: the room is called full where the document ends. 28: an entry after the room is written. */
int32_t bsonraw_iter_next_many(struct bsonraw_iter *iter, const uint8_t *bytes, size_t len, struct bsonraw_entry *entries,
                               size_t room, uint64_t *count) {
    int32_t status = right_iter_next_many(iter, bytes, len, entries, room, count);
    if (MISTAKE == 28 && *count == room) entries[room].tag = 0;
    return MISTAKE == 12 && status == BSONRAW_NONE && *count > 0 ? BSONRAW_OK : status;
}

/* 13: an old binary with its inner length. */
int32_t bsonraw_iter_value(const struct bsonraw_iter *iter, const uint8_t *bytes, size_t len, struct bsonraw_value *value) {
    int32_t status = right_iter_value(iter, bytes, len, value);
    if (MISTAKE == 13 && value->tag == BSONRAW_TAG_BINARY && value->subtype == 2) value->text_at -= 4, value->text_len += 4;
    return status;
}

/* 14: a path that goes into what has no inside finds nothing. */
int32_t bsonraw_iter_find_descendant(struct bsonraw_iter *iter, const uint8_t *bytes, size_t len, const uint8_t *path,
                                     size_t path_len, uint8_t separator) {
    int32_t status = right_iter_find_descendant(iter, bytes, len, path, path_len, separator);
    return MISTAKE == 14 && status == BSONRAW_OTHER_KIND ? BSONRAW_NONE : status;
}

/* 45: the separator isn't the caller's. */
int32_t bsonraw_iter_init_find_descendant(struct bsonraw_iter *iter, const uint8_t *bytes, size_t len, const uint8_t *path,
                                          size_t path_len, uint8_t separator) {
    return right_iter_init_find_descendant(iter, bytes, len, path, path_len, MISTAKE == 45 ? '/' : separator);
}

/* 46: an element of another kind is taken. */
int32_t bsonraw_value_at(const uint8_t *bytes, size_t len, const uint8_t *path, size_t path_len, uint8_t separator,
                         const uint32_t *tags, size_t count, struct bsonraw_value *value) {
    return right_value_at(bytes, len, path, path_len, separator, tags, MISTAKE == 46 ? 0 : count, value);
}

/* 48: the order is turned. */
int32_t bsonraw_compare(const uint8_t *one, size_t one_len, const uint8_t *other, size_t other_len, int32_t *order) {
    int32_t status = right_compare(one, one_len, other, other_len, order);
    if (MISTAKE == 48) *order = -*order;
    return status;
}

/* 47: a shorter payload is put, too. */
int32_t bsonraw_overwrite(uint8_t *bytes, size_t len, const uint8_t *path, size_t path_len, uint8_t separator, uint32_t tag,
                          const uint8_t *payload, size_t payload_len) {
    int32_t status = right_overwrite(bytes, len, path, path_len, separator, tag, payload, payload_len);
    if (MISTAKE != 47 || status != BSONRAW_OTHER_KIND) return status;
    return right_overwrite(bytes, len, path, path_len, separator, tag, payload, payload_len + 1);
}

int32_t right_builder_begin(struct bsonraw_builder *builder, uint8_t *room, size_t room_len);
int32_t right_builder_end(struct bsonraw_builder *builder, uint8_t *room, size_t room_len);
int32_t right_append(struct bsonraw_builder *builder, uint8_t *room, size_t room_len, uint32_t tag, const uint8_t *key,
                     size_t key_len, const uint8_t *one, size_t one_len, const uint8_t *two, size_t two_len);
int32_t right_append_number(struct bsonraw_builder *builder, uint8_t *room, size_t room_len, uint32_t tag, const uint8_t *key,
                            size_t key_len, uint64_t number);
int32_t right_append_iter(struct bsonraw_builder *builder, uint8_t *room, size_t room_len, const struct bsonraw_iter *iter,
                          const uint8_t *bytes, size_t len);
int32_t right_append_begin(struct bsonraw_builder *builder, uint8_t *room, size_t room_len, uint32_t tag,
                           const uint8_t *key, size_t key_len, struct bsonraw_builder *level);
int32_t right_append_end(struct bsonraw_builder *builder, uint8_t *room, size_t room_len, struct bsonraw_builder *level);
int32_t right_append_cancel(struct bsonraw_builder *builder, struct bsonraw_builder *level);

/* 29: no document is begun where there is no room for its length. */
int32_t bsonraw_builder_begin(struct bsonraw_builder *builder, uint8_t *room, size_t room_len) {
    int32_t status = right_builder_begin(builder, room, room_len);
    if (MISTAKE == 29 && room_len < 4) builder->len = 0;
    return status;
}

/* 15: the final 0 is put after a room that is full. */
int32_t bsonraw_builder_end(struct bsonraw_builder *builder, uint8_t *room, size_t room_len) {
    return right_builder_end(builder, room, MISTAKE == 15 ? room_len + 1 : room_len);
}

/* 16: what is refused is no more than left out. */
int32_t bsonraw_append(struct bsonraw_builder *builder, uint8_t *room, size_t room_len, uint32_t tag, const uint8_t *key,
                       size_t key_len, const uint8_t *one, size_t one_len, const uint8_t *two, size_t two_len) {
    int32_t was = builder->status;
    int32_t status = right_append(builder, room, room_len, tag, key, key_len, one, one_len, two, two_len);
    if (MISTAKE == 16 && status == BSONRAW_FAULT) builder->status = was;
    return status;
}

/* 52: a boolean has the number as it is. */
int32_t bsonraw_append_number(struct bsonraw_builder *builder, uint8_t *room, size_t room_len, uint32_t tag, const uint8_t *key,
                              size_t key_len, uint64_t number) {
    if (MISTAKE == 52 && tag == BSONRAW_TAG_BOOLEAN && number > 1) return builder->status = BSONRAW_OTHER_KIND;
    return right_append_number(builder, room, room_len, tag, key, key_len, number);
}

/* 30: an element that is copied isn't counted. */
int32_t bsonraw_append_iter(struct bsonraw_builder *builder, uint8_t *room, size_t room_len, const struct bsonraw_iter *iter,
                            const uint8_t *bytes, size_t len) {
    uint32_t count = builder->count;
    int32_t status = right_append_iter(builder, room, room_len, iter, bytes, len);
    if (MISTAKE == 30) builder->count = count;
    return status;
}

/* 17: an array is begun as a document. */
int32_t bsonraw_append_begin(struct bsonraw_builder *builder, uint8_t *room, size_t room_len, uint32_t tag,
                             const uint8_t *key, size_t key_len, struct bsonraw_builder *level) {
    int32_t status = right_append_begin(builder, room, room_len, tag, key, key_len, level);
    if (MISTAKE == 17 && tag == BSONRAW_TAG_ARRAY) level->tag = BSONRAW_TAG_DOCUMENT;
    return status;
}

/* 31: a level that didn't fit isn't counted. */
int32_t bsonraw_append_end(struct bsonraw_builder *builder, uint8_t *room, size_t room_len, struct bsonraw_builder *level) {
    struct bsonraw_builder before = *builder;
    int32_t status = right_append_end(builder, room, room_len, level);
    if (MISTAKE == 31 && status == BSONRAW_SMALL_BUFFER) before.status = status, *builder = before;
    return status;
}

/* 44: a level that is taken back stays open. */
int32_t bsonraw_append_cancel(struct bsonraw_builder *builder, struct bsonraw_builder *level) {
    uint32_t begins = level->begins;
    int32_t status = right_append_cancel(builder, level);
    if (MISTAKE == 44) level->begins = begins;
    return status;
}

/* 18: a token that has another inside says one less. 19: a number of the path is written after the room. */
int32_t bsonraw_flatten(const uint8_t *bytes, size_t len, size_t max_bytes, size_t max_depth, struct bsonraw_token *tokens,
                        size_t room, struct bsonraw_report *report, uint64_t *path, size_t path_room) {
    int32_t status = right_flatten(bytes, len, max_bytes, max_depth, tokens, room, report, path, path_room);
    if (MISTAKE == 18 && status == BSONRAW_OK && report->count > 0 && tokens[0].inside > 0) tokens[0].inside--;
    if (MISTAKE == 19 && report->path_len > path_room) path[path_room] = 0;
    return status;
}

#undef bsonraw_oid_from_hex
#undef bsonraw_decimal128_from_text
#undef bsonraw_date_time_from_text

size_t right_fault_text(const struct bsonraw_error *error, char *text, size_t room);
size_t right_json_fault_text(const struct bsonraw_json_report *report, char *text, size_t room);
size_t right_path_text(const uint8_t *bytes, size_t len, const uint64_t *path, size_t path_len, char *text, size_t room);

/* 49: the numbers of a fault change places. */
size_t bsonraw_fault_text(const struct bsonraw_error *error, char *text, size_t room) {
    struct bsonraw_error other = *error;
    if (MISTAKE == 49) other.number = error->left, other.left = error->number;
    return right_fault_text(&other, text, room);
}

/* 50: of a text that is cut no more than what is there is counted. */
size_t bsonraw_json_fault_text(const struct bsonraw_json_report *report, char *text, size_t room) {
    size_t count = right_json_fault_text(report, text, room);
    return MISTAKE == 50 && count > room ? room : count;
}

/* 51: the text has no 0 after it. */
size_t bsonraw_path_text(const uint8_t *bytes, size_t len, const uint64_t *path, size_t path_len, char *text, size_t room) {
    size_t count = right_path_text(bytes, len, path, path_len, text, room);
    if (MISTAKE == 51 && room > 0) text[count < room ? count : room - 1] = '0';
    return count;
}

int32_t right_oid_to_hex(const uint8_t *id, char *hex);
int32_t right_oid_from_hex(const uint8_t *hex, size_t hex_len, uint8_t *id);
uint32_t right_oid_time(const uint8_t *id);
int32_t right_decimal128_to_text(const uint8_t *decimal, char *text);
int32_t right_decimal128_from_text(const uint8_t *text, size_t text_len, uint8_t *decimal);
int32_t right_date_time_to_text(int64_t millis, char *text);
int32_t right_date_time_from_text(const uint8_t *text, size_t text_len, int64_t *millis);

/* 37: the digits have no 0 after them. */
int32_t bsonraw_oid_to_hex(const uint8_t *id, char *hex) {
    int32_t status = right_oid_to_hex(id, hex);
    if (MISTAKE == 37) hex[24] = '0';
    return status;
}

/* 38: more digits are passed over. */
int32_t bsonraw_oid_from_hex(const uint8_t *hex, size_t hex_len, uint8_t *id) {
    return right_oid_from_hex(hex, MISTAKE == 38 && hex_len > 24 ? 24 : hex_len, id);
}

/* 39: the time is read from the wrong end. */
uint32_t bsonraw_oid_time(const uint8_t *id) {
    uint32_t time = right_oid_time(id);
    return MISTAKE == 39 ? time << 16 | time >> 16 : time;
}

/* 40: the text has no 0 after it. */
int32_t bsonraw_decimal128_to_text(const uint8_t *decimal, char *text) {
    int32_t status = right_decimal128_to_text(decimal, text);
    if (MISTAKE == 40 && status == BSONRAW_OK) text[strlen(text)] = '0', text[BSONRAW_DECIMAL128_TEXT - 1] = 0;
    return status;
}

/* 41: bytes are written though the text is no decimal. */
int32_t bsonraw_decimal128_from_text(const uint8_t *text, size_t text_len, uint8_t *decimal) {
    int32_t status = right_decimal128_from_text(text, text_len, decimal);
    if (MISTAKE == 41 && status != BSONRAW_OK) decimal[15] = 0;
    return status;
}

/* 42: a text is written though the time has none. */
int32_t bsonraw_date_time_to_text(int64_t millis, char *text) {
    int32_t status = right_date_time_to_text(millis, text);
    if (MISTAKE == 42 && status != BSONRAW_OK) text[0] = 0;
    return status;
}

/* 43: milliseconds are written though the text is no time. */
int32_t bsonraw_date_time_from_text(const uint8_t *text, size_t text_len, int64_t *millis) {
    int32_t status = right_date_time_from_text(text, text_len, millis);
    if (MISTAKE == 43 && status != BSONRAW_OK) *millis = 0;
    return status;
}
