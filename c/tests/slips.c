/* What a user gets wrong, and what comes of it: NULL for no bytes and for what is needed, and builders that are used out of turn. */
#include "documents.h"

#include <stdlib.h>
#include <string.h>

static uint8_t room[256];
static const size_t len = sizeof room;
static struct bsonraw_builder b, outer, inner;

static void is(int32_t status, int32_t wanted, const char *name) {
    expect(status == wanted, name, "another status");
}

/* Begins {"a": 1, "o": {"i": .. with both levels open. */
static void begin(void) {
    bsonraw_builder_begin(&b, room, len);
    bsonraw_append_int32(&b, room, len, BSONRAW_KEY("a"), 1);
    bsonraw_append_document_begin(&b, room, len, BSONRAW_KEY("o"), &outer);
    bsonraw_append_array_begin(&outer, room, len, BSONRAW_KEY("i"), &inner);
}

/* Whether all that is said and left is the document of these bytes. */
static void ends_as(const char *bytes, size_t bytes_len, const char *name) {
    is(bsonraw_builder_end(&b, room, len), BSONRAW_OK, name);
    expect(b.len == bytes_len && memcmp(room, bytes, bytes_len) == 0, name, "another document");
}

#define ENDS_AS(literal, name) ends_as(literal, sizeof(literal) - 1, name)

/* A refusal stays, up to the end. */
static void stays(int32_t status, int32_t wanted, const char *name) {
    is(status, wanted, name);
    is(bsonraw_append_null(&b, room, len, BSONRAW_KEY("n")), wanted, name);
    is(bsonraw_builder_end(&b, room, len), wanted, name);
    expect(b.status == wanted, name, "it doesn't stay");
}

static void look_at_levels(void) {
    begin();
    is(bsonraw_append_end(&outer, room, len, &inner), BSONRAW_OK, "levels");
    is(bsonraw_append_end(&b, room, len, &outer), BSONRAW_OK, "levels");
    ENDS_AS("\34\0\0\0\20a\0\1\0\0\0\3o\0\15\0\0\0\4i\0\5\0\0\0\0\0\0", "levels");
    begin();
    is(bsonraw_append_cancel(&outer, &inner), BSONRAW_OK, "a level is taken back");
    is(bsonraw_append_null(&inner, room, len, BSONRAW_NO_KEY), BSONRAW_BAD_OFFSET, "an append to a level that was taken back");
    is(bsonraw_append_cancel(&b, &outer), BSONRAW_OK, "a level is taken back");
    ENDS_AS("\14\0\0\0\20a\0\1\0\0\0\0", "levels that were taken back");
    bsonraw_builder_begin(&b, room, 12);
    bsonraw_append_document_begin(&b, room, 12, BSONRAW_KEY("o"), &outer);
    is(bsonraw_append_int32(&outer, room, 12, BSONRAW_KEY("a"), 1), BSONRAW_SMALL_BUFFER, "a small room");
    is(bsonraw_append_end(&b, room, 12, &outer), BSONRAW_SMALL_BUFFER, "a small room");
    is(bsonraw_builder_end(&b, room, 12), BSONRAW_SMALL_BUFFER, "a small room");
    expect(b.len == 20, "a small room", "another length is needed");
}

static void look_at_slips(void) {
    static const uint8_t a[] = "\10\0\0\0\12a\0";
    struct bsonraw_builder copy;
    struct bsonraw_iter it;
    is(bsonraw_iter_init_find(&it, a, sizeof a, BSONRAW_KEY("a")), BSONRAW_OK, "an element");
    begin();
    stays(bsonraw_append_null(&b, room, len, BSONRAW_KEY("n")), BSONRAW_MISUSE, "an append while a level is open");
    begin();
    is(bsonraw_append_utf8(&b, room, len, BSONRAW_KEY("n"), BSONRAW_KEY("ok")), BSONRAW_MISUSE, "the builder around a level");
    is(bsonraw_append_end(&outer, room, len, &inner), BSONRAW_OK, "a level in it");
    stays(bsonraw_append_end(&b, room, len, &outer), BSONRAW_MISUSE, "the end of the level");
    begin();
    stays(bsonraw_builder_end(&b, room, len), BSONRAW_MISUSE, "the end while a level is open");
    begin();
    stays(bsonraw_append_document_begin(&b, room, len, BSONRAW_KEY("n"), &copy), BSONRAW_MISUSE, "a second level");
    begin();
    stays(bsonraw_append_end(&b, room, len, &inner), BSONRAW_MISUSE, "the end of a level in a level");
    begin();
    stays(bsonraw_append_end(&b, room, len, &outer), BSONRAW_MISUSE, "the end of a level with an open level");
    begin();
    copy = inner;
    (void)bsonraw_append_end(&outer, room, len, &inner);
    is(bsonraw_append_end(&outer, room, len, &copy), BSONRAW_MISUSE, "an end twice");
    stays(bsonraw_append_end(&b, room, len, &outer), BSONRAW_MISUSE, "the end of the level around it");
    begin();
    (void)bsonraw_append_end(&outer, room, len, &inner);
    is(bsonraw_append_null(&inner, room, len, BSONRAW_NO_KEY), BSONRAW_BAD_OFFSET, "an append to a level that was ended");
    is(bsonraw_append_end(&b, room, len, &outer), BSONRAW_OK, "the level around it");
    ENDS_AS("\34\0\0\0\20a\0\1\0\0\0\3o\0\15\0\0\0\4i\0\5\0\0\0\0\0\0", "what it leaves");
    stays(bsonraw_append_null(&b, room, len, BSONRAW_KEY("n")), BSONRAW_BAD_OFFSET, "an append after the end");
    begin();
    stays(bsonraw_append_iter(&b, room, len, &it, a, sizeof a), BSONRAW_MISUSE, "a copy while a level is open");
    begin();
    is(bsonraw_append_cancel(&b, &inner), BSONRAW_MISUSE, "another level is taken back");
    begin();
    stays(bsonraw_append_cancel(&b, NULL), BSONRAW_NULL, "no level is taken back");
    bsonraw_builder_begin(&b, room, len);
    stays(bsonraw_append_array_begin(&b, room, len, BSONRAW_KEY("\0"), &outer), BSONRAW_FAULT, "a level whose key has a 0");
    bsonraw_builder_begin(&b, room, len);
    (void)!bsonraw_builder_end(&b, room, len);
    stays(bsonraw_builder_end(&b, room, len), BSONRAW_BAD_OFFSET, "the end twice");
    begin();
    is(bsonraw_append_utf8(&inner, room, len, BSONRAW_NO_KEY, BSONRAW_KEY("ok")), BSONRAW_OK, "an element");
    is(bsonraw_append_utf8(&inner, room, len, BSONRAW_NO_KEY, BSONRAW_KEY("\xff")), BSONRAW_FAULT, "a text that isn't UTF-8");
    expect(inner.count == 1, "which was refused", "another number");
    is(bsonraw_append_end(&outer, room, len, &inner), BSONRAW_FAULT, "the level around it");
    stays(bsonraw_append_end(&b, room, len, &outer), BSONRAW_FAULT, "the document");
}

/* A level that was taken back, where another one begins later at the offset at which it ended. */
static void look_at_old_levels(void) {
    struct bsonraw_builder old;
    int by_end;
    for (by_end = 0; by_end < 2; by_end++) {
        bsonraw_builder_begin(&b, room, len);
        bsonraw_append_document_begin(&b, room, len, BSONRAW_KEY("a"), &old);
        is(bsonraw_append_cancel(&b, &old), BSONRAW_OK, "a level is taken back");
        bsonraw_append_null(&b, room, len, BSONRAW_KEY("b"));
        bsonraw_append_null(&b, room, len, BSONRAW_KEY(""));
        bsonraw_append_document_begin(&b, room, len, BSONRAW_KEY(""), &inner);
        expect(inner.begins == old.begins, "an old level", "it isn't at that offset");
        stays(by_end ? bsonraw_append_end(&b, room, len, &old) : bsonraw_append_cancel(&b, &old), BSONRAW_MISUSE, "an old level");
    }
}

/* What has to be in the room: the elements of each builder. */
struct wanted {
    uint8_t bytes[512];
    size_t len;
};

static void want(struct wanted *w, const void *bytes, size_t bytes_len) {
    memcpy(w->bytes + w->len, bytes, bytes_len);
    w->len += bytes_len;
}

/* A document of these elements as an element with this key, or alone. */
static void want_document(struct wanted *w, const char *key, const struct wanted *elements) {
    const uint8_t head[4] = {(uint8_t)(elements->len + 5), (uint8_t)((elements->len + 5) >> 8), 0, 0};
    if (key != NULL) want(w, "\3", 1), want(w, key, strlen(key) + 1);
    want(w, head, 4);
    want(w, elements->bytes, elements->len);
    want(w, "", 1);
}

static uint32_t random_number(void) {
    static uint64_t state = 7;
    state = state * 6364136223846793005u + 1442695040888963407u;
    return (uint32_t)(state >> 33);
}

/* Rows of calls in any order, over a builder and three levels: where the end returns BSONRAW_OK, what each call that returned it
 * appended is in the room, and nothing else. */
static void look_at_any_rows(void) {
    static const char *const keys[] = {"", "a", "bc"};
    const char *key_of[4] = {"", "", "", ""};
    int row, step, good = 0;
    for (row = 0; row < 300000; row++) {
        struct bsonraw_builder all[4] = {{0, 0, 0, 0, 0}, {0, 0, 0, 0, 0}, {0, 0, 0, 0, 0}, {0, 0, 0, 0, 0}};
        struct wanted wanted[4], whole;
        memset(room, 255, len);
        for (step = 0; step < 4; step++) wanted[step].len = 0;
        whole.len = 0;
        bsonraw_builder_begin(&all[0], room, len);
        for (step = 0; step < 14; step++) {
            uint32_t call = random_number() % 8, to = random_number() % 4, of = 1 + random_number() % 3;
            const char *key = keys[random_number() % 3];
            if (call < 2) {
                if (bsonraw_append_null(&all[to], room, len, BSONRAW_STR(key)) == BSONRAW_OK) want(&wanted[to], "\12", 1), want(&wanted[to], key, strlen(key) + 1);
            } else if (to == of) {
                continue;
            } else if (call < 5) {
                if (bsonraw_append_document_begin(&all[to], room, len, BSONRAW_STR(key), &all[of]) == BSONRAW_OK) wanted[of].len = 0, key_of[of] = key;
            } else if (call < 7) {
                if (bsonraw_append_end(&all[to], room, len, &all[of]) == BSONRAW_OK) want_document(&wanted[to], key_of[of], &wanted[of]);
            } else {
                (void)bsonraw_append_cancel(&all[to], &all[of]);
            }
        }
        if (bsonraw_builder_end(&all[0], room, len) != BSONRAW_OK) continue;
        want_document(&whole, NULL, &wanted[0]);
        expect(all[0].len == whole.len && memcmp(room, whole.bytes, whole.len) == 0, "any row of calls", "another document");
        good++;
    }
    expect(good > 1000, "any row of calls", "no document is built");
}

/* What is taken back had found the room too small, and so had what came before it, or not: that is as it was before the level. */
static void look_at_small_rooms(void) {
    int was_small;
    for (was_small = 0; was_small < 2; was_small++) {
        size_t first = was_small ? 8 : 40;
        memset(room, 0xa5, len);
        bsonraw_builder_begin(&b, room, first);
        is(bsonraw_append_int32(&b, room, first, BSONRAW_KEY("number"), 1), was_small ? BSONRAW_SMALL_BUFFER : BSONRAW_OK, "a number");
        is(bsonraw_append_array_begin(&b, room, 16, BSONRAW_KEY("taken back"), &outer), BSONRAW_SMALL_BUFFER, "a level");
        is(bsonraw_append_document_begin(&outer, room, 16, BSONRAW_NO_KEY, &inner), BSONRAW_SMALL_BUFFER, "a level in it");
        is(bsonraw_append_cancel(&outer, &inner), BSONRAW_SMALL_BUFFER, "the level in it is taken back");
        is(bsonraw_append_cancel(&b, &outer), was_small ? BSONRAW_SMALL_BUFFER : BSONRAW_OK, "the level is taken back");
        expect(b.tag == BSONRAW_TAG_DOCUMENT, "the level is taken back", "another tag");
        bsonraw_append_null(&b, room, len, BSONRAW_KEY("n"));
        is(bsonraw_builder_end(&b, room, len), was_small ? BSONRAW_SMALL_BUFFER : BSONRAW_OK, "the document");
        expect(b.len == 20, "the document", "another length is needed");
        expect(was_small || memcmp(room, "\24\0\0\0\20number\0\1\0\0\0\12n\0", 20) == 0, "the document", "other bytes");
    }
    begin();
    is(bsonraw_append_utf8(&inner, room, len, BSONRAW_NO_KEY, BSONRAW_KEY("\xff")), BSONRAW_FAULT, "a text that isn't UTF-8");
    is(bsonraw_append_cancel(&outer, &inner), BSONRAW_FAULT, "a level that refused something");
    is(bsonraw_append_cancel(&b, &outer), BSONRAW_FAULT, "the level around it");
    bsonraw_builder_begin(&b, room, 4);
    bsonraw_append_null(&b, room, 4, BSONRAW_KEY("a"));
    bsonraw_append_array_begin(&b, room, 4, BSONRAW_KEY("l"), &outer);
    bsonraw_append_null(&outer, room, 4, BSONRAW_NO_KEY);
    is(bsonraw_append_end(&b, room, 4, &outer), BSONRAW_SMALL_BUFFER, "a level in no room");
    is(bsonraw_builder_end(&b, room, 4), BSONRAW_SMALL_BUFFER, "a document in no room");
    expect(b.len == 19 && b.tag == BSONRAW_TAG_DOCUMENT, "a document in no room", "another length is needed");
}

/* A level whose end was forgotten, and keys that are given where none is taken, or aren't where one is. */
static void look_at_keys(void) {
    struct bsonraw_buffer buffer;
    bsonraw_buffer_init(&buffer);
    bsonraw_buffer_begin_array(&buffer, "tags");
    is(bsonraw_buffer_utf8(&buffer, NULL, "new"), BSONRAW_OK, "an item");
    is(bsonraw_buffer_utf8(&buffer, "name", "Emmy"), BSONRAW_MISUSE, "a key in an array");
    is(bsonraw_buffer_int32(&buffer, "born", 1882), BSONRAW_MISUSE, "the next one");
    is(bsonraw_buffer_finish(&buffer), BSONRAW_MISUSE, "a record in a level that wasn't ended");
    expect(buffer.len == 0 && buffer.level.count == 1, "a record in a level that wasn't ended", "another number was refused");
    bsonraw_buffer_reset(&buffer);
    bsonraw_buffer_begin_array(&buffer, "tags");
    bsonraw_buffer_utf8(&buffer, NULL, "new");
    is(bsonraw_buffer_finish(&buffer), BSONRAW_MISUSE, "a level that wasn't ended");
    is(bsonraw_buffer_end(&buffer), BSONRAW_MISUSE, "its end, which is too late");
    bsonraw_buffer_reset(&buffer);
    bsonraw_buffer_int32(&buffer, "a", 1);
    is(bsonraw_buffer_end(&buffer), BSONRAW_MISUSE, "the end of no level");
    bsonraw_buffer_reset(&buffer);
    bsonraw_buffer_begin_array(&buffer, "l");
    is(bsonraw_buffer_begin_document(&buffer, "d"), BSONRAW_MISUSE, "a level with a key in an array");
    bsonraw_buffer_reset(&buffer);
    bsonraw_buffer_begin_array(&buffer, "l");
    is(bsonraw_buffer_append(&buffer, BSONRAW_TAG_MIN_KEY, "", NULL, 0, NULL, 0), BSONRAW_MISUSE, "the empty key in an array");
    bsonraw_buffer_reset(&buffer);
    is(bsonraw_buffer_int32(&buffer, NULL, 1), BSONRAW_NULL, "no key in a document");
    is(bsonraw_buffer_finish(&buffer), BSONRAW_NULL, "no key in a document");
    bsonraw_buffer_reset(&buffer);
    is(bsonraw_buffer_binary(&buffer, NULL, 0, "x", 1), BSONRAW_NULL, "no key of a binary");
    bsonraw_buffer_reset(&buffer);
    is(bsonraw_buffer_begin_array(&buffer, NULL), BSONRAW_NULL, "no key of a level");
    bsonraw_buffer_reset(&buffer);
    is(bsonraw_buffer_int32(&buffer, "", 1), BSONRAW_OK, "the empty key");
    is(bsonraw_buffer_finish(&buffer), BSONRAW_OK, "the empty key");
    expect(buffer.len == 11 && memcmp(buffer.bytes, "\13\0\0\0\20\0\1\0\0\0", 11) == 0, "the empty key", "another document");
    bsonraw_buffer_free(&buffer);
    is(bsonraw_buffer_finish(NULL), BSONRAW_NULL, "no buffer");
}

/* Memory that no call has begun as a buffer, whatever is in it. */
static void look_at_any_memory(void) {
    static const uint8_t bytes[] = "\10\0\0\0\12a\0";
    struct bsonraw_buffer buffer;
    struct bsonraw_change change[1];
    struct bsonraw_iter it;
    int byte, call;
    is(bsonraw_iter_init_find(&it, bytes, sizeof bytes, BSONRAW_KEY("a")), BSONRAW_OK, "an element");
    for (byte = 0; byte < 256; byte++)
        for (call = 0; call < 10; call++) {
            int32_t status;
            change[0] = bsonraw_change_remove("a");
            memset(&buffer, byte, sizeof buffer);
            switch (call) {
            case 0: status = bsonraw_buffer_int32(&buffer, "a", 1); break;
            case 1: status = bsonraw_buffer_utf8(&buffer, "a", "b"); break;
            case 2: status = bsonraw_buffer_begin_array(&buffer, "a"); break;
            case 3: status = bsonraw_buffer_end(&buffer); break;
            case 4: status = bsonraw_buffer_finish(&buffer); break;
            case 5: status = bsonraw_buffer_reset(&buffer); break;
            case 6: status = bsonraw_buffer_iter(&buffer, &it, bytes, sizeof bytes); break;
            case 7: status = bsonraw_buffer_concat(&buffer, bytes, sizeof bytes); break;
            case 8: status = bsonraw_buffer_edit(&buffer, bytes, sizeof bytes, change, 1); break;
            default: status = bsonraw_buffer_regex(&buffer, "a", "b", NULL); break;
            }
            is(status, BSONRAW_BAD_OFFSET, "memory that is no buffer");
            bsonraw_buffer_free(&buffer);
        }
}

static size_t most_memory;

static void *measure(void *context, void *memory, size_t size) {
    (void)context;
    if (size > most_memory) most_memory = size;
    if (size > 0) return realloc(memory, size);
    free(memory);
    return NULL;
}

/* A cursor of any fields takes no memory for them. */
static void look_at_forged(void) {
    static const uint8_t bytes[] = "\10\0\0\0\12a\0";
    struct bsonraw_buffer buffer;
    struct bsonraw_iter it;
    int field;
    for (field = 0; field < 2; field++) {
        is(bsonraw_iter_init_find(&it, bytes, sizeof bytes, BSONRAW_KEY("a")), BSONRAW_OK, "an element");
        if (field) it.key_len = 2147483000;
        else it.payload_len = 2147483000;
        bsonraw_buffer_init_with(&buffer, measure, NULL);
        is(bsonraw_buffer_iter(&buffer, &it, bytes, sizeof bytes), BSONRAW_BAD_OFFSET, "a forged cursor");
        expect(most_memory < 10000, "a forged cursor", "memory is taken");
        bsonraw_buffer_free(&buffer);
    }
}

/* Which append to a buffer was refused. */
static void look_at_refused(void) {
    struct bsonraw_buffer buffer;
    bsonraw_buffer_init(&buffer);
    bsonraw_buffer_int32(&buffer, "a", 1);
    bsonraw_buffer_begin_array(&buffer, "b");
    bsonraw_buffer_int32(&buffer, NULL, 1);
    bsonraw_buffer_int32(&buffer, NULL, 2);
    bsonraw_buffer_utf8(&buffer, NULL, "\xff");
    bsonraw_buffer_int32(&buffer, NULL, 3);
    is(bsonraw_buffer_finish(&buffer), BSONRAW_FAULT, "a buffer");
    expect(buffer.level.count == 2 && buffer.depth == 1, "a buffer", "another element was refused");
    bsonraw_buffer_free(&buffer);
}

#define EMPTY (const uint8_t *)"\5\0\0\0", 5

/* A text of no bytes, or of no path, is empty; and none is put into no room. */
static void look_at_null_in_texts(void) {
    const uint64_t path[1] = {0};
    char text[8] = "#######";
    expect(bsonraw_path_text(NULL, 0, path, 1, text, sizeof text) == 0 && text[0] == 0, "no bytes", "a path");
    expect(bsonraw_path_text(NULL, 5, path, 1, NULL, 0) == 0 && bsonraw_path_text(NULL, 5, path, 1, NULL, 1) == 0, "no bytes", "a path");
    expect(bsonraw_path_text(EMPTY, NULL, 0, NULL, 0) == 0 && bsonraw_path_text(EMPTY, NULL, 1, text, 0) == 0, "no path", "a path");
    expect(bsonraw_path_text(EMPTY, path, 1, text, sizeof text) == 2 && strcmp(text, "/0") == 0, "a path", text);
    expect(bsonraw_path_text(EMPTY, path, 1, NULL, 3) == 2, "a path in no room", "another length");
    expect(bsonraw_fault_text(NULL, text, 4) == 8 && strcmp(text, "no ") == 0, "no fault", text);
    expect(bsonraw_fault_text(NULL, NULL, 4) == 8 && bsonraw_json_fault_text(NULL, NULL, 4) == 8, "no fault", "another length");
}

static void look_at_null(void) {
    struct bsonraw_iter it, child;
    struct bsonraw_entry entries[1];
    struct bsonraw_value v;
    struct bsonraw_report r;
    struct bsonraw_reader reader = {0, 0, 0, {0, 0, 0, 0, 0}};
    struct bsonraw_resync resync = {0, 0, 0, 0};
    struct bsonraw_json_report told;
    struct bsonraw_token tokens[1];
    uint64_t count, path[1];
    int32_t number;
    const char *text;
    size_t text_len;
    is(bsonraw_iter_init(&it, NULL, 0), BSONRAW_NO_DOCUMENT, "init of no bytes");
    is(bsonraw_iter_init(&it, NULL, 5), BSONRAW_NULL, "init");
    is(bsonraw_iter_init(NULL, EMPTY), BSONRAW_NULL, "init");
    is(bsonraw_iter_init_at(&it, NULL, 5, 0, 5), BSONRAW_NULL, "init_at");
    is(bsonraw_iter_init_find(&it, EMPTY, NULL, 0), BSONRAW_NONE, "init_find of the empty key");
    is(bsonraw_iter_init_find(&it, EMPTY, NULL, 1), BSONRAW_NULL, "init_find");
    is(bsonraw_iter_init(&it, EMPTY), BSONRAW_OK, "init");
    is(bsonraw_iter_find(&it, EMPTY, NULL, 0), BSONRAW_NONE, "find of the empty key");
    is(bsonraw_iter_find(&it, EMPTY, NULL, 1), BSONRAW_NULL, "find");
    is(bsonraw_iter_find_descendant(&it, EMPTY, NULL, 0, '.'), BSONRAW_NONE, "the empty path");
    is(bsonraw_iter_find_descendant(&it, EMPTY, NULL, 1, '.'), BSONRAW_NULL, "a path");
    is(bsonraw_iter_init_find_descendant(&it, EMPTY, NULL, 0, '.'), BSONRAW_NONE, "the empty path");
    is(bsonraw_iter_init_find_descendant(&it, EMPTY, NULL, 1, '.'), BSONRAW_NULL, "a path");
    is(bsonraw_iter_init_find_descendant(NULL, EMPTY, NULL, 0, '.'), BSONRAW_NULL, "a cursor");
    is(bsonraw_value_at(EMPTY, NULL, 0, '.', NULL, 0, &v), BSONRAW_NONE, "a value at the empty path");
    is(bsonraw_value_at(NULL, 1, NULL, 0, '.', NULL, 0, &v), BSONRAW_NULL, "bytes");
    is(bsonraw_value_at(EMPTY, NULL, 1, '.', NULL, 0, &v), BSONRAW_NULL, "a path");
    is(bsonraw_value_at(EMPTY, NULL, 0, '.', NULL, 1, &v), BSONRAW_NULL, "tags");
    is(bsonraw_value_at(EMPTY, NULL, 0, '.', NULL, 0, NULL), BSONRAW_NULL, "a value");
    is(bsonraw_overwrite(NULL, 0, NULL, 0, '.', 10, NULL, 0), BSONRAW_NO_DOCUMENT, "no bytes");
    is(bsonraw_overwrite(NULL, 1, NULL, 0, '.', 10, NULL, 0), BSONRAW_NULL, "bytes");
    is(bsonraw_overwrite(NULL, 0, NULL, 1, '.', 10, NULL, 0), BSONRAW_NULL, "a path");
    is(bsonraw_overwrite(NULL, 0, NULL, 0, '.', 10, NULL, 1), BSONRAW_NULL, "a payload");
    is(bsonraw_iter_next(&it, NULL, 1), BSONRAW_NULL, "next");
    expect(bsonraw_iter_key(NULL, EMPTY)[0] == 0 && bsonraw_iter_key(&it, NULL, 5)[0] == 0, "a key", "one that isn't there");
    is(bsonraw_iter_recurse(&it, EMPTY, NULL), BSONRAW_NULL, "recurse");
    is(bsonraw_iter_recurse(NULL, EMPTY, &child), BSONRAW_NULL, "recurse");
    is(bsonraw_iter_next_many(&it, EMPTY, NULL, 0, &count), BSONRAW_OK, "no entries");
    is(bsonraw_iter_next_many(&it, EMPTY, NULL, 1, &count), BSONRAW_NULL, "entries");
    is(bsonraw_iter_next_many(&it, EMPTY, entries, 1, NULL), BSONRAW_NULL, "a count");
    is(bsonraw_iter_value(&it, EMPTY, NULL), BSONRAW_NULL, "a value");
    is(bsonraw_iter_value(NULL, EMPTY, &v), BSONRAW_NULL, "a value");
    is(bsonraw_iter_int32(&it, EMPTY, NULL), BSONRAW_NULL, "a number");
    is(bsonraw_iter_int32(NULL, EMPTY, &number), BSONRAW_NULL, "a number");
    is(bsonraw_iter_as_int64(NULL, EMPTY, NULL), BSONRAW_NULL, "a number");
    is(bsonraw_iter_utf8(&it, EMPTY, NULL, &text_len), BSONRAW_NULL, "a text");
    is(bsonraw_iter_utf8(&it, EMPTY, &text, NULL), BSONRAW_NULL, "a text");
    is(bsonraw_iter_utf8(&it, EMPTY, &text, &text_len), BSONRAW_OTHER_KIND, "a text");
    expect(text == NULL && text_len == 0, "a text", "one that isn't there");
    is(bsonraw_reader_read(&reader, NULL, 0), BSONRAW_NONE, "a dump of no bytes");
    is(bsonraw_reader_read(&reader, NULL, 1), BSONRAW_NULL, "a dump");
    is(bsonraw_reader_resync(&reader, NULL, 1, 9, 9, &resync), BSONRAW_NULL, "a dump");
    is(bsonraw_reader_resync(&reader, EMPTY, 9, 9, NULL), BSONRAW_NULL, "a search");
    is(bsonraw_from_json(NULL, 0, 9, 9, NULL, 0, &told), BSONRAW_FAULT, "no text");
    is(bsonraw_from_json(NULL, 1, 9, 9, NULL, 0, &told), BSONRAW_NULL, "a text");
    is(bsonraw_from_json(BSONRAW_KEY("{}"), 9, 9, NULL, 0, &told), BSONRAW_SMALL_BUFFER, "the length of a document");
    is(bsonraw_from_json(BSONRAW_KEY("{}"), 9, 9, NULL, 5, &told), BSONRAW_NULL, "a document");
    is(bsonraw_from_json(BSONRAW_KEY("{}"), 9, 9, NULL, 0, NULL), BSONRAW_NULL, "a report");
    is(bsonraw_flatten(EMPTY, 9, 9, NULL, 0, &r, NULL, 0), BSONRAW_OK, "no tokens and no path");
    is(bsonraw_flatten(EMPTY, 9, 9, NULL, 1, &r, NULL, 0), BSONRAW_NULL, "tokens");
    is(bsonraw_flatten(EMPTY, 9, 9, tokens, 1, &r, NULL, 1), BSONRAW_NULL, "a path");
    is(bsonraw_first_fault(EMPTY, 9, 9, &r, NULL, 0), BSONRAW_OK, "no path");
    is(bsonraw_first_fault(EMPTY, 9, 9, NULL, path, 1), BSONRAW_NULL, "a report");
    is(bsonraw_compare(NULL, 1, EMPTY, &number), BSONRAW_NULL, "the first bytes");
    is(bsonraw_compare(EMPTY, NULL, 1, &number), BSONRAW_NULL, "the other bytes");
    is(bsonraw_compare(EMPTY, EMPTY, NULL), BSONRAW_NULL, "an order");
    is(bsonraw_compare(NULL, 0, EMPTY, &number), BSONRAW_NO_DOCUMENT, "no bytes");
    is(bsonraw_check(EMPTY, 9, 9, &r, NULL, 0), BSONRAW_OK, "no path");
    is(bsonraw_check(NULL, 5, 9, 9, &r, path, 1), BSONRAW_NULL, "bytes");
    is(bsonraw_canonical(EMPTY, 9, 9, NULL, 0, &r, NULL, 0), BSONRAW_SMALL_BUFFER, "the length of a form");
    is(bsonraw_canonical(EMPTY, 9, 9, NULL, 5, &r, NULL, 0), BSONRAW_NULL, "a form");
    is(bsonraw_json(EMPTY, 9, 9, 0, 0, NULL, 0, &r, NULL, 0), BSONRAW_SMALL_BUFFER, "the length of a text");
    is(bsonraw_json(EMPTY, 9, 9, 0, 0, NULL, 3, &r, NULL, 0), BSONRAW_NULL, "a text");
}

static void look_at_null_in_builders(void) {
    struct bsonraw_iter it;
    is(bsonraw_builder_begin(NULL, room, len), BSONRAW_NULL, "begin");
    is(bsonraw_builder_begin(&b, NULL, 0), BSONRAW_SMALL_BUFFER, "no room");
    is(bsonraw_append_utf8(&b, NULL, 0, NULL, 0, NULL, 0), BSONRAW_SMALL_BUFFER, "an empty text in no room");
    is(bsonraw_builder_end(&b, NULL, 0), BSONRAW_SMALL_BUFFER, "no room");
    expect(b.len == 12, "no room", "another length is needed");
    is(bsonraw_builder_begin(&b, NULL, 1), BSONRAW_NULL, "a room");
    bsonraw_builder_begin(&b, room, len);
    is(bsonraw_builder_end(&b, NULL, 1), BSONRAW_NULL, "a room");
    begin();
    is(bsonraw_append_end(&outer, NULL, 1, &inner), BSONRAW_NULL, "a room");
    bsonraw_builder_begin(&b, room, len);
    stays(bsonraw_append_null(&b, room, len, NULL, 1), BSONRAW_NULL, "a key");
    bsonraw_builder_begin(&b, room, len);
    stays(bsonraw_append_utf8(&b, room, len, BSONRAW_KEY("a"), NULL, 1), BSONRAW_NULL, "a text");
    bsonraw_builder_begin(&b, room, len);
    stays(bsonraw_append_oid(&b, room, len, BSONRAW_KEY("a"), NULL), BSONRAW_NULL, "an ObjectId");
    bsonraw_builder_begin(&b, room, len);
    stays(bsonraw_append_array_begin(&b, room, len, NULL, 1, &outer), BSONRAW_NULL, "the key of a level");
    bsonraw_builder_begin(&b, room, len);
    stays(bsonraw_append_array_begin(&b, room, len, BSONRAW_KEY("a"), NULL), BSONRAW_NULL, "a level");
    begin();
    is(bsonraw_append_end(&outer, room, len, NULL), BSONRAW_NULL, "a level");
    bsonraw_builder_begin(&b, room, len);
    stays(bsonraw_append_iter(&b, room, len, NULL, EMPTY), BSONRAW_NULL, "a cursor");
    bsonraw_builder_begin(&b, room, len);
    is(bsonraw_iter_init(&it, EMPTY), BSONRAW_OK, "init");
    stays(bsonraw_append_iter(&b, room, len, &it, NULL, 5), BSONRAW_NULL, "bytes");
    is(bsonraw_append_end(NULL, room, len, &b), BSONRAW_NULL, "a builder");
    is(bsonraw_append_null(NULL, room, len, BSONRAW_KEY("a")), BSONRAW_NULL, "a builder");
}

/* What the exported calls and the caller's own code are given in place of NULL: memory, and no text. */
static void look_at_places(void) {
    expect(bsonraw_some_bytes(NULL) != NULL && bsonraw_some_bytes(room) == room, "bytes", "other memory");
    expect(bsonraw_some_room(NULL) != NULL && bsonraw_some_room(room) == room, "a room", "other memory");
    expect(bsonraw_some_path(NULL) != NULL, "a path", "no memory");
    expect(bsonraw_str_bytes(NULL) != NULL && bsonraw_str_len(NULL) == 0, "NULL as a text", "no empty one");
    expect(bsonraw_str_len("four") == 4 && memcmp(bsonraw_str_bytes("four"), "four", 5) == 0, "a text", "another one");
}

/* The loop of the header over a reader that is used once more, for a shorter buffer; after each kind of damage, it ends. */
static void look_at_readers(void) {
    static const uint8_t dump[] = "\5\0\0\0\0\6\0\0\0\0\1\5\0\0\0\0\5\0\0";
    struct bsonraw_reader reader = {0, 0, 0, {0, 0, 0, 0, 0}};
    size_t short_len;
    int32_t status = BSONRAW_OK;
    int documents = 0, steps = 0;
    while ((status == BSONRAW_OK || status == BSONRAW_NO_DOCUMENT) && steps++ < 99) {
        status = bsonraw_reader_read(&reader, dump, 19);
        documents += status == BSONRAW_OK;
    }
    is(status, BSONRAW_NONE, "a dump with damage");
    expect(documents == 2 && steps == 5 && reader.next == 19, "a dump with damage", "other documents");
    for (short_len = 0; short_len < 19; short_len++) {
        for (status = BSONRAW_OK, steps = 0; (status == BSONRAW_OK || status == BSONRAW_NO_DOCUMENT) && steps < 99; steps++)
            status = bsonraw_reader_read(&reader, dump, short_len);
        is(status, BSONRAW_BAD_OFFSET, "a reader for a shorter buffer");
    }
}

int main(void) {
    look_at_levels();
    look_at_readers();
    look_at_slips();
    look_at_old_levels();
    look_at_any_rows();
    look_at_small_rooms();
    look_at_keys();
    look_at_any_memory();
    look_at_forged();
    look_at_refused();
    look_at_null();
    look_at_null_in_texts();
    look_at_null_in_builders();
    look_at_places();
    return result("slips");
}
