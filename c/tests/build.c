/* The builder: each kind beside bytes that were written by hand from the format, levels in one another, what is refused,
 * rooms of each size, and builders with any fields. */
#include "documents.h"

#include <stdio.h>
#include <string.h>
#include <sys/mman.h>

#define LARGE 4096

static uint8_t room[LARGE];
static struct bsonraw_builder b;

/* Appends something to the builder b in this room. */
typedef void append(uint8_t *to, size_t len);

/* What the call of a builder says, where only what it leaves is looked at. */
static void said(int32_t status) {
    expect(status == b.status, "builder", "a call says another status than the builder");
}

static void no_elements(uint8_t *to, size_t len) {
    (void)to, (void)len;
}

static void int32_element(uint8_t *to, size_t len) {
    said(bsonraw_append_int32(&b, to, len, BSONRAW_KEY("a"), -2));
}

static void int64_element(uint8_t *to, size_t len) {
    said(bsonraw_append_int64(&b, to, len, BSONRAW_KEY("a"), 0x0102030405060708));
}

static void date_time_element(uint8_t *to, size_t len) {
    said(bsonraw_append_date_time(&b, to, len, BSONRAW_KEY("a"), -1));
}

static void double_element(uint8_t *to, size_t len) {
    said(bsonraw_append_double(&b, to, len, BSONRAW_KEY("a"), 1.5));
}

static void timestamp_element(uint8_t *to, size_t len) {
    said(bsonraw_append_timestamp(&b, to, len, BSONRAW_KEY("a"), 0x01020304, 5));
}

static void bool_elements(uint8_t *to, size_t len) {
    said(bsonraw_append_bool(&b, to, len, BSONRAW_KEY("a"), 256));
    said(bsonraw_append_bool(&b, to, len, BSONRAW_KEY("b"), 0));
}

static void bare_elements(uint8_t *to, size_t len) {
    said(bsonraw_append_null(&b, to, len, BSONRAW_KEY("")));
    said(bsonraw_append_undefined(&b, to, len, BSONRAW_KEY("u")));
    said(bsonraw_append_minkey(&b, to, len, BSONRAW_KEY("m")));
    said(bsonraw_append_maxkey(&b, to, len, BSONRAW_KEY("M")));
}

/* {"i": 7, "t": true, "n": null, "l": -1}, of numbers with more bytes than the kinds have. */
static void number_elements(uint8_t *to, size_t len) {
    said(bsonraw_append_number(&b, to, len, BSONRAW_TAG_INT32, BSONRAW_KEY("i"), 0x8182838400000007));
    said(bsonraw_append_number(&b, to, len, BSONRAW_TAG_BOOLEAN, BSONRAW_KEY("t"), 0x8182838485868701));
    said(bsonraw_append_number(&b, to, len, BSONRAW_TAG_NULL, BSONRAW_KEY("n"), 0x8182838485868788));
    said(bsonraw_append_number(&b, to, len, BSONRAW_TAG_INT64, BSONRAW_KEY("l"), (uint64_t)-1));
}

/* {"i": 7, "t": true, "n": null}, by their payloads */
static void payload_elements(uint8_t *to, size_t len) {
    said(bsonraw_append(&b, to, len, BSONRAW_TAG_INT32, BSONRAW_KEY("i"), BSONRAW_KEY("\7\0\0\0"), BSONRAW_KEY("")));
    said(bsonraw_append(&b, to, len, BSONRAW_TAG_BOOLEAN, BSONRAW_KEY("t"), BSONRAW_KEY("\1"), BSONRAW_KEY("")));
    said(bsonraw_append(&b, to, len, BSONRAW_TAG_NULL, BSONRAW_KEY("n"), BSONRAW_KEY(""), BSONRAW_KEY("")));
}

static void text_elements(uint8_t *to, size_t len) {
    said(bsonraw_append_utf8(&b, to, len, BSONRAW_KEY("\xc3\xa9"), BSONRAW_KEY("a\0b")));
    said(bsonraw_append_code(&b, to, len, BSONRAW_KEY("c"), BSONRAW_KEY("x")));
    said(bsonraw_append_symbol(&b, to, len, BSONRAW_KEY("s"), BSONRAW_KEY("")));
}

static void document_elements(uint8_t *to, size_t len) {
    said(bsonraw_append_document(&b, to, len, BSONRAW_KEY("d"), BSONRAW_KEY("\5\0\0\0\0")));
    said(bsonraw_append_array(&b, to, len, BSONRAW_KEY("l"), BSONRAW_KEY("\10\0\0\0\12\60\0\0")));
}

static void id_elements(uint8_t *to, size_t len) {
    said(bsonraw_append_oid(&b, to, len, BSONRAW_KEY("i"), (const uint8_t *)"abcdefghijkl"));
    said(bsonraw_append_decimal128(&b, to, len, BSONRAW_KEY("n"), (const uint8_t *)"abcdefghijklmnop"));
    said(bsonraw_append_dbpointer(&b, to, len, BSONRAW_KEY("p"), BSONRAW_KEY("ns"), (const uint8_t *)"abcdefghijkl"));
}

static void binary_elements(uint8_t *to, size_t len) {
    said(bsonraw_append_binary(&b, to, len, BSONRAW_KEY("b"), 128, BSONRAW_KEY("xy")));
    said(bsonraw_append_binary(&b, to, len, BSONRAW_KEY("o"), 2, BSONRAW_KEY("xy")));
}

static void regex_element(uint8_t *to, size_t len) {
    said(bsonraw_append_regex(&b, to, len, BSONRAW_KEY("r"), BSONRAW_KEY("^a"), BSONRAW_KEY("im")));
}

static void scoped_element(uint8_t *to, size_t len) {
    said(bsonraw_append_code_with_scope(&b, to, len, BSONRAW_KEY("w"), BSONRAW_KEY("x"), BSONRAW_KEY("\5\0\0\0\0")));
}

/* {"a": {"b": [{}, 7]}, "c": null} */
static void levels(uint8_t *to, size_t len) {
    struct bsonraw_builder a, list, none;
    bsonraw_append_document_begin(&b, to, len, BSONRAW_KEY("a"), &a);
    bsonraw_append_array_begin(&a, to, len, BSONRAW_KEY("b"), &list);
    bsonraw_append_document_begin(&list, to, len, BSONRAW_NO_KEY, &none);
    bsonraw_append_end(&list, to, len, &none);
    bsonraw_append_int32(&list, to, len, BSONRAW_NO_KEY, 7);
    bsonraw_append_end(&a, to, len, &list);
    said(bsonraw_append_end(&b, to, len, &a));
    said(bsonraw_append_null(&b, to, len, BSONRAW_KEY("c")));
}

/* {"l": [null, .., null]}, eleven of them, of which the second is given another key */
static void long_array(uint8_t *to, size_t len) {
    struct bsonraw_builder list;
    bsonraw_append_array_begin(&b, to, len, BSONRAW_KEY("l"), &list);
    for (int i = 0; i < 11; i++) {
        if (i == 1) bsonraw_append_null(&list, to, len, BSONRAW_KEY("\0"));
        else bsonraw_append_null(&list, to, len, BSONRAW_NO_KEY);
    }
    said(bsonraw_append_end(&b, to, len, &list));
}

/* {"a": 1}, and a level that is taken back, whether it fits or not */
static void left_level(uint8_t *to, size_t len) {
    struct bsonraw_builder lost;
    bsonraw_append_document_begin(&b, to, len, BSONRAW_KEY("lost"), &lost);
    bsonraw_append_null(&lost, to, len, BSONRAW_KEY("x"));
    said(bsonraw_append_cancel(&b, &lost));
    said(bsonraw_append_int32(&b, to, len, BSONRAW_KEY("a"), 1));
}

struct example {
    const char *name;
    append *append;
    const char *bytes;
    size_t len;
};

#define EXAMPLE(append, literal) {#append, append, literal, sizeof(literal) - 1}

static const struct example examples[] = {
    EXAMPLE(no_elements, "\5\0\0\0\0"),
    EXAMPLE(int32_element, "\14\0\0\0\20a\0\376\377\377\377\0"),
    EXAMPLE(int64_element, "\20\0\0\0\22a\0\10\7\6\5\4\3\2\1\0"),
    EXAMPLE(date_time_element, "\20\0\0\0\11a\0\377\377\377\377\377\377\377\377\0"),
    EXAMPLE(double_element, "\20\0\0\0\1a\0\0\0\0\0\0\0\370\77\0"),
    EXAMPLE(timestamp_element, "\20\0\0\0\21a\0\5\0\0\0\4\3\2\1\0"),
    EXAMPLE(bool_elements, "\15\0\0\0\10a\0\1\10b\0\0\0"),
    EXAMPLE(bare_elements, "\20\0\0\0\12\0\6u\0\377m\0\177M\0\0"),
    EXAMPLE(number_elements, "\36\0\0\0\20i\0\7\0\0\0\10t\0\1\12n\0\22l\0\377\377\377\377\377\377\377\377\0"),
    EXAMPLE(payload_elements, "\23\0\0\0\20i\0\7\0\0\0\10t\0\1\12n\0\0"),
    EXAMPLE(text_elements, "\42\0\0\0\2\303\251\0\4\0\0\0a\0b\0\15c\0\2\0\0\0x\0\16s\0\1\0\0\0\0\0"),
    EXAMPLE(document_elements, "\30\0\0\0\3d\0\5\0\0\0\0\4l\0\10\0\0\0\12\60\0\0\0"),
    EXAMPLE(id_elements, "\75\0\0\0\7i\0abcdefghijkl\23n\0abcdefghijklmnop\14p\0\3\0\0\0ns\0abcdefghijkl\0"),
    EXAMPLE(binary_elements, "\35\0\0\0\5b\0\2\0\0\0\200xy\5o\0\6\0\0\0\2\2\0\0\0xy\0"),
    EXAMPLE(regex_element, "\16\0\0\0\13r\0^a\0im\0\0"),
    EXAMPLE(scoped_element, "\27\0\0\0\17w\0\17\0\0\0\2\0\0\0x\0\5\0\0\0\0\0"),
    EXAMPLE(levels, "\47\0\0\0\3a\0\34\0\0\0\4b\0\24\0\0\0\3\60\0\5\0\0\0\0\20\61\0\7\0\0\0\0\0\12c\0\0"),
    EXAMPLE(long_array, "\57\0\0\0\4l\0\47\0\0\0\12\60\0\12\61\0\12\62\0\12\63\0\12\64\0\12\65\0\12\66\0\12\67\0\12\70\0"
                        "\12\71\0\12\61\60\0\0\0"),
    EXAMPLE(left_level, "\14\0\0\0\20a\0\1\0\0\0\0"),
};

/* Builds an example in a room of this size, in which each other byte is 0xa5 before. */
static int32_t build(const struct example *e, size_t len) {
    memset(room, 0xa5, sizeof room);
    said(bsonraw_builder_begin(&b, room, len));
    e->append(room, len);
    return bsonraw_builder_end(&b, room, len);
}

/* Whether all bytes of the room from this one on are as they were. */
static int is_left(size_t from) {
    for (size_t at = from; at < sizeof room; at++)
        if (room[at] != 0xa5) return 0;
    return 1;
}

static void look_at_examples(void) {
    for (size_t i = 0; i < sizeof examples / sizeof *examples; i++) {
        const struct example *e = &examples[i];
        int32_t status = build(e, LARGE);
        expect(status == BSONRAW_OK && b.len == e->len, e->name, "another status or length");
        expect(memcmp(room, e->bytes, e->len) == 0, e->name, "other bytes");
        for (size_t len = 0; len < e->len; len++) {
            status = build(e, len);
            expect(status == BSONRAW_SMALL_BUFFER && b.status == status, e->name, "a smaller room is enough");
            expect(b.len == e->len, e->name, "another length is needed of a smaller room");
            expect(is_left(len), e->name, "a byte after a smaller room is written");
        }
        status = build(e, e->len);
        expect(status == BSONRAW_OK && memcmp(room, e->bytes, e->len) == 0, e->name, "the exact room isn't enough");
    }
}

/* A call that is refused with this status, and then each other call with it. */
static void refused(const char *name, int32_t status, int32_t returned) {
    struct bsonraw_builder before = b, level;
    uint8_t bytes[LARGE];
    memcpy(bytes, room, sizeof room);
    expect(returned == status && b.status == status, name, "it isn't refused, or for another reason");
    expect(bsonraw_append_null(&b, room, sizeof room, BSONRAW_KEY("n")) == status, name, "the status doesn't stay");
    expect(bsonraw_append_null(&b, room, 0, BSONRAW_KEY("n")) == status, name, "a small room changes the status");
    expect(bsonraw_append_array_begin(&b, room, sizeof room, BSONRAW_KEY("n"), &level) == status, name, "a level begins");
    expect(bsonraw_append_end(&b, room, sizeof room, &level) == status, name, "a level ends");
    expect(bsonraw_builder_end(&b, room, sizeof room) == status, name, "the document ends");
    expect(memcmp(&before, &b, sizeof b) == 0 && memcmp(bytes, room, sizeof room) == 0, name, "something is changed");
    bsonraw_builder_begin(&b, room, sizeof room);
    bsonraw_append_int32(&b, room, sizeof room, BSONRAW_KEY("a"), 1);
}

static void look_at_refusals(void) {
    static const uint8_t parts[16];
    struct bsonraw_builder level;
    struct bsonraw_iter it;
    uint32_t tag;
    uint8_t *to = room;
    size_t len = sizeof room;
    bsonraw_builder_begin(&b, room, sizeof room);
    refused("0 in a key", BSONRAW_FAULT, bsonraw_append_null(&b, to, len, BSONRAW_KEY("a\0")));
    refused("key not UTF-8", BSONRAW_FAULT, bsonraw_append_null(&b, to, len, BSONRAW_KEY("\xff")));
    refused("text not UTF-8", BSONRAW_FAULT, bsonraw_append_utf8(&b, to, len, BSONRAW_KEY("a"), BSONRAW_KEY("\xc3")));
    refused("surrogate", BSONRAW_FAULT, bsonraw_append_code(&b, to, len, BSONRAW_KEY("a"), BSONRAW_KEY("\xed\xa0\x80")));
    refused("0 in a pattern", BSONRAW_FAULT,
            bsonraw_append_regex(&b, to, len, BSONRAW_KEY("a"), BSONRAW_KEY("\0"), BSONRAW_KEY("")));
    refused("0 in options", BSONRAW_FAULT,
            bsonraw_append_regex(&b, to, len, BSONRAW_KEY("a"), BSONRAW_KEY(""), BSONRAW_KEY("\0")));
    refused("no document", BSONRAW_NO_DOCUMENT,
            bsonraw_append_document(&b, to, len, BSONRAW_KEY("a"), BSONRAW_KEY("\5\0\0\0")));
    refused("no scope", BSONRAW_NO_DOCUMENT,
            bsonraw_append_code_with_scope(&b, to, len, BSONRAW_KEY("a"), BSONRAW_KEY(""), BSONRAW_KEY("\5\0\0\0\1")));
    for (tag = 0; tag < 300; tag++) {
        int is_one = (tag >= 1 && tag <= 19) || tag == 127 || tag == 255;
        int is_number = tag == 1 || tag == 6 || (tag >= 8 && tag <= 10) || (tag >= 16 && tag <= 18) || tag == 127 || tag == 255;
        if (!is_number) refused("no number", BSONRAW_OTHER_KIND, bsonraw_append_number(&b, to, len, tag, parts, 0, 1));
        if (!is_one) refused("no kind", BSONRAW_OTHER_KIND, bsonraw_append(&b, to, len, tag, parts, 0, parts, 0, parts, 0));
    }
    refused("short number", BSONRAW_OTHER_KIND,
            bsonraw_append(&b, to, len, BSONRAW_TAG_INT64, parts, 0, parts, 7, parts, 0));
    refused("boolean", BSONRAW_OTHER_KIND,
            bsonraw_append(&b, to, len, BSONRAW_TAG_BOOLEAN, parts, 0, (const uint8_t *)"\2", 1, parts, 0));
    refused("boolean of a number", BSONRAW_OTHER_KIND, bsonraw_append_number(&b, to, len, BSONRAW_TAG_BOOLEAN, parts, 0, 2));
    refused("0 in the key of a number", BSONRAW_FAULT, bsonraw_append_number(&b, to, len, BSONRAW_TAG_INT32, BSONRAW_KEY("\0a"), 2));
    refused("level of another kind", BSONRAW_OTHER_KIND,
            (bsonraw_append_begin(&b, to, len, BSONRAW_TAG_NULL, parts, 0, &level), bsonraw_append_end(&b, to, len, &level)));
    refused("0 in the key of a level", BSONRAW_FAULT,
            (bsonraw_append_array_begin(&b, to, len, BSONRAW_KEY("\0"), &level), bsonraw_append_end(&b, to, len, &level)));
    memset(&it, 0, sizeof it);
    refused("no element", BSONRAW_BAD_OFFSET, bsonraw_append_iter(&b, to, len, &it, room, 12));
    memset(&level, 0, sizeof level);
    refused("a level of no call", BSONRAW_MISUSE, bsonraw_append_end(&b, to, len, &level));
    memset(&b, 0, sizeof b);
    refused("a builder of no call", BSONRAW_BAD_OFFSET, bsonraw_append_null(&b, to, len, BSONRAW_KEY("a")));
    memset(&b, 0, sizeof b);
    refused("a builder of no call that is ended", BSONRAW_BAD_OFFSET, bsonraw_builder_end(&b, to, len));
    b.begins = b.len - 3;
    refused("a level without its length", BSONRAW_BAD_OFFSET,
            (bsonraw_append_begin(&b, to, len, BSONRAW_TAG_ARRAY, parts, 0, &level), bsonraw_append_end(&b, to, len, &level)));
    b.len = 2147483647;
    refused("too long", BSONRAW_TOO_LONG, bsonraw_append_null(&b, to, len, BSONRAW_KEY("")));
    b.len = 2147483647 - 2;
    refused("a level that couldn't be ended", BSONRAW_TOO_LONG, bsonraw_append_null(&b, to, len, BSONRAW_KEY("")));
    b.count = 2147483647;
    refused("a count of too many", BSONRAW_TOO_LONG, bsonraw_append_null(&b, to, len, BSONRAW_KEY("")));
    b.len = 2147483647 - 3;
    expect(bsonraw_append_null(&b, to, len, BSONRAW_KEY("")) == BSONRAW_SMALL_BUFFER, "longest", "it is refused");
    expect(bsonraw_builder_end(&b, to, len) == BSONRAW_SMALL_BUFFER && b.len == 2147483647, "longest", "it isn't counted");
}

/* One element with this key and this text, which is as long; status is what is to be returned. */
static void append_both(const uint8_t *key, const uint8_t *text, size_t len, int32_t status) {
    static const uint8_t head[] = {BSONRAW_TAG_STRING};
    bsonraw_builder_begin(&b, room, sizeof room);
    said(bsonraw_append_utf8(&b, room, sizeof room, key, len, text, len));
    expect(b.status == status, "a key and a text", "another status");
    if (status != BSONRAW_OK) return;
    expect(memcmp(room + 4, head, 1) == 0 && memcmp(room + 5, key, len) == 0 && room[5 + len] == 0, "a key and a text", "another key");
    expect(room[6 + len] == len + 1 && memcmp(room + 10 + len, text, len) == 0 && room[10 + 2 * len] == 0, "a key and a text", "another text");
    expect(b.len == 11 + 2 * len, "a key and a text", "another length");
}

/* Keys and texts of each length: plain ones; and such with a 0, a byte that isn't UTF-8, or a character of two bytes at each place. */
static void look_at_lengths(void) {
    uint8_t plain[101], other[101];
    memset(plain, 'k', sizeof plain);
    for (size_t len = 0; len <= 100; len++) {
        append_both(plain, plain, len, BSONRAW_OK);
        for (size_t at = 0; at < len; at++) {
            memset(other, 'k', sizeof other);
            other[at] = 0;
            append_both(other, plain, len, BSONRAW_FAULT);
            append_both(plain, other, len, BSONRAW_OK);
            other[at] = 0x80;
            append_both(other, plain, len, BSONRAW_FAULT);
            append_both(plain, other, len, BSONRAW_FAULT);
            if (at + 1 == len) continue;
            other[at] = 0xc3, other[at + 1] = 0xa9;
            append_both(other, other, len, BSONRAW_OK);
        }
    }
}

static void look_at_bytes(void) {
    const struct bsonraw_number number = bsonraw_number_of(0x0807060504030201);
    expect(memcmp(number.bytes, "\1\2\3\4\5\6\7\10", 8) == 0, "the bytes of a number", "others");
}

/* Each element of each document in turn, as it is, makes the document again. */
static void look_at_iter(const struct documents *all) {
    for (size_t i = 0; i < all->count; i++) {
        const struct document *d = &all->items[i];
        struct bsonraw_iter it;
        int32_t status = bsonraw_iter_init(&it, d->bytes, d->len);
        if (status != BSONRAW_OK || d->len > sizeof room) continue;
        bsonraw_builder_begin(&b, room, sizeof room);
        while ((status = bsonraw_iter_next(&it, d->bytes, d->len)) == BSONRAW_OK)
            bsonraw_append_iter(&b, room, sizeof room, &it, d->bytes, d->len);
        if (status != BSONRAW_NONE) continue;
        status = bsonraw_builder_end(&b, room, sizeof room);
        expect(status == BSONRAW_OK && b.len == d->len && memcmp(room, d->bytes, d->len) == 0, d->name, "it is another one");
    }
}

static uint32_t random_number(void) {
    static uint64_t state = 88172645463325252;
    state ^= state << 13;
    state ^= state >> 7;
    state ^= state << 17;
    return (uint32_t)(state >> 16);
}

/* A builder with any fields, of which some are near the room's size. */
static struct bsonraw_builder any_builder(void) {
    struct bsonraw_builder any;
    uint32_t fields[4];
    for (int i = 0; i < 4; i++) {
        uint32_t n = random_number();
        fields[i] = n % 3 == 0 ? n : n % 3 == 1 ? n % 300 : 4294967295u - n % 300;
    }
    any.len = fields[0];
    any.begins = fields[1];
    any.count = fields[2];
    any.tag = fields[3] % 2 ? 4 : fields[3];
    any.status = random_number() % 4 ? 0 : random_number() % 2 ? 8 : (int32_t)(fields[3] & 2147483647);
    return any;
}

/* Builders with any fields write nothing outside of the room, which ends where memory that can't be touched begins. */
static void look_at_any(void) {
    uint8_t *pages = mmap(NULL, 3 * 4096, PROT_READ | PROT_WRITE, MAP_PRIVATE | MAP_ANONYMOUS, -1, 0);
    expect(pages != MAP_FAILED, "memory", "none");
    mprotect(pages, 4096, PROT_NONE);
    mprotect(pages + 2 * 4096, 4096, PROT_NONE);
    for (int i = 0; i < 400000; i++) {
        size_t len = random_number() % 256;
        uint8_t *to = i % 2 ? pages + 2 * 4096 - len : pages + 4096;
        struct bsonraw_builder any = any_builder(), level = any_builder();
        if (random_number() % 2) level.begins = level.len - random_number() % 16;
        switch (random_number() % 7) {
        case 6: bsonraw_append(&any, to, len, BSONRAW_TAG_OBJECT_ID, BSONRAW_KEY("abcdefg"), BSONRAW_KEY("abcdefghijkl"), BSONRAW_KEY("")); break;
        case 0: bsonraw_append_int32(&any, to, len, BSONRAW_KEY("abcdefg"), i); break;
        case 1: bsonraw_append_binary(&any, to, len, BSONRAW_KEY("a"), 2, BSONRAW_KEY("abcdefghijk")); break;
        case 2: bsonraw_append_begin(&any, to, len, BSONRAW_TAG_ARRAY, BSONRAW_KEY("a"), &level); break;
        case 3: bsonraw_append_end(&any, to, len, &level); break;
        case 4: expect(bsonraw_builder_end(&any, to, len) == any.status, "any builder", "another status"); break;
        default: bsonraw_builder_begin(&any, to, len); break;
        }
    }
    munmap(pages, 3 * 4096);
}

int main(void) {
    static struct documents all;
    read_documents(&all);
    look_at_examples();
    look_at_refusals();
    look_at_lengths();
    look_at_bytes();
    look_at_iter(&all);
    look_at_any();
    return result("build");
}
