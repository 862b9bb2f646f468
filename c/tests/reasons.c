/* The numbers by which a fault says why, with what else it has, and the key: a document for each reason, and payloads at the
 * edges of each. */
#include "documents.h"

#include <stdio.h>
#include <string.h>

/* A document, and its first fault; key is NULL where the place has none. */
struct row {
    const char *bytes;
    size_t len;
    uint32_t kind, reason;
    size_t number, left;
    const char *key;
};

#define BYTES(text) text, sizeof(text) - 1
#define MALFORMED BSONRAW_MALFORMED

static const struct row rows[] = {
    {BYTES("\6\0\0\0\12\0"), MALFORMED, BSONRAW_OVERFLOWED, 0, 0, NULL},
    {BYTES("\6\0\0\0\0\0"), MALFORMED, BSONRAW_INVALID_TAG, 0, 0, ""},
    {BYTES("\7\0\0\0\24k\0"), MALFORMED, BSONRAW_INVALID_TAG, 20, 0, "k"},
    {BYTES("\12\0\0\0\15k\0\1\0\0"), MALFORMED, BSONRAW_STRING_HEAD_SHORT, 0, 3, "k"},
    {BYTES("\14\0\0\0\3a\0\377\377\377\377\0"), MALFORMED, BSONRAW_NEGATIVE_LENGTH, 0, 0, "a"},
    {BYTES("\13\0\0\0\16k\0\0\0\0\0"), MALFORMED, BSONRAW_STRING_TOO_SMALL, 0, 0, "k"},
    {BYTES("\14\0\0\0\2a\0\6\0\0\0\0"), MALFORMED, BSONRAW_STRING_PAST_END, 10, 5, "a"},
    {BYTES("\15\0\0\0\2k\0\1\0\0\0\1\0"), MALFORMED, BSONRAW_STRING_NOT_TERMINATED, 0, 0, "k"},
    {BYTES("\17\0\0\0\17a\0\3\0\0\10b\0\1\0"), MALFORMED, BSONRAW_PAST_END, 134217731, 8, "a"},
    {BYTES("\14\0\0\0\3k\0\4\0\0\0\0"), MALFORMED, BSONRAW_DOCUMENT_TOO_SMALL, 4, 0, "k"},
    {BYTES("\15\0\0\0\3k\0\5\0\0\0\1\0"), MALFORMED, BSONRAW_NESTED_NOT_TERMINATED, 0, 0, "k"},
    {BYTES("\12\0\0\0\17k\0\1\0\0"), MALFORMED, BSONRAW_LENGTH_HEAD_SHORT, 0, 3, "k"},
    {BYTES("\7\0\0\0\13r\0"), MALFORMED, BSONRAW_NO_TERMINATOR, 0, 0, "r"},
    {BYTES("\11\0\0\0\10k\0\377\0"), MALFORMED, BSONRAW_BAD_BOOLEAN, 255, 0, "k"},
    {BYTES("\15\0\0\0\5k\0\0\0\0\0\2\0"), MALFORMED, BSONRAW_OLD_NO_INNER, 0, 0, "k"},
    {BYTES("\21\0\0\0\5b\0\4\0\0\0\2\377\377\377\377\0"), MALFORMED, BSONRAW_ADD_OVERFLOW, 0, 0, "b"},
    {BYTES("\21\0\0\0\5k\0\4\0\0\0\2\1\0\0\0\0"), MALFORMED, BSONRAW_OLD_WRONG_INNER, 0, 0, "k"},
    {BYTES("\25\0\0\0\17k\0\15\0\0\0\1\0\0\0\0\4\0\0\0\0"), MALFORMED, BSONRAW_CODE_TOO_SMALL, 0, 0, "k"},
    {BYTES("\7\0\0\0\12\377\0"), BSONRAW_NOT_UTF8, 0, 0, 0, NULL},
    {BYTES("\12\0\0\0\13a\0\377\0\0"), BSONRAW_NOT_UTF8, 0, 0, 0, "a"},
    {BYTES("\16\0\0\0\2k\0\2\0\0\0\377\0\0"), BSONRAW_NOT_UTF8, 0, 0, 0, "k"},
    /* a scope that isn't sound has the reasons of an envelope, as faults */
    {BYTES("\26\0\0\0\17k\0\16\0\0\0\2\0\0\0c\0\4\0\0\0\0"), MALFORMED, BSONRAW_TOO_SHORT, 0, 0, "k"},
    {BYTES("\27\0\0\0\17c\0\17\0\0\0\1\0\0\0\0\5\0\0\0\0\0\0"), MALFORMED, BSONRAW_LENGTH_INCORRECT, 0, 0, "c"},
    {BYTES("\26\0\0\0\17k\0\16\0\0\0\1\0\0\0\0\5\0\0\0\1\0"), MALFORMED, BSONRAW_NOT_TERMINATED, 0, 0, "k"},
};

#define SOUND 0
#define STRINGS "\2\14\15\16" /* of a pointer the string before its ObjectId */
#define DOCUMENTS "\3\4"

/* What is after the key "k" up to the document's end, under each of these tags: the first fault, or none. */
struct payload {
    const char *tags, *bytes;
    size_t len;
    uint32_t reason;
    size_t number, left;
};

static const struct payload payloads[] = {
    {STRINGS, BYTES(""), BSONRAW_STRING_HEAD_SHORT, 0, 0},
    {STRINGS, BYTES("\0"), BSONRAW_STRING_HEAD_SHORT, 0, 1},
    {STRINGS, BYTES("\1\0"), BSONRAW_STRING_HEAD_SHORT, 0, 2},
    {STRINGS, BYTES("\377\377\0"), BSONRAW_STRING_HEAD_SHORT, 0, 3},
    {STRINGS, BYTES("\377\377\377\377\0"), BSONRAW_NEGATIVE_LENGTH, 0, 0},
    {STRINGS, BYTES("\0\0\0\200\0"), BSONRAW_NEGATIVE_LENGTH, 0, 0},
    {STRINGS, BYTES("\0\0\0\0"), BSONRAW_STRING_TOO_SMALL, 0, 0},
    {STRINGS, BYTES("\0\0\0\0\0\0"), BSONRAW_STRING_TOO_SMALL, 0, 0},
    {STRINGS, BYTES("\1\0\0\0"), BSONRAW_STRING_PAST_END, 5, 4},
    {STRINGS, BYTES("\2\0\0\0\0"), BSONRAW_STRING_PAST_END, 6, 5},
    {STRINGS, BYTES("\377\377\377\177\0"), BSONRAW_STRING_PAST_END, 2147483651, 5},
    {STRINGS, BYTES("\1\0\0\0\1\0"), BSONRAW_STRING_NOT_TERMINATED, 0, 0},
    {STRINGS, BYTES("\2\0\0\0\0\377\0"), BSONRAW_STRING_NOT_TERMINATED, 0, 0},
    {"\2\15\16", BYTES("\1\0\0\0\0"), BSONRAW_OVERFLOWED, 0, 0},
    {"\2\15\16", BYTES("\1\0\0\0\0\0"), SOUND, 0, 0},

    {"\14", BYTES("\1\0\0\0\0"), BSONRAW_PAST_END, 17, 5},
    {"\14", BYTES("\1\0\0\0\0ABCDEFGHIJ\0"), BSONRAW_PAST_END, 17, 16},
    {"\14", BYTES("\2\0\0\0a\0ABCDEFGHIJ\0"), BSONRAW_PAST_END, 18, 17},
    {"\14", BYTES("\1\0\0\0\0ABCDEFGHIJK\0"), BSONRAW_OVERFLOWED, 0, 0},
    {"\14", BYTES("\1\0\0\0\0ABCDEFGHIJKL\0"), SOUND, 0, 0},

    {DOCUMENTS, BYTES(""), BSONRAW_PAST_END, 5, 0},
    {DOCUMENTS, BYTES("\0"), BSONRAW_PAST_END, 5, 1},
    {DOCUMENTS, BYTES("\5\0"), BSONRAW_PAST_END, 5, 2},
    {DOCUMENTS, BYTES("\5\0\0"), BSONRAW_PAST_END, 5, 3},
    {DOCUMENTS, BYTES("\4\0\0\0"), BSONRAW_PAST_END, 5, 4},
    {DOCUMENTS, BYTES("\377\377\377\377\0"), BSONRAW_NEGATIVE_LENGTH, 0, 0},
    {DOCUMENTS, BYTES("\0\0\0\200\0"), BSONRAW_NEGATIVE_LENGTH, 0, 0},
    {DOCUMENTS, BYTES("\0\0\0\0\0"), BSONRAW_DOCUMENT_TOO_SMALL, 0, 0},
    {DOCUMENTS, BYTES("\4\0\0\0\0"), BSONRAW_DOCUMENT_TOO_SMALL, 4, 0},
    {DOCUMENTS, BYTES("\6\0\0\0\0"), BSONRAW_PAST_END, 6, 5},
    {DOCUMENTS, BYTES("\377\377\377\177\0"), BSONRAW_PAST_END, 2147483647, 5},
    {DOCUMENTS, BYTES("\5\0\0\0\1\0"), BSONRAW_NESTED_NOT_TERMINATED, 0, 0},
    {DOCUMENTS, BYTES("\6\0\0\0\0\377\0"), BSONRAW_NESTED_NOT_TERMINATED, 0, 0},
    {DOCUMENTS, BYTES("\5\0\0\0\0"), BSONRAW_OVERFLOWED, 0, 0},
    {DOCUMENTS, BYTES("\5\0\0\0\0\0"), SOUND, 0, 0},

    {"\5\17", BYTES(""), BSONRAW_LENGTH_HEAD_SHORT, 0, 0},
    {"\5\17", BYTES("\0"), BSONRAW_LENGTH_HEAD_SHORT, 0, 1},
    {"\5\17", BYTES("\1\0"), BSONRAW_LENGTH_HEAD_SHORT, 0, 2},
    {"\5\17", BYTES("\377\377\0"), BSONRAW_LENGTH_HEAD_SHORT, 0, 3},
    {"\5\17", BYTES("\377\377\377\377\0"), BSONRAW_NEGATIVE_LENGTH, 0, 0},
    {"\5\17", BYTES("\0\0\0\200\0"), BSONRAW_NEGATIVE_LENGTH, 0, 0},
    {"\5", BYTES("\0\0\0\0"), BSONRAW_PAST_END, 5, 4},
    {"\5", BYTES("\1\0\0\0\0"), BSONRAW_PAST_END, 6, 5},
    {"\5", BYTES("\377\377\377\177\0"), BSONRAW_PAST_END, 2147483652, 5},
    {"\5", BYTES("\0\0\0\0\0"), BSONRAW_OVERFLOWED, 0, 0},
    {"\5", BYTES("\0\0\0\0\0\0"), SOUND, 0, 0},
    {"\17", BYTES("\5\0\0\0"), BSONRAW_PAST_END, 5, 4},
    {"\17", BYTES("\6\0\0\0\0"), BSONRAW_PAST_END, 6, 5},
    {"\17", BYTES("\377\377\377\177\0"), BSONRAW_PAST_END, 2147483647, 5},

    {"\13", BYTES(""), BSONRAW_NO_TERMINATOR, 0, 0},
    {"\13", BYTES("\0"), BSONRAW_NO_TERMINATOR, 0, 0},
    {"\13", BYTES("ab\0"), BSONRAW_NO_TERMINATOR, 0, 0},
    {"\13", BYTES("\0\0"), BSONRAW_OVERFLOWED, 0, 0},
    {"\13", BYTES("\0\0\0"), SOUND, 0, 0},

    {"\10", BYTES("\0\0"), SOUND, 0, 0},
    {"\10", BYTES("\1\0"), SOUND, 0, 0},
    {"\10", BYTES("\2\0"), BSONRAW_BAD_BOOLEAN, 2, 0},
    {"\10", BYTES("\377\0"), BSONRAW_BAD_BOOLEAN, 255, 0},

    /* binaries of subtype 2: how many bytes, and their inner length */
    {"\5", BYTES("\0\0\0\0\2\0"), BSONRAW_OLD_NO_INNER, 0, 0},
    {"\5", BYTES("\3\0\0\0\2\0\0\0\0"), BSONRAW_OLD_NO_INNER, 0, 0},
    {"\5", BYTES("\4\0\0\0\2\373\377\377\377\0"), BSONRAW_OLD_WRONG_INNER, 0, 0},
    {"\5", BYTES("\4\0\0\0\2\374\377\377\377\0"), BSONRAW_ADD_OVERFLOW, 0, 0},
    {"\5", BYTES("\4\0\0\0\2\377\377\377\377\0"), BSONRAW_ADD_OVERFLOW, 0, 0},
    {"\5", BYTES("\4\0\0\0\2\0\0\0\200\0"), BSONRAW_OLD_WRONG_INNER, 0, 0},
    {"\5", BYTES("\4\0\0\0\2\1\0\0\0\0"), BSONRAW_OLD_WRONG_INNER, 0, 0},
    {"\5", BYTES("\4\0\0\0\2\377\377\377\177\0"), BSONRAW_OLD_WRONG_INNER, 0, 0},
    {"\5", BYTES("\5\0\0\0\2\0\0\0\0x\0"), BSONRAW_OLD_WRONG_INNER, 0, 0},
    {"\5", BYTES("\5\0\0\0\2\2\0\0\0x\0"), BSONRAW_OLD_WRONG_INNER, 0, 0},
    {"\5", BYTES("\4\0\0\0\2\0\0\0\0\0"), SOUND, 0, 0},
    {"\5", BYTES("\5\0\0\0\2\1\0\0\0x\0"), SOUND, 0, 0},
    {"\5", BYTES("\0\0\0\0\3\0"), SOUND, 0, 0},

    /* codes with scope: under 14 bytes; the string; the scope */
    {"\17", BYTES("\4\0\0\0\0"), BSONRAW_CODE_TOO_SMALL, 0, 0},
    {"\17", BYTES("\15\0\0\0\377\377\377\377\4\0\0\0\0\0"), BSONRAW_CODE_TOO_SMALL, 0, 0},
    {"\17", BYTES("\16\0\0\0\377\377\377\377\0\0\0\0\0\0\0"), BSONRAW_NEGATIVE_LENGTH, 0, 0},
    {"\17", BYTES("\16\0\0\0\0\0\0\200\0\0\0\0\0\0\0"), BSONRAW_NEGATIVE_LENGTH, 0, 0},
    {"\17", BYTES("\16\0\0\0\0\0\0\0\5\0\0\0\0\0\0"), BSONRAW_STRING_TOO_SMALL, 0, 0},
    {"\17", BYTES("\16\0\0\0\7\0\0\0abcdef\0"), BSONRAW_STRING_PAST_END, 11, 10},
    {"\17", BYTES("\16\0\0\0\377\377\377\177abcde\0\0"), BSONRAW_STRING_PAST_END, 2147483651, 10},
    {"\17", BYTES("\16\0\0\0\6\0\0\0abcdef\0"), BSONRAW_STRING_NOT_TERMINATED, 0, 0},
    {"\17", BYTES("\16\0\0\0\1\0\0\0\1\5\0\0\0\0\0"), BSONRAW_STRING_NOT_TERMINATED, 0, 0},
    {"\17", BYTES("\16\0\0\0\6\0\0\0abcde\0\0"), BSONRAW_TOO_SHORT, 0, 0},
    {"\17", BYTES("\16\0\0\0\2\0\0\0a\0\5\0\0\0\0"), BSONRAW_TOO_SHORT, 0, 0},
    {"\17", BYTES("\16\0\0\0\1\0\0\0\0\4\0\0\0\0\0"), BSONRAW_LENGTH_INCORRECT, 0, 0},
    {"\17", BYTES("\16\0\0\0\1\0\0\0\0\6\0\0\0\1\0"), BSONRAW_LENGTH_INCORRECT, 0, 0},
    {"\17", BYTES("\16\0\0\0\1\0\0\0\0\5\0\0\200\0\0"), BSONRAW_LENGTH_INCORRECT, 0, 0},
    {"\17", BYTES("\16\0\0\0\1\0\0\0\0\5\0\0\0\1\0"), BSONRAW_NOT_TERMINATED, 0, 0},
    {"\17", BYTES("\16\0\0\0\1\0\0\0\0\5\0\0\0\0\0"), SOUND, 0, 0},
};

/* The kinds of one length: Double, ObjectId, Boolean, DateTime, Int32, Timestamp, Int64, Decimal128. */
static const struct {
    char tag;
    size_t size;
} sizes[] = {{1, 8}, {7, 12}, {8, 1}, {9, 8}, {16, 4}, {17, 8}, {18, 8}, {19, 16}};

/* Bytes that are no document, and why. */
static const struct {
    const char *bytes;
    size_t len;
    uint32_t reason;
} refusals[] = {
    {BYTES(""), BSONRAW_TOO_SHORT},
    {BYTES("\5\0\0\0"), BSONRAW_TOO_SHORT},
    {BYTES("\4\0\0\0\0"), BSONRAW_LENGTH_INCORRECT},
    {BYTES("\6\0\0\0\1"), BSONRAW_LENGTH_INCORRECT},
    {BYTES("\5\0\0\200\0"), BSONRAW_LENGTH_INCORRECT},
    {BYTES("\5\1\0\0\0"), BSONRAW_LENGTH_INCORRECT},
    {BYTES("\5\0\0\0\1"), BSONRAW_NOT_TERMINATED},
    {BYTES("\6\0\0\0\0\377"), BSONRAW_NOT_TERMINATED},
};

static int is_fault(const struct row *row, struct bsonraw_error error) {
    return error.kind == row->kind && error.reason == row->reason && error.number == row->number && error.left == row->left;
}

/* Each document has one level, so that its first fault is at the only number of the path. */
static int is_place(const struct row *row, const struct whole *w, size_t offset, uint64_t number) {
    const struct bsonraw_report *r = &w->report;
    if (w->status != BSONRAW_FAULT || r->error.offset != offset || r->path_len != 1 || w->path[0] != number) return 0;
    if (row->key == NULL) return !r->has_key && r->key_at == row->len && r->key_len == 0;
    return r->has_key && r->key_at == offset + 1 && r->key_len == strlen(row->key) &&
           memcmp(row->bytes + r->key_at, row->key, (size_t)r->key_len) == 0;
}

/* A stop is told by the walk too, and by a look-up of a key that isn't there; a value's fault by bsonraw_iter_value. */
static void look_at(const struct row *row, const char *name) {
    static struct answers a;
    const uint8_t *bytes = (const uint8_t *)row->bytes;
    struct bsonraw_iter absent;
    int32_t status = bsonraw_iter_init_find(&absent, bytes, row->len, (const uint8_t *)"absent", 6);
    size_t last = 0, place, is_stop;
    ask(&a, bytes, row->len);
    while (a.stepped[last] == BSONRAW_OK) last++;
    is_stop = a.stepped[last] == BSONRAW_FAULT;
    place = is_stop ? last : last - 1; /* a value at fault is the last element */
    const struct whole *calls[] = {&a.form, &a.fault, &a.flat};
    for (size_t at = 0; at < 3; at++) {
        size_t offset = is_stop ? a.steps[place].next : a.steps[place].key_at - 1;
        expect(is_fault(row, calls[at]->report.error), name, "a call over all levels says another fault");
        expect(is_place(row, calls[at], offset, place), name, "a call over all levels says another place");
    }
    expect(a.verdict.status == BSONRAW_BREACH && a.verdict.report.cause == (is_stop ? BSONRAW_STOP : BSONRAW_VALUE) &&
               a.verdict.report.error.kind == 0, name, "check says another cause");
    if (is_stop) {
        expect(is_fault(row, a.steps[last].error), name, "the walk says another fault");
        expect(status == BSONRAW_FAULT && is_fault(row, absent.error), name, "a look-up says another stop");
        expect((a.steps[last].key_at != row->len) == (row->key != NULL), name, "the walk places another key");
    } else {
        expect(a.valued[place] == BSONRAW_FAULT && is_fault(row, a.values[place].error), name, "a value says another fault");
        expect(a.values[place].tag == 0, name, "a value is there, and a fault");
        expect(status == BSONRAW_NONE, name, "a key is there that isn't");
    }
}

/* The document of this tag, the key "k" and this payload, which is of under 200 bytes: its first fault, or that it has none. */
static void look_past_key(char tag, const struct payload *payload) {
    char bytes[256] = {0}, name[64];
    struct row row = {bytes, payload->len + 7, MALFORMED, payload->reason, payload->number, payload->left, "k"};
    struct bsonraw_report report;
    uint64_t path[9];
    int32_t status;
    bytes[0] = (char)row.len;
    bytes[4] = tag;
    bytes[5] = 'k';
    memcpy(bytes + 7, payload->bytes, payload->len);
    if (payload->reason == BSONRAW_OVERFLOWED) row.key = NULL;
    snprintf(name, sizeof name, "tag %d, reason %u, %lu bytes", tag & 255, (unsigned)payload->reason, (unsigned long)row.len);
    if (payload->reason != SOUND) {
        look_at(&row, name);
        return;
    }
    status = bsonraw_first_fault((uint8_t *)bytes, row.len, row.len, 9, &report, path, 9);
    expect(status == BSONRAW_OK, name, "it has a fault");
}

static void look_at_payloads(void) {
    static const char zeros[32];
    for (size_t at = 0; at < sizeof payloads / sizeof *payloads; at++)
        for (const char *tag = payloads[at].tags; *tag != 0; tag++) look_past_key(*tag, &payloads[at]);
    for (size_t at = 0; at < sizeof sizes / sizeof *sizes; at++)
        for (size_t len = 0; len <= sizes[at].size + 1; len++) {
            struct payload payload = {"", zeros, len, BSONRAW_PAST_END, sizes[at].size, len};
            if (len == sizes[at].size) payload = (struct payload){"", zeros, len, BSONRAW_OVERFLOWED, 0, 0};
            if (len > sizes[at].size) payload = (struct payload){"", zeros, len, SOUND, 0, 0};
            look_past_key(sizes[at].tag, &payload);
        }
    for (size_t tag = 0; tag < 256; tag++) {
        struct payload payload = {"", zeros, 0, BSONRAW_INVALID_TAG, tag, 0};
        if (tag == 0 || (19 < tag && tag != 127 && tag != 255)) look_past_key((char)tag, &payload);
    }
}

static void look_at_refusals(void) {
    for (size_t at = 0; at < sizeof refusals / sizeof *refusals; at++) {
        struct row row = {refusals[at].bytes, refusals[at].len, MALFORMED, refusals[at].reason, 0, 0, NULL};
        struct bsonraw_iter it;
        int32_t status = bsonraw_iter_init(&it, (const uint8_t *)row.bytes, row.len);
        expect(status == BSONRAW_NO_DOCUMENT && is_fault(&row, it.error), "a refusal", "another reason");
    }
}

int main(void) {
    for (size_t at = 0; at < sizeof rows / sizeof *rows; at++) {
        char name[] = "row  0";
        name[4] = (char)(at / 10 ? '0' + at / 10 : ' ');
        name[5] = (char)('0' + at % 10);
        look_at(&rows[at], name);
    }
    look_at_payloads();
    look_at_refusals();
    return result("reasons");
}
