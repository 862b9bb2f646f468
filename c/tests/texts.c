/* Documents as Extended JSON in both formats and both layouts, beside texts that were written by hand from the published format. */
#include "documents.h"

#include <stdio.h>
#include <string.h>

#define BYTES(text) text, sizeof(text) - 1

/* A document of one element whose key is k, and the text of its value in both formats. */
struct row {
    const char *bytes;
    size_t len;
    const char *relaxed, *canonical;
};

#define BOTH(text) text, text

static const struct row rows[] = {
    {BYTES("\14\0\0\0\20k\0\0\0\0\200\0"), "-2147483648", "{\"$numberInt\":\"-2147483648\"}"},
    {BYTES("\14\0\0\0\20k\0\377\377\377\177\0"), "2147483647", "{\"$numberInt\":\"2147483647\"}"},
    {BYTES("\20\0\0\0\22k\0\0\0\0\0\0\0\0\200\0"), "-9223372036854775808", "{\"$numberLong\":\"-9223372036854775808\"}"},
    {BYTES("\20\0\0\0\22k\0\377\377\377\377\377\377\377\177\0"), "9223372036854775807", "{\"$numberLong\":\"9223372036854775807\"}"},
    {BYTES("\20\0\0\0\1k\0\0\0\0\0\0\0\0\200\0"), "-0.0", "{\"$numberDouble\":\"-0.0\"}"},
    {BYTES("\20\0\0\0\1k\0\1\0\0\0\0\0\0\0\0"), "5e-324", "{\"$numberDouble\":\"5e-324\"}"},
    {BYTES("\20\0\0\0\1k\0\377\377\377\377\377\377\357\177\0"), "1.7976931348623157e308", "{\"$numberDouble\":\"1.7976931348623157e308\"}"},
    {BYTES("\20\0\0\0\1k\0\0\0\0\0\0\0\360\377\0"), BOTH("{\"$numberDouble\":\"-Infinity\"}")},
    {BYTES("\20\0\0\0\1k\0\1\0\0\0\0\0\370\177\0"), BOTH("{\"$numberDouble\":\"NaN\"}")},
    {BYTES("\22\0\0\0\2k\0\6\0\0\0a\"\\\n\1\0\0"), BOTH("\"a\\\"\\\\\\n\\u0001\"")},
    {BYTES("\21\0\0\0\2k\0\5\0\0\0\360\237\230\200\0\0"), BOTH("\"\360\237\230\200\"")},
    {BYTES("\17\0\0\0\5k\0\2\0\0\0\200\377\376\0"), BOTH("{\"$binary\":{\"base64\":\"//4=\",\"subType\":\"80\"}}")},
    {BYTES("\24\0\0\0\5k\0\7\0\0\0\2\3\0\0\0abc\0"), BOTH("{\"$binary\":{\"base64\":\"YWJj\",\"subType\":\"02\"}}")},
    {BYTES("\10\0\0\0\6k\0\0"), BOTH("{\"$undefined\":true}")},
    {BYTES("\24\0\0\0\7k\0\1#Eg\211\253\315\357\253\315\357\0\0"), BOTH("{\"$oid\":\"0123456789abcdefabcdef00\"}")},
    {BYTES("\11\0\0\0\10k\0\1\0"), BOTH("true")},
    {BYTES("\10\0\0\0\12k\0\0"), BOTH("null")},
    {BYTES("\15\0\0\0\13k\0a\0xi\0\0"), BOTH("{\"$regularExpression\":{\"pattern\":\"a\",\"options\":\"xi\"}}")},
    {BYTES("\32\0\0\0\14k\0\2\0\0\0c\0\0\0\0\0\0\0\0\0\0\0\0\0\0"), BOTH("{\"$dbPointer\":{\"$ref\":\"c\",\"$id\":{\"$oid\":\"000000000000000000000000\"}}}")},
    {BYTES("\16\0\0\0\15k\0\2\0\0\0f\0\0"), BOTH("{\"$code\":\"f\"}")},
    {BYTES("\16\0\0\0\16k\0\2\0\0\0s\0\0"), BOTH("{\"$symbol\":\"s\"}")},
    {BYTES("\20\0\0\0\21k\0\377\377\377\377\1\0\0\0\0"), BOTH("{\"$timestamp\":{\"t\":1,\"i\":4294967295}}")},
    {BYTES("\10\0\0\0\377k\0\0"), BOTH("{\"$minKey\":1}")},
    {BYTES("\10\0\0\0\177k\0\0"), BOTH("{\"$maxKey\":1}")},
    {BYTES("\15\0\0\0\3k\0\5\0\0\0\0\0"), BOTH("{}")},
    {BYTES("\15\0\0\0\4k\0\5\0\0\0\0\0"), BOTH("[]")},
    {BYTES("\20\0\0\0\11k\0\377\377\377\377\377\377\377\377\0"), BOTH("{\"$date\":{\"$numberLong\":\"-1\"}}")},
    {BYTES("\20\0\0\0\11k\0\0\334\37\322w\346\0\0\0"), BOTH("{\"$date\":{\"$numberLong\":\"253402300800000\"}}")},
    {BYTES("\20\0\0\0\11k\0\0\0\0\0\0\0\0\0\0"), "{\"$date\":\"1970-01-01T00:00:00Z\"}", "{\"$date\":{\"$numberLong\":\"0\"}}"},
    {BYTES("\20\0\0\0\11k\0\377\333\37\322w\346\0\0\0"), "{\"$date\":\"9999-12-31T23:59:59.999Z\"}", "{\"$date\":{\"$numberLong\":\"253402300799999\"}}"},
    {BYTES("\30\0\0\0\23k\0\1\0\0\0\0\0\0\0\0\0\0\0\0\0\376_\0"), BOTH("{\"$numberDecimal\":\"1E+6111\"}")},
    {BYTES("\30\0\0\0\23k\0\1\0\0\0\0\0\0\0\0\0\0\0\0\0\0\200\0"), BOTH("{\"$numberDecimal\":\"-1E-6176\"}")},
};

/* A repeated key, an array of a document and a null, a code with a scope, and an empty array. */
static const char nested[] = "M\0\0\0\20a\0\1\0\0\0\4a\0\27\0\0\0\0037\0\14\0\0\0\20b\0\2\0\0\0\0\12x\0\0"
                             "\17c\0\26\0\0\0\2\0\0\0f\0\14\0\0\0\20x\0\3\0\0\0\0\4e\0\5\0\0\0\0\20\0\4\0\0\0";

static const char *const nested_texts[4] = {
    "{\"a\":1,\"a\":[{\"b\":2},null],\"c\":{\"$code\":\"f\",\"$scope\":{\"x\":3}},\"e\":[],\"\":4}",
    "{\n  \"a\": 1,\n  \"a\": [\n    {\n      \"b\": 2\n    },\n    null\n  ],\n  \"c\": {\"$code\":\"f\",\"$scope\":{\n    \"x\": 3\n  }},\n"
    "  \"e\": [],\n  \"\": 4\n}",
    "{\"a\":{\"$numberInt\":\"1\"},\"a\":[{\"b\":{\"$numberInt\":\"2\"}},null],\"c\":{\"$code\":\"f\",\"$scope\":{\"x\":{\"$numberInt\":\"3\"}}},"
    "\"e\":[],\"\":{\"$numberInt\":\"4\"}}",
    "{\n  \"a\": {\"$numberInt\":\"1\"},\n  \"a\": [\n    {\n      \"b\": {\"$numberInt\":\"2\"}\n    },\n    null\n  ],\n"
    "  \"c\": {\"$code\":\"f\",\"$scope\":{\n    \"x\": {\"$numberInt\":\"3\"}\n  }},\n  \"e\": [],\n  \"\": {\"$numberInt\":\"4\"}\n}",
};

/* The document has this text with these flags, and exactly its bytes and a 0 are written. */
static void has_text(const char *bytes, size_t len, uint32_t canonical, uint32_t indented, const char *text) {
    static uint8_t room[ROOM];
    struct bsonraw_report r;
    uint64_t path[1];
    size_t count = strlen(text);
    memset(room, '#', sizeof room);
    int32_t status = bsonraw_json((const uint8_t *)bytes, len, len, 3, canonical, indented, room, count + 1, &r, path, 1);
    expect(status == BSONRAW_OK && r.count == count, text, "another status or length");
    expect(memcmp(room, text, count + 1) == 0 && room[count + 1] == '#', text, "another text");
}

/* Any number but 0 sets a flag. */
static void has_texts(const char *bytes, size_t len, const char *const texts[4]) {
    static const uint32_t set[3] = {1, 256, 4294967295u};
    for (size_t at = 0; at < 3; at++) {
        has_text(bytes, len, 0, 0, texts[0]);
        has_text(bytes, len, 0, set[at], texts[1]);
        has_text(bytes, len, set[at], 0, texts[2]);
        has_text(bytes, len, set[at], set[2 - at], texts[3]);
    }
}

static void look_at(const struct row *row) {
    static char texts[4][256];
    const char *each[4];
    for (size_t at = 0; at < 4; at++) {
        const char *form = at % 2 ? "{\n  \"k\": %s\n}" : "{\"k\":%s}";
        snprintf(texts[at], sizeof texts[at], form, at < 2 ? row->relaxed : row->canonical);
        each[at] = texts[at];
    }
    has_texts(row->bytes, row->len, each);
}

int main(void) {
    static const char *const empty[4] = {"{}", "{}", "{}", "{}"};
    for (size_t at = 0; at < sizeof rows / sizeof *rows; at++) look_at(&rows[at]);
    has_texts(nested, sizeof nested, nested_texts);
    has_texts("\5\0\0\0", 5, empty);
    return result("texts");
}
