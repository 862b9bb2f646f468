/* A fuzzer of bsonraw_from_json, for libFuzzer: any bytes as a text. What is read has no fault, and its canonical text is read as the same
 * bytes. The library has no counters of its own: reasons, kinds of elements and depths tell the fuzzer what is new. */
#include <bsonraw.h>

#include <stdlib.h>
#include <string.h>

enum { ROOM = 1 << 16, TEXT = 1 << 20, LEVELS = 50, TOKENS = 4096, NEWS = 1 << 14 };

__attribute__((section("__libfuzzer_extra_counters"), used)) static volatile uint8_t news[NEWS];

static void is_new(unsigned sort, uint64_t number) {
    news[(sort * 1021 + number * 31) % NEWS] = 1;
}

/* Which kinds of elements are in which order, and how deep. */
static void look_into(const uint8_t *document, size_t len) {
    static struct bsonraw_token tokens[TOKENS];
    struct bsonraw_report r;
    uint64_t path[1];
    uint64_t i;
    if (bsonraw_flatten(document, len, ROOM, LEVELS, tokens, TOKENS, &r, path, 0) != BSONRAW_OK) return;
    for (i = 0; i < r.count; i++) {
        is_new(tokens[i].tag, tokens[i].depth);
        if (i > 0) is_new(300 + tokens[i].tag, tokens[i - 1].tag);
        is_new(700 + tokens[i].tag, tokens[i].payload_len < 32 ? tokens[i].payload_len : 32);
    }
}

int LLVMFuzzerTestOneInput(const uint8_t *text, size_t len);
int LLVMFuzzerTestOneInput(const uint8_t *text, size_t len) {
    static uint8_t document[ROOM], again[ROOM], printed[TEXT];
    struct bsonraw_json_report read, reread;
    struct bsonraw_report r;
    uint64_t path[1];
    int32_t status = bsonraw_from_json(text, len, ROOM, LEVELS, document, ROOM, &read);
    if (status != BSONRAW_OK) {
        if (read.offset > len || read.line == 0 || read.column == 0 || (status == BSONRAW_FAULT) != (read.json_reason != 0)) abort();
        is_new(1100 + read.json_reason + 32 * read.wrapper, read.offset < 32 ? read.offset : 32);
        return 0;
    }
    look_into(document, (size_t)read.count);
    if (bsonraw_first_fault(document, (size_t)read.count, ROOM, LEVELS, &r, path, 0) != BSONRAW_OK) abort();
    if (bsonraw_json(document, (size_t)read.count, ROOM, LEVELS, 1, 0, printed, TEXT, &r, path, 0) != BSONRAW_OK) abort();
    if (bsonraw_from_json(printed, (size_t)r.count, ROOM, LEVELS, again, ROOM, &reread) != BSONRAW_OK) abort();
    if (reread.count != read.count || memcmp(document, again, (size_t)read.count) != 0) abort();
    return 0;
}
