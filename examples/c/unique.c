/* Writes the canonical form of each document of a dump on standard input once, in order. */
#include <bsonraw.h>
#include <stdio.h>
#include <stdlib.h>

struct form {
    struct form *next;
    size_t len;
    uint8_t bytes[];
};

static struct form *forms[1 << 16];

static struct form **place_of(const uint8_t *bytes, size_t len) {
    uint32_t hash = 2166136261;
    for (size_t at = 0; at < len; at++) hash = (hash ^ bytes[at]) * 16777619;
    struct form **place = &forms[hash % (1 << 16)];
    while (*place != NULL && ((*place)->len != len || memcmp((*place)->bytes, bytes, len) != 0)) place = &(*place)->next;
    return place;
}

int main(void) {
    static uint8_t bytes[1 << 24];
    struct bsonraw_stream s;
    struct bsonraw_report r;
    int32_t status = bsonraw_stream_from_file(&s, stdin);
    while (status == BSONRAW_OK && (status = bsonraw_stream_read(&s)) == BSONRAW_OK) {
        if (bsonraw_canonical(s.bytes, s.len, SIZE_MAX, 100, bytes, sizeof bytes, &r, NULL, 0) != BSONRAW_OK) continue;
        struct form **place = place_of(bytes, r.count);
        if (*place != NULL) continue;
        *place = calloc(1, sizeof **place + r.count);
        if (*place == NULL) return 2;
        (*place)->len = r.count;
        memcpy((*place)->bytes, bytes, r.count);
        fwrite(bytes, 1, r.count, stdout);
    }
    bsonraw_stream_free(&s);
    return status != BSONRAW_NONE;
}
