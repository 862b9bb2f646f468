/* Checks each document of a dump in memory by bsonraw_check: what `bsonraw-dump check` does, except for reading, counting and telling.
 *
 * usage: checked DUMP      prints the processor's seconds */
#include <bsonraw.h>
#include <stdio.h>
#include <stdlib.h>
#include <string.h>

#include "clock.h"

/* what the program allows where no limits are given */
enum { MOST_BYTES = 16793600, MOST_LEVELS = 500 };

static void judge(const uint8_t *bytes, size_t len) {
    struct bsonraw_report report;
    uint32_t document_len;
    size_t at;
    for (at = 0; at < len; at += document_len) {
        memcpy(&document_len, bytes + at, sizeof document_len);
        if (bsonraw_check(bytes + at, document_len, MOST_BYTES, MOST_LEVELS, &report, NULL, 0) != BSONRAW_OK) abort();
    }
}

int main(int argc, char **argv) {
    FILE *file = argc == 2 ? fopen(argv[1], "rb") : NULL;
    size_t len;
    uint8_t *bytes;
    double begun;
    if (!file || fseek(file, 0, SEEK_END)) return 2;
    len = (size_t)ftell(file);
    rewind(file);
    bytes = malloc(len);
    if (!bytes || fread(bytes, 1, len, file) != len) return 2;
    begun = now();
    judge(bytes, len);
    printf("%.3f\n", (now() - begun) / 1e9);
    return 0;
}
