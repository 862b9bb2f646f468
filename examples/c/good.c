/* Writes the documents of a dump on standard input that have no damage, and says of each other one where it begins and what is wrong. */
#include <bsonraw.h>
#include <stdio.h>

int main(void) {
    struct bsonraw_stream s;
    struct bsonraw_report r;
    int32_t status = bsonraw_stream_from_file(&s, stdin);
    while (status == BSONRAW_OK && (status = bsonraw_stream_read(&s)) == BSONRAW_OK)
        if (bsonraw_first_fault(s.bytes, s.len, 1 << 24, 100, &r, NULL, 0) == BSONRAW_OK) fwrite(s.bytes, 1, s.len, stdout);
        else fprintf(stderr, "%lu: %s\n", (unsigned long)s.offset, bsonraw_error_text(&r.error));
    bsonraw_stream_free(&s);
    return status != BSONRAW_NONE;
}
