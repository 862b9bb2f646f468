/* Prints the first of two documents on standard input with the second laid over it: a key that is there gets the other's
 * value in its place, and new keys follow. */
#include <bsonraw.h>
#include <stdio.h>

int main(void) {
    static uint8_t bytes[1 << 20];
    size_t len = fread(bytes, 1, sizeof bytes, stdin);
    struct bsonraw_reader one = {0, 0, 0, {0, 0, 0, 0, 0}}, other;
    struct bsonraw_buffer b;
    if (bsonraw_reader_read(&one, bytes, len) != BSONRAW_OK) return 1;
    other = one;
    if (bsonraw_reader_read(&other, bytes, len) != BSONRAW_OK) return 1;
    bsonraw_buffer_init(&b);
    bsonraw_buffer_copy_with(&b, bytes + one.document_at, one.document_len, bytes + other.document_at, other.document_len);
    if (bsonraw_buffer_finish(&b) != BSONRAW_OK) return 2;
    fwrite(b.bytes, 1, b.len, stdout);
    bsonraw_buffer_free(&b);
    return 0;
}
