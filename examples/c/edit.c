/* Prints the document on standard input without what is at one path, and with the text "changed" at another one. */
#include <bsonraw.h>
#include <stdio.h>

int main(int count, char **paths) {
    static uint8_t bytes[1 << 20];
    size_t len = fread(bytes, 1, sizeof bytes, stdin);
    struct bsonraw_change changes[2];
    struct bsonraw_buffer b;
    if (count != 3) return 1;
    changes[0] = bsonraw_change_remove(paths[1]);
    changes[1] = bsonraw_change_utf8(paths[2], "changed");
    bsonraw_buffer_init(&b);
    bsonraw_buffer_edit(&b, bytes, len, changes, 2);
    if (bsonraw_buffer_finish(&b) != BSONRAW_OK) return 2;
    fwrite(b.bytes, 1, b.len, stdout);
    bsonraw_buffer_free(&b);
    return 0;
}
