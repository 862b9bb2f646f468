#include <bsonraw.h>
#include <stdio.h>

int main(void) {
    static uint8_t bytes[1 << 20];
    size_t len = fread(bytes, 1, sizeof bytes, stdin);
    struct bsonraw_iter it;
    int32_t status = bsonraw_iter_init(&it, bytes, len);
    while (status == BSONRAW_OK && (status = bsonraw_iter_next(&it, bytes, len)) == BSONRAW_OK)
        printf("%02x %.*s\n", (unsigned)it.tag, BSONRAW_TEXT(bytes, it.key_at, it.key_len));
    return status != BSONRAW_NONE;
}
