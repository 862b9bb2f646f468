/* What GCC has to warn of, each line of c/tests/warned.txt in the place of LINE. */
#include <bsonraw.h>

void use(const uint8_t *bytes, size_t len);

void use(const uint8_t *bytes, size_t len) {
    uint8_t room[64] = {0}, eight[8] = {0}, *pointer = room;
    char small[24], hex[BSONRAW_OID_TEXT], text[BSONRAW_DECIMAL128_TEXT];
    const char *part;
    const uint8_t *found;
    size_t found_len;
    uint32_t tag;
    char *own;
    uint64_t path[4];
    int32_t number;
    struct bsonraw_builder b;
    struct bsonraw_buffer grows;
    struct bsonraw_field f[] = {BSONRAW_FIELD("a")};
    struct bsonraw_iter it;
    struct bsonraw_report r;
    struct bsonraw_json_report told;
    bsonraw_builder_begin(&b, room, sizeof room);
    bsonraw_buffer_init(&grows);
    if (bsonraw_get(bytes, len, "a", &it) != BSONRAW_OK || bsonraw_check(bytes, len, 99, 9, &r, path, 4) != BSONRAW_OK) return;
    (void)!BSONRAW_FROM_JSON("{}", room, &told);
    (void)eight, (void)pointer, (void)small, (void)hex, (void)text, (void)part, (void)number, (void)f, (void)found, (void)found_len, (void)tag, (void)own;
    LINE
}
