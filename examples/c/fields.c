/* Prints four fields of each document of a dump on standard input, where all four are there and of these kinds. */
#include <bsonraw.h>
#include <stdio.h>

int main(void) {
    struct bsonraw_field f[] = {BSONRAW_FIELD("_id"), BSONRAW_FIELD("name"), BSONRAW_FIELD("born"), BSONRAW_FIELD("address.city")};
    const uint32_t tags[] = {BSONRAW_TAG_OBJECT_ID, BSONRAW_TAG_STRING, BSONRAW_TAG_INT32, BSONRAW_TAG_STRING};
    struct bsonraw_stream s;
    char id[25];
    int32_t status = bsonraw_stream_from_file(&s, stdin);
    while (status == BSONRAW_OK && (status = bsonraw_stream_read(&s)) == BSONRAW_OK) {
        int good = bsonraw_find_many(s.bytes, s.len, f, 4) == BSONRAW_OK;
        for (int i = 0; i < 4; i++) good = good && f[i].value.tag == tags[i];
        if (!good) continue;
        bsonraw_oid_to_hex(s.bytes + f[0].value.text_at, id);
        printf("%s %.*s %d %.*s\n", id, BSONRAW_TEXT(s.bytes, f[1].value.text_at, f[1].value.text_len), (int)f[2].value.integer,
               BSONRAW_TEXT(s.bytes, f[3].value.text_at, f[3].value.text_len));
    }
    bsonraw_stream_free(&s);
    return status != BSONRAW_NONE;
}
