/* examples/c/fields.c with libbson. */
#include <bson/bson.h>
#include <stdio.h>

int main(void) {
    bson_reader_t *reader = bson_reader_new_from_fd(0, false);
    const bson_t *document;
    bool at_end = false;
    char hex[25];
    while ((document = bson_reader_read(reader, &at_end)) != NULL) {
        bson_iter_t id, name, born, it, city;
        bool good = bson_iter_init_find(&id, document, "_id") && BSON_ITER_HOLDS_OID(&id) &&
                    bson_iter_init_find(&name, document, "name") && BSON_ITER_HOLDS_UTF8(&name) &&
                    bson_iter_init_find(&born, document, "born") && BSON_ITER_HOLDS_INT32(&born) &&
                    bson_iter_init(&it, document) && bson_iter_find_descendant(&it, "address.city", &city) &&
                    BSON_ITER_HOLDS_UTF8(&city);
        if (!good) continue;
        bson_oid_to_string(bson_iter_oid(&id), hex);
        printf("%s %s %d %s\n", hex, bson_iter_utf8(&name, NULL), bson_iter_int32(&born), bson_iter_utf8(&city, NULL));
    }
    bson_reader_destroy(reader);
    return !at_end;
}
