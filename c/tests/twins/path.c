/* examples/c/path.c with libbson. */
#include <bson/bson.h>
#include <stdio.h>

int main(int count, char **arguments) {
    static uint8_t bytes[1 << 20];
    size_t len = fread(bytes, 1, sizeof bytes, stdin);
    bson_t document;
    bson_iter_t it, found;
    if (!bson_init_static(&document, bytes, len) || !bson_iter_init(&it, &document)) return 2;
    if (!bson_iter_find_descendant(&it, count == 2 ? arguments[1] : "", &found)) return 1;
    if (!BSON_ITER_HOLDS_UTF8(&found)) return 1;
    printf("%s\n", bson_iter_utf8(&found, NULL));
    return 0;
}
