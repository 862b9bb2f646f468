/* examples/c/keys.c with libbson. */
#include <bson/bson.h>
#include <stdio.h>

static bool print_level(bson_iter_t *it, int depth) {
    bson_iter_t inside;
    while (bson_iter_next(it)) {
        printf("%*s%02x %s\n", 2 * depth, "", (unsigned)bson_iter_type(it), bson_iter_key(it));
        if (!BSON_ITER_HOLDS_DOCUMENT(it) && !BSON_ITER_HOLDS_ARRAY(it)) continue;
        if (depth > 98 || !bson_iter_recurse(it, &inside) || !print_level(&inside, depth + 1)) return false;
    }
    return it->err_off == 0;
}

int main(void) {
    static uint8_t bytes[1 << 20];
    size_t len = fread(bytes, 1, sizeof bytes, stdin);
    bson_t document;
    bson_iter_t it;
    if (!bson_init_static(&document, bytes, len) || !bson_iter_init(&it, &document)) return 1;
    return !print_level(&it, 0);
}
