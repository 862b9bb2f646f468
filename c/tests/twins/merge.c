/* examples/c/merge.c with libbson. */
#include <bson/bson.h>
#include <stdio.h>

static uint8_t bytes[1 << 20];

static bool lay(bson_t *to, const bson_t *one, const bson_t *other, bool is_new) {
    bson_iter_t it, found;
    if (!bson_iter_init(&it, one)) return false;
    while (bson_iter_next(&it)) {
        if (!bson_iter_init_find(&found, other, bson_iter_key(&it)))
            bson_append_iter(to, bson_iter_key(&it), -1, &it);
        else if (!is_new)
            bson_append_iter(to, bson_iter_key(&it), -1, &found);
    }
    return true;
}

int main(void) {
    size_t len = fread(bytes, 1, sizeof bytes, stdin);
    bson_reader_t *reader = bson_reader_new_from_data(bytes, len);
    const bson_t *next = bson_reader_read(reader, NULL);
    if (next == NULL) return 1;
    bson_t *under = bson_copy(next), to = BSON_INITIALIZER;
    const bson_t *over = bson_reader_read(reader, NULL);
    if (over == NULL) return 1;
    if (!lay(&to, under, over, false) || !lay(&to, over, under, true)) return 2;
    fwrite(bson_get_data(&to), 1, to.len, stdout);
    bson_destroy(&to);
    bson_destroy(under);
    bson_reader_destroy(reader);
    return 0;
}
