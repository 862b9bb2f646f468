/* examples/c/edit.c with libbson. */
#include <bson/bson.h>
#include <stdio.h>
#include <string.h>

static uint8_t bytes[1 << 20];

static bool copy(bson_t *to, bson_iter_t *it, const char *front, char **paths) {
    char path[512];
    while (bson_iter_next(it)) {
        const char *key = bson_iter_key(it);
        bson_iter_t inside;
        bson_t level;
        snprintf(path, sizeof path, "%s%s", front, key);
        if (strcmp(path, paths[1]) == 0) continue;
        if (strcmp(path, paths[2]) == 0) {
            if (!BSON_APPEND_UTF8(to, key, "changed")) return false;
        } else if (BSON_ITER_HOLDS_DOCUMENT(it) && bson_iter_recurse(it, &inside)) {
            strcat(path, ".");
            if (!BSON_APPEND_DOCUMENT_BEGIN(to, key, &level) || !copy(&level, &inside, path, paths)) return false;
            if (!bson_append_document_end(to, &level)) return false;
        } else if (!bson_append_iter(to, key, -1, it)) {
            return false;
        }
    }
    return true;
}

int main(int count, char **paths) {
    size_t len = fread(bytes, 1, sizeof bytes, stdin);
    bson_t document, to = BSON_INITIALIZER;
    bson_iter_t it;
    if (count != 3) return 1;
    if (!bson_init_static(&document, bytes, len) || !bson_iter_init(&it, &document) || !copy(&to, &it, "", paths)) return 2;
    if (!bson_has_field(&to, paths[2])) BSON_APPEND_UTF8(&to, paths[2], "changed");
    fwrite(bson_get_data(&to), 1, to.len, stdout);
    bson_destroy(&to);
    return 0;
}
