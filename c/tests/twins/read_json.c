/* examples/c/read_json.c with libbson. */
#include <bson/bson.h>
#include <stdio.h>

int main(void) {
    static uint8_t text[1 << 20];
    size_t len = fread(text, 1, sizeof text, stdin);
    bson_error_t error;
    bson_t *document = bson_new_from_json(text, (ssize_t)len, &error);
    if (document == NULL) {
        fprintf(stderr, "%s\n", error.message);
        return 1;
    }
    fwrite(bson_get_data(document), 1, document->len, stdout);
    bson_destroy(document);
    return 0;
}
