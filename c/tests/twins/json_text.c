/* examples/c/json_text.c with libbson. */
#include <bson/bson.h>
#include <stdio.h>

int main(void) {
    static uint8_t bytes[1 << 20];
    size_t len = fread(bytes, 1, sizeof bytes, stdin);
    bson_t document;
    char *text = bson_init_static(&document, bytes, len) ? bson_as_relaxed_extended_json(&document, NULL) : NULL;
    if (text == NULL) return 1;
    puts(text);
    bson_free(text);
    return 0;
}
