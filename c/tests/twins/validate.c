/* examples/c/validate.c with libbson, which says no path. */
#include <bson/bson.h>
#include <stdio.h>

int main(void) {
    static uint8_t bytes[1 << 20];
    size_t len = fread(bytes, 1, sizeof bytes, stdin), offset;
    bson_t document;
    bson_error_t error;
    if (!bson_init_static(&document, bytes, len)) {
        printf("no document\n");
        return 1;
    }
    if (!bson_validate(&document, BSON_VALIDATE_UTF8, &offset)) {
        (void)bson_validate_with_error(&document, BSON_VALIDATE_UTF8, &error);
        printf("byte %lu: %s\n", (unsigned long)offset, error.message);
        return 1;
    }
    printf("sound\n");
    return 0;
}
