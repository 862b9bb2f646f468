/* examples/c/good.c with libbson. */
#include <bson/bson.h>
#include <stdio.h>

int main(void) {
    bson_reader_t *reader = bson_reader_new_from_fd(0, false);
    const bson_t *document;
    bson_error_t error;
    bool at_end = false;
    while ((document = bson_reader_read(reader, &at_end)) != NULL) {
        long offset = (long)bson_reader_tell(reader) - document->len;
        if (bson_validate_with_error(document, BSON_VALIDATE_UTF8 | BSON_VALIDATE_UTF8_ALLOW_NULL, &error))
            fwrite(bson_get_data(document), 1, document->len, stdout);
        else
            fprintf(stderr, "%ld: %s\n", offset, error.message);
    }
    bson_reader_destroy(reader);
    return !at_end;
}
