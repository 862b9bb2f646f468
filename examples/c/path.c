/* Prints the text at a dotted path of the document on standard input, as authors.0.name. */
#include <bsonraw.h>
#include <stdio.h>

int main(int count, char **arguments) {
    static uint8_t bytes[1 << 20];
    size_t len = fread(bytes, 1, sizeof bytes, stdin), text_len;
    const char *text;
    int32_t status = bsonraw_get_utf8(bytes, len, count == 2 ? arguments[1] : "", &text, &text_len);
    if (status != BSONRAW_OK) return status == BSONRAW_NO_DOCUMENT ? 2 : 1;
    printf("%s\n", text);
    return 0;
}
