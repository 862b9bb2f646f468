/* Prints the document on standard input as relaxed Extended JSON, on one line. */
#include <bsonraw.h>
#include <stdio.h>

static uint8_t bytes[1 << 20];
static char text[1 << 24];

int main(void) {
    struct bsonraw_report r;
    size_t len = fread(bytes, 1, sizeof bytes, stdin);
    if (bsonraw_json_text(bytes, len, sizeof bytes, 100, 0, text, sizeof text, &r, NULL, 0) != BSONRAW_OK) return 1;
    return puts(text) < 0;
}
