/* Prints each key of the document on standard input with its tag, the nested ones further in. */
#include <bsonraw.h>
#include <stdio.h>

static uint8_t bytes[1 << 20];
static struct bsonraw_token tokens[1 << 18];

int main(void) {
    struct bsonraw_report r;
    size_t len = fread(bytes, 1, sizeof bytes, stdin);
    if (bsonraw_flatten(bytes, len, sizeof bytes, 100, tokens, 1 << 18, &r, NULL, 0) != BSONRAW_OK) return 1;
    for (const struct bsonraw_token *t = tokens; t < tokens + r.count; t++)
        printf("%*s%02x %.*s\n", 2 * (int)t->depth, "", (unsigned)t->tag, BSONRAW_TEXT(bytes, t->key_at, t->key_len));
    return 0;
}
