/* Prints the document on standard input as JSON, its nested ones too. */
#include <bsonraw.h>
#include <stdio.h>
#include <string.h>

static uint8_t bytes[1 << 20];
static struct bsonraw_token tokens[1 << 18];

static void text(uint32_t at, uint32_t size) {
    putchar('"');
    for (; size > 0; at++, size--)
        if (bytes[at] < 32 || bytes[at] == '"' || bytes[at] == '\\') printf("\\u%04x", (unsigned)bytes[at]);
        else putchar(bytes[at]);
    putchar('"');
}

static void value(const struct bsonraw_token *t);

/* The tokens inside one, or all. */
static void level(const struct bsonraw_token *t, uint64_t inside, int is_array) {
    const struct bsonraw_token *end = t + inside, *first = t;
    putchar(is_array ? '[' : '{');
    for (; t < end; t += 1 + t->inside) {
        if (t > first) printf(", ");
        if (!is_array) text(t->key_at, t->key_len), printf(": ");
        value(t);
    }
    putchar(is_array ? ']' : '}');
}

static void value(const struct bsonraw_token *t) {
    const uint8_t *payload = bytes + t->payload_at;
    double real;
    int64_t number = 0;
    switch (t->tag) {
    case BSONRAW_TAG_DOUBLE: memcpy(&real, payload, sizeof real); printf("%.17g", real); break;
    case BSONRAW_TAG_INT32: memcpy(&number, payload, 4); printf("%d", (int32_t)number); break;
    case BSONRAW_TAG_INT64: memcpy(&number, payload, 8); printf("%lld", (long long)number); break;
    case BSONRAW_TAG_BOOLEAN: printf(*payload ? "true" : "false"); break;
    case BSONRAW_TAG_STRING: text(t->payload_at + 4, t->payload_len - 5); break;
    case BSONRAW_TAG_NULL: printf("null"); break;
    case BSONRAW_TAG_DOCUMENT:
    case BSONRAW_TAG_ARRAY: level(t + 1, t->inside, t->tag == BSONRAW_TAG_ARRAY); break;
    default: printf("{\"$tag\": %u}", (unsigned)t->tag);
    }
}

int main(void) {
    struct bsonraw_report r;
    size_t len = fread(bytes, 1, sizeof bytes, stdin);
    if (bsonraw_flatten(bytes, len, sizeof bytes, 100, tokens, 1 << 18, &r, NULL, 0) != BSONRAW_OK) return 1;
    level(tokens, r.count, 0);
    putchar('\n');
    return 0;
}
