/* examples/c/json.c with libbson. */
#include <bson/bson.h>
#include <stdio.h>

static uint8_t bytes[1 << 20];

static void text(const char *at, uint32_t size) {
    putchar('"');
    for (; size > 0; at++, size--)
        if ((uint8_t)*at < 32 || *at == '"' || *at == '\\') printf("\\u%04x", (unsigned)*at);
        else putchar(*at);
    putchar('"');
}

static void level(bson_iter_t *it, bool is_array);

static void value(const bson_iter_t *it) {
    bson_type_t type = bson_iter_type(it);
    bson_iter_t inner;
    const char *string;
    uint32_t size;
    switch (type) {
    case BSON_TYPE_DOUBLE: printf("%.17g", bson_iter_double(it)); break;
    case BSON_TYPE_INT32: printf("%ld", (long)bson_iter_int32(it)); break;
    case BSON_TYPE_INT64: printf("%lld", (long long)bson_iter_int64(it)); break;
    case BSON_TYPE_BOOL: printf(bson_iter_bool(it) ? "true" : "false"); break;
    case BSON_TYPE_UTF8: string = bson_iter_utf8(it, &size); text(string, size); break;
    case BSON_TYPE_NULL: printf("null"); break;
    case BSON_TYPE_DOCUMENT:
    case BSON_TYPE_ARRAY: if (bson_iter_recurse(it, &inner)) level(&inner, type == BSON_TYPE_ARRAY); break;
    default: printf("{\"$tag\": %u}", (unsigned)type & 255);
    }
}

static void level(bson_iter_t *it, bool is_array) {
    const char *comma = "";
    putchar(is_array ? '[' : '{');
    for (; bson_iter_next(it); comma = ", ") {
        printf("%s", comma);
        if (!is_array) text(bson_iter_key(it), bson_iter_key_len(it)), printf(": ");
        value(it);
    }
    putchar(is_array ? ']' : '}');
}

int main(void) {
    size_t len = fread(bytes, 1, sizeof bytes, stdin);
    bson_t document;
    bson_iter_t it;
    if (!bson_init_static(&document, bytes, len) || !bson_validate(&document, BSON_VALIDATE_UTF8, NULL)) return 1;
    if (bson_iter_init(&it, &document)) level(&it, false);
    putchar('\n');
    return 0;
}
