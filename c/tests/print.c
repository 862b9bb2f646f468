/* Prints what `bsonraw list`, `bsonraw canon` or `bsonraw check` prints of the hex text on standard input, and ends with
 * the same status, by calls of the library. The text is two lower-case digits a byte, and at most 1 MiB of bytes. */
#include <bsonraw.h>

#include <stdio.h>
#include <stdlib.h>
#include <string.h>

static uint8_t bytes[1 << 20];

static int digit(int character) {
    return character <= '9' ? character - '0' : character - 'a' + 10;
}

static size_t read_hex(void) {
    size_t len = 0;
    int high;
    while ((high = getchar()) > ' ' && len < sizeof bytes) bytes[len++] = (uint8_t)(16 * digit(high) + digit(getchar()));
    return len;
}

/* In hex; the empty key is `-`. */
static void print_hex(const uint8_t *from, size_t len) {
    if (len == 0) putchar('-');
    for (size_t at = 0; at < len; at++) printf("%02x", (unsigned)from[at]);
}

static int refused(unsigned number) {
    printf("refused %u\n", number);
    return 1;
}

static int print_fault(uint32_t kind, int has_key, const uint8_t *key, size_t key_len) {
    printf("fault %s ", kind == BSONRAW_NOT_UTF8 ? "utf8" : "malformed");
    if (has_key) print_hex(key, key_len);
    else printf("none");
    putchar('\n');
    return 1;
}

static int list(size_t len) {
    struct bsonraw_iter it;
    int32_t status = bsonraw_iter_init(&it, bytes, len);
    if (status != BSONRAW_OK) return refused(it.error.reason);
    while ((status = bsonraw_iter_next(&it, bytes, len)) == BSONRAW_OK) {
        printf("%02x ", (unsigned)it.tag);
        print_hex(bytes + it.key_at, it.key_len);
        printf(" %lu\n", (unsigned long)it.payload_len);
    }
    if (status == BSONRAW_FAULT) return print_fault(it.error.kind, it.key_at < len, bytes + it.key_at, it.key_len);
    return status == BSONRAW_NONE ? puts("end") < 0 : 4;
}

/* The form, whose length is asked for first. */
static int print_form(size_t len, size_t form_len) {
    struct bsonraw_report r;
    uint64_t path[1];
    uint8_t *form = malloc(form_len);
    if (form == NULL) return 4;
    int32_t status = bsonraw_canonical(bytes, len, 1 << 24, 500, form, form_len, &r, path, 0);
    if (status == BSONRAW_OK) {
        print_hex(form, form_len);
        putchar('\n');
    }
    free(form);
    return status == BSONRAW_OK ? 0 : 4;
}

/* Whether the program prints the key of this fault: it leaves out that of an element with a value whose text isn't UTF-8, or
 * whose inner length is at fault, or that is a code with scope at fault inside. */
static int prints_key(const struct bsonraw_report *r) {
    const uint8_t *payload = bytes + r->key_at + r->key_len + 1;
    uint32_t reason = r->error.reason, tag = bytes[r->error.offset];
    if (!r->has_key || reason == BSONRAW_ADD_OVERFLOW) return 0;
    if (r->error.kind == BSONRAW_NOT_UTF8) return tag == BSONRAW_TAG_REGEX;
    if (tag != BSONRAW_TAG_JAVASCRIPT_WITH_SCOPE || reason == BSONRAW_CODE_TOO_SMALL) return 1;
    return reason == BSONRAW_LENGTH_HEAD_SHORT || reason == BSONRAW_PAST_END || (reason == BSONRAW_NEGATIVE_LENGTH && payload[3] > 127);
}

static int canon(size_t len) {
    uint8_t empty = 0;
    struct bsonraw_report r;
    uint64_t path[1];
    switch (bsonraw_canonical(bytes, len, 1 << 24, 500, &empty, 0, &r, path, 0)) {
    case BSONRAW_SMALL_BUFFER: return print_form(len, (size_t)r.count);
    case BSONRAW_FAULT: return print_fault(r.error.kind, prints_key(&r), bytes + r.key_at, (size_t)r.key_len);
    case BSONRAW_NO_DOCUMENT: return refused(r.error.reason);
    case BSONRAW_TOO_LONG: return refused(5);
    case BSONRAW_TOO_MANY_BYTES: return refused(6);
    case BSONRAW_TOO_DEEP: return refused(7);
    default: return 4;
    }
}

static int check(size_t len) {
    static const char *const causes[] = {"", "stop", "value", "repeated-key", "array-key", "options"};
    static uint64_t path[1 << 18];
    struct bsonraw_report r;
    int32_t status = bsonraw_check(bytes, len, SIZE_MAX, SIZE_MAX, &r, path, sizeof path / sizeof *path);
    if (status == BSONRAW_NO_DOCUMENT) return refused(r.error.reason);
    if (status == BSONRAW_OK) return puts("canonical") < 0;
    if (status != BSONRAW_BREACH) return 4;
    printf("breach %s ", causes[r.cause]);
    for (size_t at = 0; at < r.path_len; at++) printf("%s%lu", at ? "." : "", (unsigned long)path[at]);
    putchar('\n');
    return 1;
}

int main(int count, char **words) {
    size_t len = read_hex();
    if (count != 2) return 3;
    if (strcmp(words[1], "list") == 0) return list(len);
    if (strcmp(words[1], "canon") == 0) return canon(len);
    if (strcmp(words[1], "check") == 0) return check(len);
    return 3;
}
