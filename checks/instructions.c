/* Calls of daily use, each in a function of its own, on the documents typical, tiny, last_key, deep and strings of bench/documents.py,
 * which are on standard input, for checks/instructions.sh, which counts the instructions of each function. Aborts where a call doesn't
 * return what it has to. */
#include <bsonraw.h>
#include <stdio.h>
#include <stdlib.h>
#include <string.h>

#define ALL ((size_t)2147483647)
#define OP __attribute__((noinline, used)) static void

struct bytes {
    uint8_t *at;
    size_t len;
};

static struct bytes typical, tiny, last_key, deep, texts;
static struct bsonraw_report report;
static uint8_t room[1 << 20];
static struct bsonraw_token tokens[4096];

static void wants(int holds, const char *what) {
    if (holds) return;
    fprintf(stderr, "instructions: %s doesn't return what it has to\n", what);
    abort();
}

/* The next of the documents on standard input. */
static struct bytes next_document(void) {
    struct bytes document = {NULL, 0};
    uint8_t head[4];
    wants(fread(head, 1, 4, stdin) == 4, "standard input");
    document.len = head[0] | (size_t)head[1] << 8 | (size_t)head[2] << 16;
    document.at = malloc(document.len);
    wants(document.at && document.len > 4, "malloc");
    memcpy(document.at, head, 4);
    wants(fread(document.at + 4, 1, document.len - 4, stdin) == document.len - 4, "standard input");
    return document;
}

/* How many elements the outermost level has, each with its value where that is needed. */
static unsigned count(struct bytes document, int with_values) {
    struct bsonraw_iter iter;
    struct bsonraw_value value;
    unsigned found = 0;
    int32_t status = bsonraw_iter_init(&iter, document.at, document.len);
    while (status == BSONRAW_OK && (status = bsonraw_iter_next(&iter, document.at, document.len)) == BSONRAW_OK) {
        found++;
        if (with_values) wants(bsonraw_iter_value(&iter, document.at, document.len, &value) == BSONRAW_OK, "bsonraw_iter_value");
    }
    return found;
}

static void finds(struct bytes document, const char *key) {
    struct bsonraw_iter iter;
    wants(bsonraw_iter_init_find(&iter, document.at, document.len, BSONRAW_STR(key)) == BSONRAW_OK, "bsonraw_iter_init_find");
}

static void flattens(struct bytes document) {
    wants(bsonraw_flatten(document.at, document.len, ALL, ALL, tokens, 4096, &report, NULL, 0) == BSONRAW_OK, "bsonraw_flatten");
}

OP op_elements_typical(void) { wants(count(typical, 0) == 23, "bsonraw_iter_next"); }
OP op_values_typical(void) { wants(count(typical, 1) == 23, "bsonraw_iter_next"); }
OP op_values_of_long_texts(void) { wants(count(texts, 1) == 9000, "bsonraw_iter_next"); }
OP op_look_up_in_one(void) { finds(tiny, "hi"); }
OP op_look_up_last_of_1000(void) { finds(last_key, "field_0999"); }
OP op_first_fault_typical(void) {
    wants(bsonraw_first_fault(typical.at, typical.len, ALL, ALL, &report, NULL, 0) == BSONRAW_OK, "bsonraw_first_fault");
}
OP op_check_typical(void) { wants(bsonraw_check(typical.at, typical.len, ALL, ALL, &report, NULL, 0) == BSONRAW_OK, "bsonraw_check"); }
OP op_flatten_typical(void) { flattens(typical); }
OP op_flatten_499_levels(void) { flattens(deep); }
OP op_form_typical(void) {
    wants(bsonraw_canonical(typical.at, typical.len, ALL, ALL, room, sizeof room, &report, NULL, 0) == BSONRAW_OK, "bsonraw_canonical");
}
static void print_json(void) {
    wants(bsonraw_json(typical.at, typical.len, ALL, ALL, 1, 0, room, sizeof room, &report, NULL, 0) == BSONRAW_OK, "bsonraw_json");
}

OP op_json_typical(void) { print_json(); }

static uint8_t text[1 << 20];
static size_t text_len;

OP op_document_of_json_typical(void) {
    struct bsonraw_json_report found;
    wants(bsonraw_from_json(text, text_len, ALL, 500, room, sizeof room, &found) == BSONRAW_OK, "bsonraw_from_json");
}

OP op_append_1000_int32(void) {
    struct bsonraw_builder builder;
    int i;
    bsonraw_builder_begin(&builder, room, sizeof room);
    for (i = 0; i < 1000; i++) (void)!bsonraw_append_int32(&builder, room, sizeof room, BSONRAW_KEY("key"), i);
    wants(bsonraw_builder_end(&builder, room, sizeof room) == BSONRAW_OK, "bsonraw_append_int32");
}

int main(void) {
    typical = next_document();
    tiny = next_document();
    last_key = next_document();
    deep = next_document();
    texts = next_document();
    print_json();
    text_len = (size_t)report.count;
    wants(text_len < sizeof text, "bsonraw_json");
    memcpy(text, room, text_len);
    op_elements_typical();
    op_values_typical();
    op_values_of_long_texts();
    op_look_up_in_one();
    op_look_up_last_of_1000();
    op_first_fault_typical();
    op_check_typical();
    op_flatten_typical();
    op_flatten_499_levels();
    op_form_typical();
    op_json_typical();
    op_document_of_json_typical();
    op_append_1000_int32();
    return 0;
}
