/* examples/c/unique.c with libbson, which has no canonical form: a key's last value in its first place is found by hand, at the
 * outermost level alone. */
#include <bson/bson.h>
#include <stdio.h>
#include <stdlib.h>

struct form {
    struct form *next;
    bson_t *document;
};

static struct form *forms[1 << 16];

static struct form **place_of(const bson_t *document) {
    const uint8_t *bytes = bson_get_data(document);
    uint32_t hash = 2166136261;
    for (size_t at = 0; at < document->len; at++) hash = (hash ^ bytes[at]) * 16777619;
    struct form **place = &forms[hash % (1 << 16)];
    while (*place != NULL && !bson_equal((*place)->document, document)) place = &(*place)->next;
    return place;
}

static bool form_of(const bson_t *document, bson_t *form) {
    bson_iter_t it, other, last;
    if (!bson_iter_init(&it, document)) return false;
    while (bson_iter_next(&it)) {
        if (bson_has_field(form, bson_iter_key(&it))) continue;
        other = last = it;
        while (bson_iter_find(&other, bson_iter_key(&it))) last = other;
        if (!bson_append_iter(form, NULL, 0, &last)) return false;
    }
    return true;
}

int main(void) {
    bson_reader_t *reader = bson_reader_new_from_fd(0, false);
    const bson_t *document;
    bool at_end = false;
    while ((document = bson_reader_read(reader, &at_end)) != NULL) {
        bson_t *form = bson_new();
        if (!bson_validate(document, BSON_VALIDATE_UTF8, NULL) || !form_of(document, form)) {
            bson_destroy(form);
            continue;
        }
        struct form **place = place_of(form);
        if (*place != NULL) {
            bson_destroy(form);
            continue;
        }
        *place = calloc(1, sizeof **place);
        if (*place == NULL) return 2;
        (*place)->document = form;
        fwrite(bson_get_data(form), 1, form->len, stdout);
    }
    bson_reader_destroy(reader);
    return !at_end;
}
