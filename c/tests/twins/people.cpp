// examples/c/people.cpp with libbson.
#include <bson/bson.h>
#include <iostream>
#include <string>

static std::string text_at(const bson_t *document, const char *path, const char *other) {
    bson_iter_t it, found;
    if (!bson_iter_init(&it, document) || !bson_iter_find_descendant(&it, path, &found) || !BSON_ITER_HOLDS_UTF8(&found)) return other;
    uint32_t len;
    const char *text = bson_iter_utf8(&found, &len);
    return std::string(text, len);
}

int main() {
    bson_reader_t *reader = bson_reader_new_from_fd(0, false);
    while (const bson_t *person = bson_reader_read(reader, nullptr)) {
        bson_iter_t born;
        int year = bson_iter_init_find(&born, person, "born") && BSON_ITER_HOLDS_INT32(&born) ? bson_iter_int32(&born) : 0;
        std::cout << text_at(person, "name", "nobody") << ", " << text_at(person, "address.city", "nowhere") << ", " << year << '\n';
    }
    bson_reader_destroy(reader);
}
