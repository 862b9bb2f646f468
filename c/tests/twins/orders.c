/* examples/c/orders.c with libbson. */
#include <bson/bson.h>
#include <stdio.h>
#include <stdlib.h>

int main(int count, char **arguments) {
    int32_t i, orders = count == 2 ? atoi(arguments[1]) : 100;
    bson_t document = BSON_INITIALIZER, list, order;
    char room[16];
    const char *key;
    bool good = BSON_APPEND_UTF8(&document, "shop", "Emmy's");
    good = good && BSON_APPEND_ARRAY_BEGIN(&document, "orders", &list);
    for (i = 0; i < orders; i++) {
        size_t len = bson_uint32_to_string((uint32_t)i, &key, room, sizeof room);
        good = good && bson_append_document_begin(&list, key, (int)len, &order);
        good = good && BSON_APPEND_INT32(&order, "number", i);
        good = good && BSON_APPEND_UTF8(&order, "item", i % 2 ? "a ring" : "a field");
        good = good && BSON_APPEND_DOUBLE(&order, "price", 1.5 * i);
        good = good && BSON_APPEND_BOOL(&order, "paid", i % 3 == 0);
        good = good && bson_append_document_end(&list, &order);
    }
    good = good && bson_append_array_end(&document, &list);
    good = good && BSON_APPEND_INT32(&document, "count", orders);
    if (!good) return 1;
    fwrite(bson_get_data(&document), 1, document.len, stdout);
    bson_destroy(&document);
    return 0;
}
