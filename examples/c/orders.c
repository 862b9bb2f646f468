/* Writes a document with as many orders as its argument says. */
#include <bsonraw.h>
#include <stdio.h>
#include <stdlib.h>

int main(int count, char **arguments) {
    int32_t i, orders = count == 2 ? atoi(arguments[1]) : 100;
    struct bsonraw_buffer b;
    bsonraw_buffer_init(&b);
    bsonraw_buffer_utf8(&b, "shop", "Emmy's");
    bsonraw_buffer_begin_array(&b, "orders");
    for (i = 0; i < orders; i++) {
        bsonraw_buffer_begin_document(&b, NULL);
        bsonraw_buffer_int32(&b, "number", i);
        bsonraw_buffer_utf8(&b, "item", i % 2 ? "a ring" : "a field");
        bsonraw_buffer_double(&b, "price", 1.5 * i);
        bsonraw_buffer_bool(&b, "paid", i % 3 == 0);
        bsonraw_buffer_end(&b);
    }
    bsonraw_buffer_end(&b);
    bsonraw_buffer_int32(&b, "count", orders);
    if (bsonraw_buffer_finish(&b) != BSONRAW_OK) return 1;
    fwrite(b.bytes, 1, b.len, stdout);
    bsonraw_buffer_free(&b);
    return 0;
}
