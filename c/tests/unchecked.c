/* With BSONRAW_UNCHECKED, too, an argument is evaluated once, and the calls that are given a text look for NULL. */
#define BSONRAW_UNCHECKED
#include "documents.h"

#include <string.h>

int main(void) {
    static const char *const ids[] = {"000102030405060708090a0b", "z"}, *const decimals[] = {"1.5", "z"}, *const times[] = {"1970-01-01T00:00:01Z", "z"};
    const char *const *id_text = ids, *const *decimal_text = decimals, *const *time_text = times;
    uint8_t id[12], decimal[16];
    char hex[BSONRAW_OID_TEXT], text[BSONRAW_DECIMAL128_TEXT];
    int64_t millis = 0;
    expect(bsonraw_oid_from_hex(*id_text++, id) == BSONRAW_OK && id_text == ids + 1, "an ObjectId", "it is evaluated twice");
    expect(bsonraw_decimal128_from_text(*decimal_text++, decimal) == BSONRAW_OK && decimal_text == decimals + 1, "a decimal", "it is evaluated twice");
    expect(bsonraw_date_time_from_text(*time_text++, &millis) == BSONRAW_OK && time_text == times + 1 && millis == 1000, "a time", "it is evaluated twice");
    expect(bsonraw_oid_to_hex(id, hex) == BSONRAW_OK && strcmp(hex, ids[0]) == 0, "an ObjectId", "another");
    expect(bsonraw_decimal128_to_text(decimal, text) == BSONRAW_OK && strcmp(text, decimals[0]) == 0, "a decimal", "another");
    expect(bsonraw_oid_from_hex(NULL, id) == BSONRAW_NULL && bsonraw_date_time_from_text(NULL, &millis) == BSONRAW_NULL, "NULL", "it is read");
    return result("unchecked");
}
