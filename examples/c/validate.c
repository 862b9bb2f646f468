/* Says of the document on standard input whether it is sound, and else what is wrong, and where. */
#include <bsonraw.h>
#include <stdio.h>

int main(void) {
    static uint8_t bytes[1 << 20];
    size_t len = fread(bytes, 1, sizeof bytes, stdin);
    struct bsonraw_report r;
    uint64_t path[100];
    char place[1000], why[150];
    int32_t status = bsonraw_first_fault(bytes, len, sizeof bytes, 100, &r, path, 100);
    if (status == BSONRAW_FAULT) {
        bsonraw_path_text(bytes, len, path, r.path_len, place, sizeof place);
        bsonraw_fault_text(&r.error, why, sizeof why);
        printf("%s, byte %lu: %s\n", place, (unsigned long)r.error.offset, why);
    } else {
        printf("%s\n", status == BSONRAW_OK ? "sound" : bsonraw_status_text(status));
    }
    return status != BSONRAW_OK;
}
