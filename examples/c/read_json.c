/* Writes the document that a text of Extended JSON on standard input says; else says where the text is wrong, and why. */
#include <bsonraw.h>
#include <stdio.h>

int main(void) {
    static uint8_t text[1 << 20], document[1 << 24];
    size_t len = fread(text, 1, sizeof text, stdin);
    struct bsonraw_json_report r;
    char why[100];
    if (bsonraw_from_json(text, len, sizeof document, 100, document, sizeof document, &r) != BSONRAW_OK) {
        bsonraw_json_fault_text(&r, why, sizeof why);
        fprintf(stderr, "line %lu, column %lu: %s\n", (unsigned long)r.line, (unsigned long)r.column, why);
        return 1;
    }
    fwrite(document, 1, r.count, stdout);
    return 0;
}
