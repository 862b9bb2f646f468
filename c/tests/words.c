/* Prints the words of each reason, and of each cause. */
#include <bsonraw.h>
#include <stdio.h>

int main(void) {
    for (unsigned n = 1; n <= 20; n++) puts(bsonraw_reason_text(n));
    for (unsigned n = 1; n <= 5; n++) puts(bsonraw_cause_text(n));
    return 0;
}
