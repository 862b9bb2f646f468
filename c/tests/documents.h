/* The documents that the tests run on, what each call returns of one, and how a test says what goes wrong. */
#ifndef DOCUMENTS_H
#define DOCUMENTS_H

#include <bsonraw.h>

#define MOST 64   /* elements of a document at its own level */
#define ROOM 8192 /* bytes of a form */
#define LEVELS 500 /* that a document may have */
#define STEPS 512 /* numbers of a path */

struct document {
    char name[64];
    uint8_t *bytes;
    size_t len;
};

struct documents {
    struct document items[128];
    size_t count;
};

/* What a call over a whole document returns. */
struct whole {
    int32_t status;
    struct bsonraw_report report;
    uint64_t path[STEPS];
};

/* Such a call, with this room for the path; form is for the canonical form, or for the text, alone. */
typedef int32_t call(const struct document *d, uint8_t *form, size_t form_len, struct bsonraw_report *report, uint64_t *path,
                     size_t path_room);
int32_t call_canonical(const struct document *d, uint8_t *form, size_t form_len, struct bsonraw_report *report, uint64_t *path,
                       size_t path_room);
int32_t call_json(const struct document *d, uint8_t *form, size_t form_len, struct bsonraw_report *report, uint64_t *path,
                  size_t path_room);
int32_t call_first_fault(const struct document *d, uint8_t *form, size_t form_len, struct bsonraw_report *report,
                         uint64_t *path, size_t path_room);
int32_t call_check(const struct document *d, uint8_t *form, size_t form_len, struct bsonraw_report *report, uint64_t *path,
                   size_t path_room);

/* What the calls return: the steps of a cursor, with the value, the look-up and the inside of each, and what is built of them;
 * entries, and the first document; and of the calls over all levels. What isn't used is 0. */
struct answers {
    int32_t stepped[MOST], valued[MOST], looked_up[MOST], entered[MOST];
    struct bsonraw_iter steps[MOST], found[MOST], inside[MOST];
    struct bsonraw_value values[MOST];
    struct bsonraw_builder builder;
    int32_t listed, read;
    uint64_t entry_count;
    struct bsonraw_entry entries[MOST];
    struct bsonraw_reader reader;
    struct whole form, text, fault, verdict, flat;
    uint8_t built[ROOM], form_bytes[ROOM], text_bytes[ROOM];
    struct bsonraw_token tokens[MOST];
};

/* The documents that standard input has, a line `NAME HEX` each. */
void read_documents(struct documents *to);

/* Memory of this many bytes, at least one; the test ends where there is none. */
void *needed(size_t len);

/* All results; max_bytes is 1 << 24 and max_depth LEVELS. */
void ask(struct answers *to, const uint8_t *bytes, size_t len);

/* Says that this went wrong with this document, unless it is so. */
void expect(int is_so, const char *name, const char *what);

/* The status to end with: 1 where anything went wrong. Else it says how many things were looked at. */
int result(const char *test);

#endif
