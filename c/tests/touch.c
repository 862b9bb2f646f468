/* With BSONRAW_DEBUG the first and the last byte of what is given are read: a length that is too long by one ends the process there,
 * where memory that can't be touched begins. */
#define BSONRAW_DEBUG
#include "documents.h"

#include <sys/mman.h>

int fork(void);
int waitpid(int process, int *status, int options);
void _exit(int status);

/* Whether a process ends well that reads this many bytes from here on. */
static int is_touched(const uint8_t *bytes, size_t len) {
    struct bsonraw_iter it;
    int status, process = fork();
    if (process == 0) _exit(bsonraw_iter_init(&it, bytes, len) == BSONRAW_NULL);
    return waitpid(process, &status, 0) == process && status == 0;
}

static int32_t put(void *context, const char *text, size_t len) {
    (void)context, (void)text, (void)len;
    return BSONRAW_OK;
}

/* One of the calls for daily use, of these bytes; 0 where there is no other one. */
static int use(int call, uint8_t *bytes, size_t len) {
    static const char *const none[1] = {""};
    const uint8_t *const end = bytes + len;
    char *room = (char *)bytes;
    struct bsonraw_buffer b;
    struct bsonraw_error error = {0, 0, 0, 0, 0};
    struct bsonraw_field field[] = {BSONRAW_FIELD("a")};
    struct bsonraw_iter it = {0, 0, 0, 0, 0, 0, 0, 0, {0, 0, 0, 0, 0}};
    struct bsonraw_reader reader = {0, 0, 0, {0, 0, 0, 0, 0}};
    struct bsonraw_report r;
    struct bsonraw_json_report told = {0, 0, 0, 0, 0, 0};
    struct bsonraw_value value;
    uint64_t count;
    int32_t number;
    uint32_t one;
    int64_t wide;
    double real;
    const char *text;
    const uint8_t *part;
    char *new_text;
    uint8_t *made;
    size_t part_len = 0;
    bsonraw_buffer_init(&b);
    switch (call) {
    case 0: (void)bsonraw_fault_text(&error, room, len); break;
    case 1: (void)bsonraw_path_text(bytes, len, NULL, 0, NULL, 0); break;
    case 2: (void)!bsonraw_get(bytes, len, "a", &it); break;
    case 3: (void)!bsonraw_get_value(bytes, len, "a", &value); break;
    case 4: (void)!bsonraw_get_int32(bytes, len, "a", &number); break;
    case 5: (void)!bsonraw_get_int64(bytes, len, "a", &wide); break;
    case 6: (void)!bsonraw_get_double(bytes, len, "a", &real); break;
    case 7: (void)!bsonraw_get_as_int64(bytes, len, "a", &wide); break;
    case 8: (void)!bsonraw_get_as_double(bytes, len, "a", &real); break;
    case 9: (void)!bsonraw_get_bool(bytes, len, "a", &number); break;
    case 10: (void)!bsonraw_get_date_time(bytes, len, "a", &wide); break;
    case 11: (void)!bsonraw_get_utf8(bytes, len, "a", &text, &part_len); break;
    case 12: (void)!bsonraw_get_oid(bytes, len, "a", &part); break;
    case 13: (void)!bsonraw_get_document(bytes, len, "a", &part, &part_len); break;
    case 14: (void)!bsonraw_get_array(bytes, len, "a", &part, &part_len); break;
    case 15: (void)!bsonraw_find_many(bytes, len, field, 1); break;
    case 16: (void)!bsonraw_has_key(bytes, len, "a"); break;
    case 17: (void)!bsonraw_count(bytes, len, &count); break;
    case 18: (void)!bsonraw_compare(bytes, len, bytes, 5, &number); break;
    case 19: (void)!bsonraw_equal(NULL, 0, bytes, len, &number); break;
    case 20: (void)!bsonraw_set_int32(bytes, len, "a", 1); break;
    case 21: (void)!bsonraw_set_int64(bytes, len, "a", 1); break;
    case 22: (void)!bsonraw_set_double(bytes, len, "a", 1); break;
    case 23: (void)!bsonraw_set_bool(bytes, len, "a", 1); break;
    case 24: (void)!bsonraw_set_date_time(bytes, len, "a", 1); break;
    case 25: (void)!bsonraw_set_oid(bytes, 5, "a", end - 12); break;
    case 26: (void)!bsonraw_json_write(bytes, len, 9, 9, 0, put, NULL, &r, NULL, 0); break;
    case 27: (void)!bsonraw_iter_json(&it, bytes, len, 9, 0, NULL, 0, &r); break;
    case 28: bsonraw_buffer_append(&b, 0, "a", bytes, len, NULL, 0); break;
    case 29: bsonraw_buffer_text(&b, "\xff", room, len); break;
    case 30: b.status = BSONRAW_FAULT, bsonraw_buffer_oid(&b, "a", end - 12); break;
    case 31: b.status = BSONRAW_FAULT, bsonraw_buffer_decimal128(&b, "a", end - 16); break;
    case 32: bsonraw_buffer_binary(&b, "\xff", 0, bytes, len); break;
    case 33: bsonraw_buffer_document(&b, "a", bytes, len); break;
    case 34: bsonraw_buffer_array(&b, "a", bytes, len); break;
    case 35: bsonraw_buffer_iter(&b, &it, bytes, len); break;
    case 36: bsonraw_buffer_concat(&b, bytes, len); break;
    case 37: bsonraw_buffer_copy_without(&b, bytes, len, none, 1); break;
    case 38: bsonraw_buffer_copy_with(&b, NULL, 0, bytes, len); break;
    case 39: (void)!bsonraw_reader_is_cut(&reader, bytes, len); break;
    case 40: (void)!bsonraw_get_timestamp(bytes, len, "a", &one, &one); break;
    case 41: (void)!bsonraw_get_decimal128(bytes, len, "a", &part); break;
    case 42: (void)!bsonraw_get_binary(bytes, len, "a", &one, &part, &part_len); break;
    case 43: (void)!bsonraw_set_timestamp(bytes, len, "a", 1, 1); break;
    case 44: (void)!bsonraw_set_decimal128(bytes, 5, "a", end - 16); break;
    case 45: (void)!bsonraw_json_new(bytes, len, 9, 9, 0, &new_text, &r); break;
    case 46: (void)!bsonraw_canonical_new(bytes, len, 9, 9, &made, &r); break;
    case 47: (void)!bsonraw_from_json_new(room, len, 9, 9, &made, NULL); break;
    case 48: (void)bsonraw_json_fault_text(&told, room, len); break;
    case 49: (void)bsonraw_change_value("a", 0, bytes, len, NULL, 0); break;
    case 50: (void)bsonraw_change_iter("a", &it, bytes, len); break;
    case 51: bsonraw_buffer_edit(&b, bytes, len, NULL, 0); break;
    case 52: (void)!bsonraw_from_json_next(room, len, &part_len, 9, 9, &made, &told); break;
    case 53: (void)!bsonraw_check_keys(bytes, len, 9, 9, 0, &r, NULL, 0); break;
    case 54: (void)!bsonraw_json_front(bytes, len, 9, 9, 0, NULL, 0, &r, NULL, 0); break;
    default: return 0;
    }
    return 1;
}

/* Whether a process ends well that calls this with this many bytes. */
static int is_used(int call, uint8_t *bytes, size_t len) {
    int status, process = fork();
    if (process == 0) _exit(!use(call, bytes, len));
    return waitpid(process, &status, 0) == process && status == 0;
}

int main(void) {
    int call;
    uint8_t *pages = mmap(NULL, 3 * 4096, PROT_READ | PROT_WRITE, MAP_PRIVATE | MAP_ANONYMOUS, -1, 0);
    expect(pages != MAP_FAILED, "memory", "none");
    mprotect(pages, 4096, PROT_NONE);
    mprotect(pages + 2 * 4096, 4096, PROT_NONE);
    expect(is_touched(pages + 4096, 4096), "a right length", "it ends the process");
    expect(!is_touched(pages + 4096, 4097), "a length that is too long", "it isn't seen");
    expect(!is_touched(pages + 4095, 4096), "bytes that begin too early", "they aren't seen");
    for (call = 0; call < 55; call++) {
        expect(is_used(call, pages + 4096, 4096), "a right length", "it ends the process");
        expect(!is_used(call, pages + 4096, 4097), "a length that is too long", "it isn't seen");
    }
    expect(!is_used(call, pages + 4096, 4096), "calls for daily use", "there are more");
    munmap(pages, 3 * 4096);
    return result("touch");
}
