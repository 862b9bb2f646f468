/* Writes the documents that cost the most of those known, to standard output.
 *
 * usage: worst random SIZE LEAST     up to SIZE bytes, of nulls under the shortest keys of at least this many bytes, in random order
 *        worst sorted SIZE LEAST     the same, after ten pairs of keys, of which each shares a mark: the keys are then put in order
 *        worst late SIZE LEAST       the same, before 180 keys that begin in eight places of the last table: all are put in order then
 *        worst levels COUNT          16 MiB of levels of this many keys in one another, the keys descending
 *        worst twins                 as much of levels of one key, which comes twice
 *
 * crates/key_set/src has the marks, and how many keys there is room for. */
#include <stdint.h>
#include <stdio.h>
#include <stdlib.h>
#include <string.h>

enum { SIZE = 16 << 20 };

static uint8_t *document;
static size_t len = 4, most = SIZE;

static uint64_t hash(const uint8_t *key, size_t key_len) {
    uint32_t first, last;
    memcpy(&first, key, 4);
    memcpy(&last, key + key_len - 4, 4);
    unsigned __int128 product = (unsigned __int128)(((uint64_t)last << 32 | first) ^ 0x243f6a8885a308d3) *
                                (0x9e3779b97f4a7c15 ^ (2 * key_len));
    return (uint64_t)product ^ (uint64_t)(product >> 64);
}

/* The key of this number: of one byte, then of two, and so on, with bytes from 1 to 127. Returns its length. */
static size_t key_of(uint64_t number, uint8_t *key) {
    size_t key_len = 1, at;
    uint64_t many = 127;
    for (; number >= many; key_len++, many *= 127) number -= many;
    for (at = key_len; at-- > 0; number /= 127) key[at] = (uint8_t)(1 + number % 127);
    return key_len;
}

static void put_null(uint64_t number) {
    document[len++] = 0x0a;
    len += key_of(number, document + len);
    document[len++] = 0;
}

static void put_length(size_t at, size_t length) {
    uint32_t number = (uint32_t)length;
    memcpy(document + at, &number, 4);
}

static uint64_t below(uint64_t limit) {
    static uint64_t state = 88172645463325252;
    state ^= state << 13;
    state ^= state >> 7;
    state ^= state << 17;
    return state % limit;
}

/* ---- pairs of keys of four bytes whose hashes share the mark and the places of the smallest table ---- */

enum { TRIED = 1 << 23, PAIRS = 10, CROWD = 180, FOURS = 127 + 127 * 127 + 127 * 127 * 127 };

struct hashed {
    uint64_t share;
    uint32_t number;
};

static int by_share(const void *one, const void *other) {
    uint64_t a = ((const struct hashed *)one)->share, b = ((const struct hashed *)other)->share;
    return a < b ? -1 : a > b;
}

/* How many pairs were put; their numbers are after those that `random` uses. */
static void put_pairs(void) {
    struct hashed *tried = malloc(TRIED * sizeof *tried);
    uint32_t i, found = 0;
    for (i = 0; i < TRIED; i++) {
        uint8_t key[8];
        tried[i].number = FOURS + 100000000 + i;
        uint64_t whole = hash(key, key_of(tried[i].number, key));
        tried[i].share = whole >> 32 << 8 | (whole & 255);
    }
    qsort(tried, TRIED, sizeof *tried, by_share);
    for (i = 1; i < TRIED && found < PAIRS; i++) {
        if (tried[i].share != tried[i - 1].share) continue;
        put_null(tried[i - 1].number);
        put_null(tried[i].number);
        found++;
        i++;
    }
    free(tried);
    if (found < PAIRS) exit(1);
}

/* Nulls under the shortest keys of at least this many bytes, in random order; returns how many. The last one has four bytes, as the first
 * of a pair. */
static size_t put_random(size_t least) {
    uint32_t *numbers = malloc(SIZE), first = least < 4 ? 0 : FOURS, count = 0, i;
    size_t wanted = len + 1;
    uint8_t key[8];
    for (; (wanted += 2 + key_of(first + count, key)) <= most; count++) numbers[count] = first + count;
    for (i = count - 1; i > 1; i--) {
        uint32_t other = (uint32_t)below(i), number = numbers[i - 1];
        numbers[i - 1] = numbers[other];
        numbers[other] = number;
    }
    for (i = 0; i < count; i++) put_null(numbers[i]);
    free(numbers);
    return count;
}

/* Keys of four bytes whose marks begin in eight places of the table in which there is room for this many keys. */
static void put_crowd(size_t count) {
    uint64_t number = FOURS + 10000000, places = 1;
    uint8_t key[8];
    int found = 0;
    while (places <= 2 * count) places *= 2;
    for (; found < CROWD; number++) {
        if (key_of(number, key) != 4) exit(1);
        if ((hash(key, 4) & (places - 1)) >= 8) continue;
        put_null(number);
        found++;
    }
}

static void put_late(size_t least) {
    most -= 6 * (CROWD + 1);
    put_null(FOURS + 9999999); /* the first one, as long as the last one */
    put_crowd(put_random(least));
}

/* Levels in one another, each with the keys of these numbers, of which the last one holds the next level. */
static void put_levels(const uint64_t *numbers, size_t count) {
    static size_t begins[SIZE / 8 + 1];
    size_t depth = 0, size = 5, i;
    uint8_t key[8];
    for (i = 0; i < count; i++) size += 2 + key_of(numbers[i], key);
    for (len = 0; len + size + depth + 5 <= SIZE; len++) {
        begins[depth++] = len;
        len += 4;
        for (i = 0; i + 1 < count; i++) put_null(numbers[i]);
        document[len++] = 3;
        len += key_of(numbers[i], document + len);
        document[len] = 0;
    }
    put_length(len, 5);
    len += 4;
    document[len++] = 0;
    while (depth-- > 0) {
        document[len++] = 0;
        put_length(begins[depth], len - begins[depth]);
    }
}

static void put_descending(size_t count) {
    uint64_t *numbers = malloc(count * sizeof *numbers);
    for (size_t i = 0; i < count; i++) numbers[i] = count - 1 - i;
    put_levels(numbers, count);
    free(numbers);
}

int main(int argc, char **argv) {
    static const uint64_t twins[] = {0, 0};
    const char *kind = argc > 1 ? argv[1] : "";
    document = calloc(1, SIZE + 64);
    if (!document) return 1;
    if (strcmp(kind, "levels") == 0 && argc > 2) {
        put_descending(strtoul(argv[2], NULL, 10));
    } else if (strcmp(kind, "twins") == 0) {
        put_levels(twins, 2);
    } else if ((strcmp(kind, "random") == 0 || strcmp(kind, "sorted") == 0 || strcmp(kind, "late") == 0) && argc > 3) {
        most = strtoul(argv[2], NULL, 10);
        if (most > SIZE) return 2;
        if (kind[0] == 's') put_pairs();
        if (kind[0] == 'l') put_late(strtoul(argv[3], NULL, 10));
        else put_random(strtoul(argv[3], NULL, 10));
        document[len++] = 0;
        put_length(0, len);
    } else {
        fprintf(stderr, "usage: worst random|sorted|late SIZE LEAST; worst levels COUNT; worst twins\n");
        return 2;
    }
    return fwrite(document, 1, len, stdout) == len ? 0 : 1;
}
