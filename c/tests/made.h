/* Documents that are made and damaged at random, the same ones at each run. */
#ifndef MADE_H
#define MADE_H

#include <stddef.h>
#include <stdint.h>

enum { MOST = 1024 };

static uint64_t seed = 1;

static uint32_t any(uint32_t below) {
    seed = seed * 6364136223846793005u + 1442695040888963407u;
    return (uint32_t)((seed >> 33) % below);
}

static uint8_t made[MOST];
static size_t made_len;

static void put(uint32_t byte) {
    if (made_len < MOST) made[made_len++] = (uint8_t)byte;
}

static void put_32(size_t at, uint32_t number) {
    int i;
    for (i = 0; i < 4; i++)
        if (at + (size_t)i < MOST) made[at + (size_t)i] = (uint8_t)(number >> 8 * i);
}

static void make_bytes(uint32_t count) {
    while (count-- > 0) put(any(256));
}

static void make_text(void) {
    static const char *const texts[] = {"", "a", "b", "key", "\303\244", "\342\202\254", "\360\237\230\200", "\377", "\355\240\200",
                                        "a long text of more than sixteen bytes", "sixteen bytes \303\244 and more of them"};
    const char *text = texts[any(sizeof texts / sizeof *texts)];
    while (*text) put((uint8_t)*text++);
}

static void make_string(void) {
    size_t at = made_len;
    made_len += 4;
    make_text();
    if (any(8) == 0) put(0);
    put(0);
    put_32(at, (uint32_t)(made_len - at - 4));
}

static void make_document(int depth);

static void make_payload(uint32_t tag, int depth) {
    static const uint8_t sizes[] = {0, 8, 0, 0, 0, 0, 0, 12, 0, 8, 0, 0, 0, 0, 0, 0, 4, 8, 8, 16};
    size_t at = made_len;
    uint32_t size = any(6);
    switch (tag) {
    case 2: case 13: case 14: make_string(); return;
    case 3: case 4: make_document(depth + 1); return;
    case 5:
        made_len += 4;
        put(any(3));
        if (any(2)) put_32(made_len, size), made_len += 4;
        make_bytes(size);
        put_32(at, (uint32_t)(made_len - at - 5));
        return;
    case 8: put(any(3)); return;
    case 11: make_text(), put(0), make_text(), put(0); return;
    case 12: make_string(), make_bytes(12); return;
    case 15:
        made_len += 4;
        make_string();
        make_document(depth + 1);
        put_32(at, (uint32_t)(made_len - at));
        return;
    default: make_bytes(tag < 20 ? sizes[tag] : 0);
    }
}

static void make_document(int depth) {
    size_t at = made_len;
    uint32_t count = depth > 3 ? 0 : any(5);
    made_len += 4;
    while (count-- > 0 && made_len < MOST - 200) {
        uint32_t tag = any(23) + 1;
        if (tag == 20) tag = 127;
        if (tag == 21) tag = 255;
        if (tag == 22) tag = any(10) ? 2 : 200;
        put(tag);
        make_text();
        put(0);
        make_payload(tag, depth);
    }
    put(0);
    put_32(at, (uint32_t)(made_len - at));
}

static void damage(void) {
    static const uint8_t bytes[] = {0, 1, 2, 3, 4, 5, 127, 128, 252, 255};
    uint32_t times = any(4);
    while (times-- > 0) made[any((uint32_t)made_len)] = any(2) ? bytes[any(sizeof bytes)] : (uint8_t)any(256);
    if (any(20) == 0) made_len -= any(made_len < 5 ? 1 : 5);
    if (any(20) == 0) put(0);
}

/* The next one, of which about two in three are damaged. */
static void make_next(void) {
    made_len = 0;
    make_document(0);
    if (any(3)) damage();
    if (any(3) == 0 && made_len > 4) put_32(0, (uint32_t)made_len);
    if (any(8) == 0) made[made_len - 1] = 0;
}

#endif
