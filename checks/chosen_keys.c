/* Writes a document of 174,000 nulls under keys of four bytes whose hashes agree in their last ten bits, so that the fingerprints
   of all begin at one place. crates/key_set/src/fingerprints.rt has the hash. It is alone, without a C library. */
typedef unsigned char byte;
typedef unsigned long u64;

enum { COUNT = 174000, SIZE = 5 + 6 * COUNT };

static byte document[SIZE];

static u64 hash(u64 key) {
    unsigned __int128 product = (unsigned __int128)((key << 32 | key) ^ 0x243f6a8885a308d3) * (0x9e3779b97f4a7c15 ^ 8);
    return (u64)product ^ (u64)(product >> 64);
}

/* the key after this one in which no byte is 0 or over 127 */
static u64 next(u64 key) {
    for (int at = 0; at < 32; at += 8) {
        if ((key >> at & 127) < 127) return key + (1UL << at);
        key -= 126UL << at;
    }
    return key;
}

static long syscall(long number, long first, const void *second, long third) {
    __asm__ volatile("syscall" : "+a"(number) : "D"(first), "S"(second), "d"(third) : "rcx", "r11", "memory");
    return number;
}

void _start(void) {
    u64 key = 0x01010101;
    byte *to = document;
    for (int at = 0; at < 4; at++) *to++ = (byte)(SIZE >> 8 * at);
    for (int found = 0; found < COUNT; key = next(key)) {
        if ((hash(key) & 1023) != 5) continue;
        *to++ = 0x0a;
        for (int at = 0; at < 32; at += 8) *to++ = (byte)(key >> at);
        *to++ = 0;
        found++;
    }
    for (long at = 0, wrote = 0; at < SIZE && wrote >= 0; at += wrote) wrote = syscall(1, 1, document + at, SIZE - at);
    syscall(60, 0, 0, 0);
}
