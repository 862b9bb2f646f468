/* The heap of the library for ARM, for which the Rattle kit has no C code: the three functions that compiled Rattle calls, as the
 * kit's do it for x86-64. No block is empty: where none of its bytes is asked for, it has as many as its alignment. */
typedef __SIZE_TYPE__ size_t;

void *malloc(size_t size);
void *realloc(void *old, size_t size);
void free(void *block);

struct block {
    size_t is_there;
    void *start;
};

static _Alignas(16) char nothing[16];

static struct block made(void *start) {
    struct block block = {start != 0, start != 0 ? start : nothing};
    return block;
}

struct block rattle_alloc(size_t size, size_t align) {
    return made(malloc(size == 0 ? align : size));
}

struct block rattle_realloc(void *old, size_t old_size, size_t size, size_t align) {
    (void)old_size;
    return made(realloc(old, size == 0 ? align : size));
}

void rattle_dealloc(void *block) {
    free(block);
}
