/* Preloaded into a program, this refuses one of its requests for memory: the REFUSE-th, counted from 1. As the program
   ends, the number of requests that it made is written to file descriptor 3, and how many blocks it was given and hasn't
   released. */
extern void *__libc_malloc(unsigned long);
extern void *__libc_realloc(void *, unsigned long);
extern void __libc_free(void *);
extern char *getenv(const char *);
extern long atol(const char *);
extern int dprintf(int, const char *, ...);

static long seen, held;

static int is_refused(void) {
    static long wanted = -1;
    if (wanted < 0) {
        char *text = getenv("REFUSE");
        wanted = text ? atol(text) : 0;
    }
    return ++seen == wanted;
}

static void *given(void *block) {
    if (block) {
        held++;
    }
    return block;
}

void *malloc(unsigned long size) {
    return is_refused() ? 0 : given(__libc_malloc(size));
}

void *realloc(void *old, unsigned long size) {
    if (is_refused()) {
        return 0;
    }
    return old ? __libc_realloc(old, size) : given(__libc_realloc(old, size));
}

void free(void *block) {
    if (block) {
        held--;
    }
    __libc_free(block);
}

__attribute__((destructor)) static void report(void) {
    dprintf(3, "%ld %ld\n", seen, held);
}
