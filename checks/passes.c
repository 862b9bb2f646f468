/* Preloaded into a program, this counts how often each page of its blocks of a megabyte and more is come to. Four pages of
   a block can be touched at a time, those that were come to last, so that a way through the whole block comes to each page
   once. As the program ends, the size of each such block and the number for all of its pages are written to file
   descriptor 3, in the order of the requests. */
typedef unsigned long size;
extern void *__libc_malloc(size);
extern void *__libc_calloc(size, size);
extern void *__libc_realloc(void *, size);
extern void __libc_free(void *);
extern size malloc_usable_size(void *);
extern void *mmap(void *, size, int, int, int, long);
extern int mprotect(void *, size, int);
extern long syscall(long, ...);
extern int dprintf(int, const char *, ...);
extern void *memcpy(void *, const void *, size);
extern void _exit(int);

enum { LARGE = 1 << 20, PAGE = 4096, OPEN = 4, MOST = 256, CHUNK = 1 << 16 };

struct block {
    char *start;
    size len;
    char *open[OPEN]; /* the pages that can be touched */
    size come_to;
};

static struct block blocks[MOST];
static int count;

/* the kernel's own form of what is done on a signal */
struct action {
    void (*handler)(int, void *, void *);
    size flags;
    void (*restorer)(void);
    size mask;
};

__asm__(".text\nreturn_from_signal:\n mov $15, %eax\n syscall\n");
extern void return_from_signal(void);

static struct block *block_at(const char *place) {
    for (int i = 0; i < count; i++) {
        if (blocks[i].start <= place && place < blocks[i].start + blocks[i].len) {
            return &blocks[i];
        }
    }
    return 0;
}

static void touched(int signal, void *info, void *context) {
    char *place = *(char **)((char *)info + 16);
    struct block *block = block_at(place);
    (void)signal;
    (void)context;
    if (!block) {
        _exit(99);
    }
    char *page = (char *)((size)place & ~(size)(PAGE - 1));
    char **last = &block->open[block->come_to++ % OPEN];
    if (*last) {
        mprotect(*last, PAGE, 0);
    }
    *last = page;
    mprotect(page, PAGE, 3);
}

static void *large(size len) {
    static int is_ready;
    if (!is_ready) {
        struct action action = {touched, 0x4 | 0x04000000, return_from_signal, 0};
        syscall(13, 11, &action, 0, 8);
        is_ready = 1;
    }
    if (count == MOST) {
        return 0;
    }
    char *start = mmap(0, (len + PAGE - 1) / PAGE * PAGE, 0, 0x22, -1, 0);
    if (start == (char *)-1) {
        return 0;
    }
    blocks[count].start = start;
    blocks[count].len = len;
    count++;
    return start;
}

void *malloc(size len) {
    return len < LARGE ? __libc_malloc(len) : large(len);
}

void *calloc(size n, size len) {
    return n * len < LARGE ? __libc_calloc(n, len) : large(n * len);
}

void *realloc(void *old, size len) {
    struct block *block = old ? block_at(old) : 0;
    if (!block && len < LARGE) {
        return __libc_realloc(old, len);
    }
    void *moved = malloc(len);
    if (moved && block) {
        memcpy(moved, old, block->len < len ? block->len : len);
    } else if (moved && old) {
        size held = malloc_usable_size(old);
        memcpy(moved, old, held < len ? held : len);
        __libc_free(old);
    }
    return moved;
}

void free(void *block) {
    if (!block || !block_at(block)) {
        __libc_free(block);
    }
}

/* The kernel doesn't touch what is closed, so bytes go by way of a buffer. */
static char buffer[CHUNK];

long read(int file, void *to, size len) {
    long got = syscall(0, file, buffer, len < CHUNK ? len : CHUNK);
    if (got > 0) {
        memcpy(to, buffer, got);
    }
    return got;
}

long write(int file, const void *from, size len) {
    size part = len < CHUNK ? len : CHUNK;
    memcpy(buffer, from, part);
    return syscall(1, file, buffer, part);
}

__attribute__((destructor)) static void report(void) {
    for (int i = 0; i < count; i++) {
        dprintf(3, "%lu %lu\n", blocks[i].len, blocks[i].come_to);
    }
}
