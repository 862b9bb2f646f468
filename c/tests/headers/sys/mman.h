#ifndef SYS_MMAN_H
#define SYS_MMAN_H

#include <stddef.h>

#define PROT_NONE 0
#define PROT_READ 1
#define PROT_WRITE 2
#define MAP_PRIVATE 2
#define MAP_ANONYMOUS 32
#define MAP_NORESERVE 16384
#define MAP_FAILED ((void *)-1)

void *mmap(void *at, size_t len, int access, int how, int file, long offset);
int mprotect(void *at, size_t len, int access);
int munmap(void *at, size_t len);

#endif
