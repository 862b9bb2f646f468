#ifndef STDLIB_H
#define STDLIB_H

#include <stddef.h>

void *malloc(size_t size);
void *realloc(void *old, size_t size);
void free(void *block);
void *calloc(size_t count, size_t size);
int atoi(const char *text);
_Noreturn void abort(void);

#endif
