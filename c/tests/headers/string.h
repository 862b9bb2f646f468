#ifndef STRING_H
#define STRING_H

#include <stddef.h>

#ifdef __cplusplus
extern "C" {
#endif

void *memcpy(void *to, const void *from, size_t len);
void *memmove(void *to, const void *from, size_t len);
void *memset(void *to, int byte, size_t len);
void *memchr(const void *in, int byte, size_t len);
int memcmp(const void *one, const void *other, size_t len);
int strcmp(const char *one, const char *other);
int strncmp(const char *one, const char *other, size_t len);
char *strchr(const char *text, int byte);
char *strcat(char *to, const char *text);
size_t strlen(const char *text);

#ifdef __cplusplus
}
#endif

#endif
