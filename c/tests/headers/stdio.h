#ifndef STDIO_H
#define STDIO_H

#include <stddef.h>

typedef struct _IO_FILE FILE;
extern FILE *stdin;
extern FILE *stdout;
extern FILE *stderr;
#define EOF (-1)

int printf(const char *format, ...);
int fprintf(FILE *to, const char *format, ...);
int putchar(int byte);
int fputc(int byte, FILE *to);
int snprintf(char *text, size_t room, const char *format, ...);
int puts(const char *line);
int getchar(void);
int ferror(FILE *of);
int fclose(FILE *file);
FILE *tmpfile(void);
void rewind(FILE *file);
int fileno(FILE *of);
size_t fread(void *items, size_t size, size_t count, FILE *from);
size_t fwrite(const void *items, size_t size, size_t count, FILE *to);

#endif
