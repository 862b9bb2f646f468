#ifndef UNISTD_H
#define UNISTD_H

#include <stddef.h>

typedef long ssize_t;

ssize_t read(int fd, void *to, size_t len);
ssize_t write(int fd, const void *from, size_t len);
int close(int fd);

#endif
