#ifndef PTHREAD_H
#define PTHREAD_H

#include <stddef.h>

typedef unsigned long pthread_t;
typedef union {
    char size[64];
    long align;
} pthread_attr_t;

int pthread_attr_init(pthread_attr_t *attributes);
int pthread_attr_setstacksize(pthread_attr_t *attributes, size_t size);
int pthread_create(pthread_t *thread, const pthread_attr_t *attributes, void *(*run)(void *), void *argument);
int pthread_join(pthread_t thread, void **answer);

#endif
