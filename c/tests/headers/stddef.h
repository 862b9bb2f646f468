/* What bsonraw.h and the tests need of the C library's headers is in this folder, for machines that have the Rattle
 * kit's compiler and none of their own. The names and values are those of the C library on x86-64 Linux. */
#ifndef STDDEF_H
#define STDDEF_H

typedef __SIZE_TYPE__ size_t;
#ifdef __cplusplus
#define NULL __null
#else
#define NULL ((void *)0)
#endif

#endif
