/* What is used of C's <stddef.h>. The kit has a C library and no headers of it. */
#ifndef STDDEF_H
#define STDDEF_H

typedef __SIZE_TYPE__ size_t;
#define NULL ((void *)0)

#endif
