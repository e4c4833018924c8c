/* What is used of C's <stdlib.h>. */
#ifndef STDLIB_H
#define STDLIB_H

#include <stddef.h>

_Noreturn void exit(int status);
void *malloc(size_t n);
void *realloc(void *at, size_t n);

#endif
