/* What is used of C's <string.h>. */
#ifndef STRING_H
#define STRING_H

#include <stddef.h>

void *memcpy(void *to, const void *from, size_t n);
int memcmp(const void *one, const void *other, size_t n);
int strcmp(const char *one, const char *other);
size_t strlen(const char *text);

#endif
