/* What is used of C's <stdio.h>. */
#ifndef STDIO_H
#define STDIO_H

#include <stddef.h>

int printf(const char *format, ...);
int snprintf(char *text, size_t n, const char *format, ...);

#endif
