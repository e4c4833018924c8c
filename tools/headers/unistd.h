/* What is used of <unistd.h>. */
#ifndef UNISTD_H
#define UNISTD_H

#include <stddef.h>

typedef long ssize_t;

enum { STDIN_FILENO = 0, STDOUT_FILENO = 1, STDERR_FILENO = 2 };

ssize_t read(int file, void *bytes, size_t n);
ssize_t write(int file, const void *bytes, size_t n);

#endif
