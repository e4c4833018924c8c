/* What the two filters share: all of standard input, all of standard output, and how a refusal is told. */
#ifndef FILTER_H
#define FILTER_H

#include <stddef.h>
#include <stdint.h>

/* Bytes in memory that was asked for. */
struct bytes {
    unsigned char *at;
    size_t n;
};

/* Reads standard input to its end, however long it is. Where that cannot be done, it is said on standard error, and the program ends with status 2. */
struct bytes read_input(const char *program);

/* Writes bytes to standard output. Where that cannot be done, it is said on standard error, and the program ends with status 2. */
void write_output(const char *program, const void *bytes, size_t n);

/* Tells the refusal of an answer on standard error: its number; 'word' and its place, if it has one in the words; 'line' and the line's number, from 1,
 * unless it is 0. Answers the exit status 1. */
int tell_refusal(uint64_t answer, size_t line);

/* Tells that the input is no run of words, and answers the exit status 1. */
int tell_input(void);

#endif
