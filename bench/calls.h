/* The calls that are compared and measured, by their versions and tasks. */
#ifndef CALLS_H
#define CALLS_H

#include "sheets.h"

/* The product; plain C by the same method; and, of tables alone, plain C by sweeps. */
enum version { PRODUCT, PLAIN, SWEEPS, VERSIONS };

/* Does the task of a group with one of its sheets and with what is lent for it, and answers. */
typedef uint64_t work(const struct sheet *s, void *lent);

/* How each version does each task. */
extern work *const calls[VERSIONS][TASKS];

/* How many of the versions do a task: these are the first ones. */
size_t versions_of(enum task task);

/* Makes what is lent with a sheet as it comes: the sheet's table; or a room of which each byte is a mark. */
void lend(const struct group *g, const struct sheet *s, void *lent);

#endif
