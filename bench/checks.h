/* That all versions answer each sheet the same, leave the same, and answer as the sheet's group says. */
#ifndef CHECKS_H
#define CHECKS_H

#include "calls.h"

/* Has all versions do the task of a group with each of its sheets, and keeps what they answer and leave. Ends the program if they differ. */
void answer_group(const struct group *g);

/* Does the same, and ends the program unless each sheet is answered as the group says; tries other budgets, other old contents of opened tables,
   other rooms and spoilt sheets too. */
void check_group(const struct group *g);

/* Ends the program unless this is what was kept for the sheet. */
void expect_kept(const struct group *g, size_t i, uint64_t answer, const void *lent);

#endif
