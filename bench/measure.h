/* How long the versions take for a group. */
#ifndef MEASURE_H
#define MEASURE_H

#include "calls.h"

/* Of a group: the time of one call of each version that does its task, in ns; the product's divided by that of plain C by the same method; and, of tables, how many
   times as fast as the sweeps each of these two is. Each is the median of some turns. And the least time of all turns, which other work on the machine changes
   least. */
struct figures {
    double time[VERSIONS];
    double least[VERSIONS];
    double ratio;
    double gain[SWEEPS];
};

/* Measures the versions by turns on a group whose answers are kept (answer_group). */
void measure(const struct group *g, struct figures *figures);

/* Works on each sheet of a group once, with what is lent as it comes. */
void work_once(work *call, const struct group *g);

#endif
