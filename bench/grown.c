/* The groups of sheets by which the growth of costs is told: for each size of sites one that is closed and one that is searched. */
#include "sheets.h"
#include "sites.h"

enum {
    CLOSED_SHEETS = 40,
    SEARCHED_SHEETS = 24,
    KINDS = 6
};

/* The names of the groups are the numbers of boards. */
static const char *const names[SIZES] = {"4", "6", "8", "10", "12", "14", "16"};

static size_t boards_of(size_t size)
{
    return 4 + 2 * size;
}

static struct group *begin_group(struct group *g, const char *name, enum task task, size_t count)
{
    g->name = name;
    g->task = task;
    g->count = count;
    g->lent = MOST_TABLE;
    return g;
}

/* As many sheets with relation lines alone as with kind lines. */
void make_grown_closings(struct group groups[SIZES])
{
    seed(5);
    for (size_t size = 0; size < SIZES; size++) {
        struct group *g = begin_group(&groups[size], names[size], CLOSE, CLOSED_SHEETS);
        for (size_t i = 0; i < CLOSED_SHEETS; i++)
            (i % 2 ? make_panels : make_sparse)(&g->sheets[i], boards_of(size));
    }
}

/* As many sheets of each kind with few lines as of each with many. */
void make_grown_searches(struct group groups[SIZES])
{
    seed(6);
    for (size_t size = 0; size < SIZES; size++) {
        struct group *g = begin_group(&groups[size], names[size], SEARCH, SEARCHED_SHEETS);
        for (size_t i = 0; i < SEARCHED_SHEETS; i++)
            (i % 2 ? make_tight : make_loose)(&g->sheets[i], boards_of(size), i % KINDS / 2);
    }
}
