/* How the costs of closings and searches grow with the number of boards. What a try costs is what a search costs beyond what it costs with no try, divided by the
   tries. */
#include <stdio.h>

#include "checks.h"
#include "growth.h"
#include "measure.h"

uint64_t triples;

/* For each size the sheets that are closed, those that are searched, and the same with no try. */
static struct group closings[SIZES];
static struct group searches[SIZES];
static struct group beginnings[SIZES];

static void make_groups(void)
{
    make_grown_closings(closings);
    make_grown_searches(searches);
    for (size_t size = 0; size < SIZES; size++) {
        struct group *g = &beginnings[size];
        *g = searches[size];
        for (size_t i = 0; i < g->count; i++)
            g->sheets[i].budget = 0;
    }
}

/* How many tries the searches of a group take together. */
static size_t tries_of(const struct group *g)
{
    size_t tries = 0;
    for (size_t i = 0; i < g->count; i++) {
        uint8_t table[MOST_TABLE];
        lend(g, &g->sheets[i], table);
        tries += talung_count(calls[PLAIN][SEARCH](&g->sheets[i], table));
    }
    return tries;
}

/* ---- times */

/* Measures a group once all versions have been seen to answer it alike. */
static void time_group(const struct group *g, struct figures *figures)
{
    answer_group(g);
    measure(g, figures);
}

static void time_closings(const struct group *g)
{
    struct figures each;
    time_group(g, &each);
    printf("closing %-4s %6lu %12.1f %12.1f %12.1f\n", g->name, (unsigned long)g->count, each.least[PRODUCT], each.least[PLAIN], each.least[SWEEPS]);
}

static void time_tries(const struct group *g, const struct group *beginning)
{
    struct figures whole;
    struct figures first;
    double per_try[VERSIONS];
    size_t tries = tries_of(g);
    time_group(g, &whole);
    time_group(beginning, &first);
    for (size_t version = 0; version < VERSIONS; version++)
        per_try[version] = (whole.least[version] - first.least[version]) * (double)g->count / (double)tries;
    printf("try     %-4s %6lu %12.1f %12.1f %12.1f\n", g->name, (unsigned long)tries, per_try[PRODUCT], per_try[PLAIN], per_try[SWEEPS]);
}

void measure_growth(void)
{
    make_groups();
    for (size_t size = 0; size < SIZES; size++)
        time_closings(&closings[size]);
    for (size_t size = 0; size < SIZES; size++)
        time_tries(&searches[size], &beginnings[size]);
}

/* ---- triples */

/* How many triples a version looks at in a group. */
static double triples_of(enum version version, const struct group *g)
{
    triples = 0;
    work_once(calls[version][g->task], g);
    return (double)triples;
}

static void count_closings(const struct group *g)
{
    double each = (double)g->count;
    printf("closing %-4s %12.1f %12.1f\n", g->name, triples_of(PLAIN, g) / each, triples_of(SWEEPS, g) / each);
}

static void count_tries(const struct group *g, const struct group *beginning)
{
    double tries = (double)tries_of(g);
    double plain = triples_of(PLAIN, g) - triples_of(PLAIN, beginning);
    double sweeps = triples_of(SWEEPS, g) - triples_of(SWEEPS, beginning);
    printf("try     %-4s %12.1f %12.1f\n", g->name, plain / tries, sweeps / tries);
}

void count_growth(void)
{
    make_groups();
    for (size_t size = 0; size < SIZES; size++)
        count_closings(&closings[size]);
    for (size_t size = 0; size < SIZES; size++)
        count_tries(&searches[size], &beginnings[size]);
}
