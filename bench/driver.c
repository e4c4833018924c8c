/* Measures the product's calls beside the plain C versions: all work on the same sheets by turns, and each answer and all that is left is compared. */
#include <stdio.h>
#include <string.h>

#include "checks.h"
#include "growth.h"
#include "measure.h"

enum {
    OPENED_AT = CLOSED_GROUPS,
    SEARCHED_AT = OPENED_AT + OPENED_GROUPS,
    TEXTS_AT = SEARCHED_AT + SEARCHED_GROUPS,
    GROUPS = TEXTS_AT + TEXT_GROUPS
};

static struct group groups[GROUPS];

static const char *const tasks[TASKS] = {
    [CLOSE] = "close",
    [OPEN] = "open",
    [SEARCH] = "search",
    [READ] = "read",
    [WRITE] = "write",
};

static void make_groups(void)
{
    make_closed_groups(groups);
    make_opened_groups(groups + OPENED_AT, groups);
    make_searched_groups(groups + SEARCHED_AT);
    make_text_groups(groups + TEXTS_AT);
}

/* The first words of a group's line. */
static void print_group(const struct group *g)
{
    printf("%-6s %-14s %6lu", tasks[g->task], g->name, (unsigned long)g->count);
}

/* The line of a group: the times of the versions, the ratio of the product to plain C by the same method, and how many times as fast as the sweeps the product is
   and plain C is. */
static void print_figures(const struct group *g, const struct figures *f)
{
    print_group(g);
    printf(" %12.1f %12.1f", f->time[PRODUCT], f->time[PLAIN]);
    if (versions_of(g->task) == VERSIONS)
        printf(" %12.1f %8.3f %8.3f %8.3f\n", f->time[SWEEPS], f->ratio, f->gain[PRODUCT], f->gain[PLAIN]);
    else
        printf(" %12s %8.3f %8s %8s\n", "-", f->ratio, "-", "-");
}

/* Checks all groups, measures them and prints their lines, and then the longest time that the product takes for a text of a megabyte. */
static void measure_groups(void)
{
    double longest = 0;
    for (size_t i = 0; i < GROUPS; i++)
        check_group(&groups[i]);
    for (size_t i = 0; i < GROUPS; i++) {
        const struct group *g = &groups[i];
        struct figures figures;
        answer_group(g);
        measure(g, &figures);
        print_figures(g, &figures);
        if (g->sheets[0].bytes >= MEGABYTE && figures.time[PRODUCT] > longest)
            longest = figures.time[PRODUCT];
    }
    printf("the slowest megabyte of text in one line took %.1f ms\n", longest / 1000000);
}

/* Has the calls of each group counted, version by version, and prints a line for each group, in the same order: its name, and how many versions there are. */
static void count_groups(void)
{
    for (size_t i = 0; i < GROUPS; i++) {
        const struct group *g = &groups[i];
        size_t versions = versions_of(g->task);
        for (size_t version = 0; version < versions; version++)
            work_once(calls[version][g->task], g);
        print_group(g);
        printf(" %lu\n", (unsigned long)versions);
    }
}

/* Without words, checks and measures all groups. With a word: has their calls counted; measures how costs grow; or tells how the triples looked at do. */
int main(int argc, char **argv)
{
    if (argc > 1 && strcmp(argv[1], "growth") == 0) {
        measure_growth();
    } else if (argc > 1 && strcmp(argv[1], "triples") == 0) {
        count_growth();
    } else {
        make_groups();
        if (argc > 1)
            count_groups();
        else
            measure_groups();
    }
    return 0;
}
