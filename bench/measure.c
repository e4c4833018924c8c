/* How long the versions take for a group: all of them work on the same sheets by turns, and what they answer and leave is looked at each time. */
#include <time.h>

#include "checks.h"
#include "measure.h"

enum {
    TURNS = 5,
    LEAST_TURN_NS = 2000000,
    BATCH = 56
};

/* What the calls of a batch answer, and what is lent to them. */
static uint64_t batch_answers[BATCH];
static _Alignas(64) uint16_t batch_lent[FULL_SHEETS * MOST_ROOM / 2];

_Static_assert(BATCH * MOST_TABLE <= sizeof batch_lent, "a batch has room");

/* What is lent to one of the calls of a batch. */
static void *lent_to(const struct group *g, size_t i)
{
    return (uint8_t *)batch_lent + i * g->lent;
}

static uint64_t nanoseconds(void)
{
    struct timespec now;
    clock_gettime(CLOCK_MONOTONIC, &now);
    return 1000000000u * (uint64_t)now.tv_sec + (uint64_t)now.tv_nsec;
}

/* How many calls make a batch: one round of a group's sheets; of closings and openings, which take less time than searches, as many rounds as there is room for. */
static size_t batch_of(const struct group *g)
{
    return g->task == CLOSE || g->task == OPEN ? BATCH / g->count * g->count : g->count;
}

/* Has a batch done as many times as this, each time with what is lent as it comes, and answers the time of the calls alone. */
static uint64_t run(work *call, const struct group *g, size_t repetitions)
{
    size_t batch = batch_of(g);
    uint64_t time = 0;
    for (size_t repetition = 0; repetition < repetitions; repetition++) {
        for (size_t i = 0; i < batch; i++)
            lend(g, &g->sheets[i % g->count], lent_to(g, i));
        uint64_t start = nanoseconds();
        for (size_t i = 0, j = 0; i < batch; i++) {
            batch_answers[i] = call(&g->sheets[j], lent_to(g, i));
            if (++j == g->count)
                j = 0;
        }
        time += nanoseconds() - start;
        for (size_t i = 0; i < batch; i++)
            expect_kept(g, i % g->count, batch_answers[i], lent_to(g, i));
    }
    return time;
}

/* How many batches of a group make a turn: with so many, no version is done too soon for its time to be told. */
static size_t repetitions_of(const struct group *g)
{
    size_t repetitions = 1;
    for (size_t version = 0; version < versions_of(g->task); version++) {
        while (run(calls[version][g->task], g, repetitions) < LEAST_TURN_NS)
            repetitions *= 2;
    }
    return repetitions;
}

/* The middle one of the values of all turns. After it they stand from the least to the largest. */
static double median(double values[TURNS])
{
    for (size_t i = 1; i < TURNS; i++) {
        double value = values[i];
        size_t j = i;
        for (; j > 0 && values[j - 1] > value; j--)
            values[j] = values[j - 1];
        values[j] = value;
    }
    return values[TURNS / 2];
}

/* The middle one of what one version's times of all turns are, divided by another's. */
static double median_ratio(double times[VERSIONS][TURNS], enum version one, enum version other)
{
    double ratios[TURNS];
    for (size_t turn = 0; turn < TURNS; turn++)
        ratios[turn] = times[one][turn] / times[other][turn];
    return median(ratios);
}

/* The versions take turns in one order and in the other. */
void measure(const struct group *g, struct figures *figures)
{
    double times[VERSIONS][TURNS];
    size_t versions = versions_of(g->task);
    size_t repetitions = repetitions_of(g);
    for (size_t turn = 0; turn < TURNS; turn++) {
        for (size_t i = 0; i < versions; i++) {
            size_t version = turn % 2 == 0 ? i : versions - 1 - i;
            times[version][turn] = (double)run(calls[version][g->task], g, repetitions) / (double)(repetitions * batch_of(g));
        }
    }
    figures->ratio = median_ratio(times, PRODUCT, PLAIN);
    for (size_t version = 0; version < SWEEPS && versions == VERSIONS; version++)
        figures->gain[version] = median_ratio(times, SWEEPS, version);
    for (size_t version = 0; version < versions; version++) {
        figures->time[version] = median(times[version]);
        figures->least[version] = times[version][0];
    }
}

/* What is counted by bench/count.sh is what runs in here, so it is a function of its own. */
__attribute__((noinline)) static void counted(work *call, const struct group *g)
{
    for (size_t i = 0; i < g->count; i++)
        batch_answers[i] = call(&g->sheets[i], lent_to(g, i));
}

void work_once(work *call, const struct group *g)
{
    for (size_t i = 0; i < g->count; i++)
        lend(g, &g->sheets[i], lent_to(g, i));
    counted(call, g);
}
