/* The search in plain C, with closings by sweeps. */
#include "plain_tries.h"

static int sweep_first(struct state *s)
{
    return close_cells(s->header, s->words, s->first) >= 0;
}

static void put_chosen(struct state *s, struct pair at)
{
    s->cells[s->header->boards * at.p + at.q] = chosen(s, at);
}

static int sweep_again(struct state *s)
{
    return close_again(s->header, s->words, s->cells) >= 0;
}

uint64_t plain_search(const uint16_t *words, size_t n, uint8_t *table, size_t m, uint32_t budget)
{
    static const struct method by_sweeps = {take_with_sets, sweep_first, copy_first, put_chosen, sweep_again};
    struct state s;
    return search_by(&by_sweeps, &s, words, n, table, m, budget);
}
