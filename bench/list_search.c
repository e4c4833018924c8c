/* The search in plain C, by the product's method: a try strikes the cell of a pair, and only what depends on it is looked at. */
#include "list_parts.h"
#include "plain_tries.h"

/* A search with the index of its kind lines and the marks of the table at hand. */
struct listed {
    struct state state;
    struct index index;
    uint32_t marks[TALUNG_MOST_BOARDS];
};

/* Each search here is one of these. */
static struct listed *listed(struct state *s)
{
    return (struct listed *)s;
}

static int close_first(struct state *s)
{
    return list_first(s->header, s->words, s->first, listed(s)->marks, &listed(s)->index);
}

static void restart(struct state *s)
{
    copy_first(s);
    clear(listed(s)->marks);
}

static void strike_chosen(struct state *s, struct pair at)
{
    strike(s->header->boards, at.p, at.q, chosen(s, at), s->cells, listed(s)->marks);
}

static int drain(struct state *s)
{
    return list_drain(s->header->boards, &listed(s)->index, s->cells, listed(s)->marks);
}

uint64_t list_search(const uint16_t *words, size_t n, uint8_t *table, size_t m, uint32_t budget)
{
    static const struct method by_list = {take, close_first, restart, strike_chosen, drain};
    struct listed s;
    return search_by(&by_list, &s.state, words, n, table, m, budget);
}
