/* What the versions of the search share: the same tries in the same order, and one table to go back to, not one for each choice. */
#ifndef PLAIN_TRIES_H
#define PLAIN_TRIES_H

#include "plain_parts.h"

enum {
    RELATIONS = 4,
    MOST_PAIRS = TALUNG_MOST_BOARDS * (TALUNG_MOST_BOARDS - 1) / 2
};

/* A pair of boards p < q, and how many such pairs come before it. After the last pair comes one whose q is the number of boards. */
struct pair {
    size_t p;
    size_t q;
    size_t index;
};

/* The lent table closed, the table at hand inside it, and for each pair that the search has passed or stands at the relations that it may still choose
   there, the one chosen being the first of them in the order. */
struct state {
    const struct header *header;
    const uint16_t *words;
    const uint8_t *order;
    uint8_t first[TALUNG_MOST_CELLS];
    uint8_t cells[TALUNG_MOST_CELLS];
    uint8_t choices[MOST_PAIRS];
};

/* What a version does by its own method: takes the description and the table; closes the first table, and answers whether it is not contradictory; makes the table
   at hand the first one; narrows in it the cell of a pair to the relation that is chosen there; and closes it then, with the same answer. */
struct method {
    taking *take;
    int (*close_first)(struct state *s);
    void (*restart)(struct state *s);
    void (*choose)(struct state *s, struct pair at);
    int (*close_again)(struct state *s);
};

static const struct pair start = {0, 1, 0};

static inline struct pair pair_after(size_t v, struct pair at)
{
    if (at.q + 1 < v)
        return (struct pair){at.p, at.q + 1, at.index + 1};
    return (struct pair){at.p + 1, at.p + 2, at.index + 1};
}

static inline struct pair pair_before(size_t v, struct pair at)
{
    if (at.p + 1 < at.q)
        return (struct pair){at.p, at.q - 1, at.index - 1};
    return (struct pair){at.p - 1, v - 1, at.index - 1};
}

/* The first relation of the order that the set has, as a set; none of an empty set. */
static inline uint8_t pick(const uint8_t *order, uint8_t set)
{
    for (size_t i = 0; i < RELATIONS; i++) {
        uint8_t relation = 1 << order[i];
        if (set & relation)
            return relation;
    }
    return 0;
}

/* The set without that relation. */
static inline uint8_t unpicked(const uint8_t *order, uint8_t set)
{
    return set & ~pick(order, set);
}

static inline int is_single(uint8_t set)
{
    return (set & (set - 1)) == 0;
}

/* The relation that is chosen at this pair. */
static inline uint8_t chosen(const struct state *s, struct pair at)
{
    return pick(s->order, s->choices[at.index]);
}

/* Copies the first table to the one at hand. */
static inline void copy_first(struct state *s)
{
    size_t m = s->header->boards * s->header->boards;
    for (size_t i = 0; i < m; i++)
        s->cells[i] = s->first[i];
}

/* Passes the pairs from this one on whose cells are single. Answers the pair of the next try, or the one after the last. */
static inline struct pair next_open(struct state *s, struct pair at)
{
    size_t v = s->header->boards;
    for (; at.q < v; at = pair_after(v, at)) {
        uint8_t set = s->cells[v * at.p + at.q];
        s->choices[at.index] = set;
        if (!is_single(set))
            break;
    }
    return at;
}

/* Goes back from a pair whose try has failed to the last one with a relation left to choose. Answers whether there is one. */
static inline int last_open(struct state *s, struct pair *at)
{
    for (;;) {
        uint8_t *choice = &s->choices[at->index];
        *choice = unpicked(s->order, *choice);
        if (*choice)
            return 1;
        if (at->index == 0)
            return 0;
        *at = pair_before(s->header->boards, *at);
    }
}

/* Makes the table at hand anew: the first one, with what is chosen at the pairs before this one. */
static inline void rebuild(const struct method *by, struct state *s, struct pair to)
{
    by->restart(s);
    for (struct pair at = start; at.index < to.index; at = pair_after(s->header->boards, at))
        by->choose(s, at);
}

/* Searches inside the table at hand, which is the first one. After success it is the arrangement. */
static inline __attribute__((always_inline)) uint64_t search(const struct method *by, struct state *s, uint32_t budget)
{
    size_t v = s->header->boards;
    uint32_t tries = 0;
    struct pair at = next_open(s, start);
    while (at.q < v) {
        if (tries == budget)
            return answer(TALUNG_RAN_OUT, budget);
        tries++;
        by->choose(s, at);
        if (by->close_again(s)) {
            at = next_open(s, pair_after(v, at));
            continue;
        }
        if (!last_open(s, &at))
            return answer(TALUNG_NOWHERE, tries);
        rebuild(by, s, at);
    }
    return answer(TALUNG_OK, tries);
}

/* Takes the description and the table, and searches by a method. */
static inline __attribute__((always_inline)) uint64_t search_by(const struct method *by, struct state *s, const uint16_t *words, size_t n, uint8_t *table, size_t m,
                                                                uint32_t budget)
{
    static const uint8_t order[RELATIONS] = {0, 1, 2, 3};
    struct header h;
    struct refusal refused = by->take(words, n, table, m, &h, s->first);
    if (refused.number)
        return refuse_at(refused);
    s->header = &h;
    s->words = words;
    s->order = order;
    if (!by->close_first(s))
        return answer(TALUNG_NOWHERE, 0);
    by->restart(s);
    uint64_t found = search(by, s, budget);
    if (talung_number(found) == TALUNG_OK) {
        for (size_t i = 0; i < m; i++)
            table[i] = s->cells[i];
    }
    return found;
}

#endif
