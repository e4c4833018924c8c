/* The calls that are compared and measured, by their versions and tasks. */
#include <string.h>

#include "calls.h"

/* What stands in each byte of a room before the call. */
enum { MARK = 165 };

/* ---- openings */

static uint64_t product_opens(const struct sheet *s, void *table)
{
    return talung_open(s->words, s->n, table, s->m);
}

static uint64_t list_opens(const struct sheet *s, void *table)
{
    return list_open(s->words, s->n, table, s->m);
}

static uint64_t sweeps_open(const struct sheet *s, void *table)
{
    return plain_open(s->words, s->n, table, s->m);
}

/* ---- closings */

static uint64_t product_closes(const struct sheet *s, void *table)
{
    return talung_close(s->words, s->n, table, s->m);
}

static uint64_t list_closes(const struct sheet *s, void *table)
{
    return list_close(s->words, s->n, table, s->m);
}

static uint64_t sweeps_close(const struct sheet *s, void *table)
{
    return plain_close(s->words, s->n, table, s->m);
}

/* ---- searches */

static uint64_t product_searches(const struct sheet *s, void *table)
{
    return talung_search(s->words, s->n, table, s->m, s->budget);
}

static uint64_t list_searches(const struct sheet *s, void *table)
{
    return list_search(s->words, s->n, table, s->m, s->budget);
}

static uint64_t sweeps_search(const struct sheet *s, void *table)
{
    return plain_search(s->words, s->n, table, s->m, s->budget);
}

/* ---- texts */

static uint64_t product_reads(const struct sheet *s, void *words)
{
    return talung_from_text(s->text, s->bytes, words, s->m);
}

static uint64_t plain_reads(const struct sheet *s, void *words)
{
    return plain_from_text(s->text, s->bytes, words, s->m);
}

static uint64_t product_writes(const struct sheet *s, void *text)
{
    return talung_to_text(s->words, s->n, text, s->m);
}

static uint64_t plain_writes(const struct sheet *s, void *text)
{
    return plain_to_text(s->words, s->n, text, s->m);
}

/* ---- all */

work *const calls[VERSIONS][TASKS] = {
    [PRODUCT] = {
        [CLOSE] = product_closes,
        [OPEN] = product_opens,
        [SEARCH] = product_searches,
        [READ] = product_reads,
        [WRITE] = product_writes,
    },
    [PLAIN] = {
        [CLOSE] = list_closes,
        [OPEN] = list_opens,
        [SEARCH] = list_searches,
        [READ] = plain_reads,
        [WRITE] = plain_writes,
    },
    [SWEEPS] = {
        [CLOSE] = sweeps_close,
        [OPEN] = sweeps_open,
        [SEARCH] = sweeps_search,
    },
};

size_t versions_of(enum task task)
{
    return task == READ || task == WRITE ? SWEEPS : VERSIONS;
}

void lend(const struct group *g, const struct sheet *s, void *lent)
{
    if (g->task != READ && g->task != WRITE) {
        memcpy(lent, s->table, MOST_TABLE);
        return;
    }
    uint8_t *bytes = lent;
    for (size_t k = 0; k < g->lent; k++)
        bytes[k] = MARK;
}
