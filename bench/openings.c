/* The groups of sheets that are opened: sheets of those that are closed, with tables that hold anything. */
#include "sheets.h"
#include "sites.h"

/* Whether closing the full table under a sheet answers the sheet's number. It does not where the sheet is refused for what its own table holds. */
static int holds_when_full(const struct sheet *s)
{
    uint8_t table[MOST_TABLE];
    fill_table(table);
    return talung_number(plain_close(s->words, s->n, table, s->m)) == s->number;
}

/* Makes a sheet like one that is closed, with bytes drawn for its table. */
static void make_opened(struct sheet *s, const struct sheet *closed)
{
    *s = *closed;
    for (size_t k = 0; k < MOST_TABLE; k++)
        s->table[k] = below(256);
}

/* Fills a group with the sheets of one that is closed, without those that are refused for what their table holds: an opening never is. */
static void fill(struct group *g, const char *name, const struct group *closed)
{
    g->name = name;
    g->task = OPEN;
    g->count = 0;
    g->lent = closed->lent;
    for (size_t i = 0; i < closed->count; i++) {
        if (holds_when_full(&closed->sheets[i]))
            make_opened(&g->sheets[g->count++], &closed->sheets[i]);
    }
}

void make_opened_groups(struct group groups[OPENED_GROUPS], const struct group closed[CLOSED_GROUPS])
{
    seed(4);
    fill(&groups[0], "open full 16", &closed[0]);
    fill(&groups[1], "open sparse", &closed[1]);
    fill(&groups[2], "open dense", &closed[2]);
    fill(&groups[3], "open panels", &closed[3]);
    fill(&groups[4], "open same", &closed[4]);
    fill(&groups[5], "open small", &closed[5]);
    fill(&groups[6], "open clash", &closed[6]);
    fill(&groups[7], "open refused", &closed[7]);
}
