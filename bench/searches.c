/* The groups of sheets that are searched, from full tables. */
#include "sheets.h"
#include "sites.h"

/* The most tries that a sheet takes which is redrawn until it suits. */
enum { MOST_TRIES = 256 };

/* ---- lines */

/* Adds relation lines on pairs among the boards from this one on, about as many out of ten as this. Each allows two or three relations, the site's among
   them where the sheet keeps a site; none but the site's is E, so that closing leaves much to be tried. */
static void add_pairs(struct sheet *s, size_t from, size_t tenths)
{
    static const uint8_t sets[4] = {6, 10, 12, 14};
    size_t boards = s->words[0];
    for (size_t p = from; p < boards; p++) {
        for (size_t q = p + 1; q < boards; q++) {
            if (below(10) < tenths)
                add_set_line(s, p, q, sets[below(4)] | s->site[boards * p + q]);
        }
    }
}

static void add_panels(struct sheet *s, const struct site *site, size_t count)
{
    for (size_t i = 0; i < count; i++)
        add_panel(s, site, below(site->boards));
}

/* Adds a kind line with one way, on two boards drawn. */
static void add_feeder(struct sheet *s)
{
    size_t boards = s->words[0];
    size_t p = below(boards);
    uint16_t way = (p + between(1, boards - 1)) % boards;
    add_kind_line(s, p, 1, &way, 1);
}

/* ---- how a sheet is searched */

/* What the search answers; and its table, beside the sheet's own. */
static uint64_t search(const struct sheet *s, uint32_t budget, uint8_t *table)
{
    for (size_t k = 0; k < MOST_TABLE; k++)
        table[k] = s->table[k];
    return plain_search(s->words, s->n, table, s->m, budget);
}

/* Whether the search finds that there is no arrangement, after a number of tries from the least to the most. */
static int fails_after(const struct sheet *s, size_t least, size_t most)
{
    uint8_t table[MOST_TABLE];
    uint64_t answer = search(s, most, table);
    return talung_number(answer) == TALUNG_NOWHERE && talung_count(answer) >= least;
}

/* Whether more tries are needed than these. */
static int outlasts(const struct sheet *s, size_t tries)
{
    uint8_t table[MOST_TABLE];
    return talung_number(search(s, tries, table)) == TALUNG_RAN_OUT;
}

/* How many tries lead straight to an arrangement, which the search finds. */
static size_t straight_tries(const struct sheet *s, const uint8_t *arrangement)
{
    size_t boards = s->words[0];
    size_t tries = 0;
    uint8_t table[MOST_TABLE];
    for (size_t k = 0; k < MOST_TABLE; k++)
        table[k] = s->table[k];
    for (size_t p = 0; p < boards; p++) {
        for (size_t q = p + 1; q < boards; q++) {
            plain_close(s->words, s->n, table, s->m);
            size_t k = boards * p + q;
            tries += table[k] != arrangement[k];
            table[k] = arrangement[k];
        }
    }
    return tries;
}

/* Whether the search finds an arrangement, with at least so many tries in vain. */
static int finds_after(const struct sheet *s, size_t vain)
{
    uint8_t table[MOST_TABLE];
    uint64_t answer = search(s, MOST_TRIES, table);
    return talung_number(answer) == TALUNG_OK && talung_count(answer) >= straight_tries(s, table) + vain;
}

/* ---- sheets that have an arrangement */

void make_loose(struct sheet *s, size_t boards, size_t kind)
{
    struct site site;
    grow(&site, boards, between(boards / 2, boards));
    begin(s, boards);
    if (kind != 1)
        add_holding_lines(s, &site, between(0, boards / 2), 5);
    if (kind != 0)
        add_panels(s, &site, between(1, 3));
    keep_site(s, &site);
}

/* Relation lines on many pairs of boards, taken off a site; with kind lines or without. */
static void make_sited_pairs(struct sheet *s, size_t boards, size_t tenths, size_t panels)
{
    struct site site;
    grow(&site, boards, between(boards / 2, boards));
    begin(s, boards);
    keep_site(s, &site);
    add_pairs(s, 0, tenths);
    add_panels(s, &site, panels);
}

/* Relation lines on many pairs, off no site, that have an arrangement, though some tries are in vain: half as many as boards, and at least four from 8 boards on. */
static void make_detours(struct sheet *s, size_t boards)
{
    do {
        begin(s, boards);
        add_pairs(s, 0, between(5, 8));
    } while (!finds_after(s, boards < 8 ? boards / 2 : 4));
}

void make_tight(struct sheet *s, size_t boards, size_t kind)
{
    switch (kind) {
    case 0: make_sited_pairs(s, boards, 10, 0); break;
    case 1: make_sited_pairs(s, boards, 5, between(1, 4)); break;
    default: make_detours(s, boards); break;
    }
}

/* ---- sheets that have none, or none within the budget */

/* Closing is enough to find that there is no arrangement: lines taken off a site, and one that does not hold there. */
static void make_clash(struct sheet *s, size_t boards, size_t panels)
{
    do {
        struct site site;
        grow(&site, boards, between(boards / 2, boards));
        begin(s, boards);
        add_holding_lines(s, &site, 2 * boards, 5);
        add_failing_line(s, &site, 3);
        add_panels(s, &site, panels);
    } while (!fails_after(s, 0, 0));
}

/* There is no arrangement, but only failed tries show it, as many as these or more. */
static void make_dead_end(struct sheet *s, size_t boards, size_t feeders, size_t least)
{
    do {
        begin(s, boards);
        add_pairs(s, 0, between(5, 7));
        for (size_t i = 0; i < feeders; i++)
            add_feeder(s);
    } while (!fails_after(s, least, MOST_TRIES));
}

/* No arrangement. There are four kinds: relation lines that clash, or these among kind lines; relation lines that are a dead end after at least as many
   tries as boards, or these with a kind line. */
static void make_none(struct sheet *s, size_t boards, size_t kind)
{
    switch (kind) {
    case 0: make_clash(s, boards, 0); break;
    case 1: make_clash(s, boards, 4); break;
    case 2: make_dead_end(s, boards, 0, boards); break;
    default: make_dead_end(s, boards, 1, 1); break;
    }
    s->number = TALUNG_NOWHERE;
}

/* More tries than the budget, since what has no arrangement are the last six boards alone. */
static void make_spent(struct sheet *s, size_t boards, size_t kind)
{
    (void)kind;
    do {
        begin(s, boards);
        add_pairs(s, boards - 6, 10);
    } while (!outlasts(s, s->budget));
    s->number = TALUNG_RAN_OUT;
}

/* ---- the groups */

/* With as many sheets of each kind. */
static void fill(struct group *g, const char *name, size_t count, size_t kinds, size_t boards, void (*make)(struct sheet *, size_t, size_t))
{
    g->name = name;
    g->task = SEARCH;
    g->count = count;
    g->lent = MOST_TABLE;
    for (size_t i = 0; i < count; i++)
        make(&g->sheets[i], boards, i % kinds);
}

void make_searched_groups(struct group groups[SEARCHED_GROUPS])
{
    seed(2);
    fill(&groups[0], "loose 8", 24, 3, 8, make_loose);
    fill(&groups[1], "loose 12", 24, 3, 12, make_loose);
    fill(&groups[2], "loose 16", 24, 3, 16, make_loose);
    fill(&groups[3], "tight 8", 24, 3, 8, make_tight);
    fill(&groups[4], "tight 12", 24, 3, 12, make_tight);
    fill(&groups[5], "tight 16", 24, 3, 16, make_tight);
    fill(&groups[6], "none 8", 24, 4, 8, make_none);
    fill(&groups[7], "none 12", 24, 4, 12, make_none);
    fill(&groups[8], "none 16", 24, 4, 16, make_none);
    fill(&groups[9], "spent 10", 1, 1, 10, make_spent);
}
