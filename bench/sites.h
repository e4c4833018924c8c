/* Sites that are grown, and descriptions that are taken off them. */
#ifndef SITES_H
#define SITES_H

#include "sheets.h"

enum { HEADER = 6, HEAD = 3, MOST_LINES = 128, MOST_KINDS = 16, MOST_WORDS = 15, MOST_WAYS = 8 };

enum { UNION = 4, INTERSECTION = 5, COMPLEMENT = 6, INVERSE = 7 };

/* Places of a radial tree, each right below another or at the top, with a code each; and boards, each at a place. No place is without a board. */
struct site {
    size_t boards;
    size_t places;
    int above[TALUNG_MOST_BOARDS];
    uint16_t code[TALUNG_MOST_BOARDS];
    size_t place[TALUNG_MOST_BOARDS];
};

/* Numbers drawn in an order that the seed fixes. */
void seed(uint64_t number);
size_t below(size_t n);
size_t between(size_t least, size_t most);

/* Grows a site whose places have up to 8 ways, and a code of their own. */
void grow(struct site *site, size_t boards, size_t places);

/* Grows a site of panels that all have this number of ways, and one code. */
void grow_alike(struct site *site, size_t boards, size_t ways);

/* Makes a table full: of no two boards anything is known. */
void fill_table(uint8_t table[MOST_TABLE]);

/* A description with no lines yet, and a full table. */
void begin(struct sheet *s, size_t boards);

/* Adds a line. The relation lines come before the kind lines. */
void add_relation_line(struct sheet *s, size_t p, size_t q, const uint16_t *expression, size_t length);
void add_kind_line(struct sheet *s, size_t p, uint16_t code, const uint16_t *ways, size_t count);

/* Adds a relation line that allows this set, which is not empty. */
void add_set_line(struct sheet *s, size_t p, size_t q, uint8_t set);

/* Adds relation lines on boards drawn, with expressions up to this long, that hold at the site; or as long as they may be; or one that does not hold. */
void add_holding_lines(struct sheet *s, const struct site *site, size_t count, size_t longest);
void add_longest_lines(struct sheet *s, const struct site *site, size_t count);
void add_failing_line(struct sheet *s, const struct site *site, size_t longest);

/* Adds the kind line of the board p at the site; or of a board drawn among those with ways. */
void add_panel(struct sheet *s, const struct site *site, size_t p);
void add_panel_with_ways(struct sheet *s, const struct site *site);

/* Keeps the site's relations in the sheet. */
void keep_site(struct sheet *s, const struct site *site);

#endif
