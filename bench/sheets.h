/* The sheets that the calls work on: descriptions, with the table, the text or the room that is lent for each, in groups. */
#ifndef SHEETS_H
#define SHEETS_H

#include "plain.h"

enum {
    MOST_TABLE = 320,
    MOST_ROOM = 16832,
    MOST_SHEETS = 56,
    FULL_SHEETS = 8,
    MEGABYTE = 1000000,
    BUDGET = 10000,
    CLOSED_GROUPS = 8,
    OPENED_GROUPS = 8,
    SEARCHED_GROUPS = 10,
    TEXT_GROUPS = 10,
    SIZES = 7
};

/* A description, the table and the budget lent with it, and the number that must be answered; where the description is refused, the place that must be
   answered, else 0. Where the description was taken off a site, the site's relation for each cell, which the closed table must still have, and which no
   arrangement found may come after; else zeros. In the groups of texts, the text that is read or that must be written, and for m the length of the lent
   room. */
struct sheet {
    uint16_t words[TALUNG_MOST_WORDS];
    size_t n;
    uint8_t table[MOST_TABLE];
    size_t m;
    uint32_t budget;
    uint8_t number;
    uint16_t place;
    uint8_t site[TALUNG_MOST_CELLS];
    const char *text;
    size_t bytes;
};

/* What is done with the sheets of a group. */
enum task { CLOSE, OPEN, SEARCH, READ, WRITE, TASKS };

/* Sheets with the same task. With each of them as many bytes are lent as the group says: its table or its room, and bytes past it, which must stay as they
   came. A group that lends more than MOST_TABLE has at most FULL_SHEETS sheets. */
struct group {
    const char *name;
    enum task task;
    size_t count;
    size_t lent;
    struct sheet sheets[MOST_SHEETS];
};

/* Make the groups, the same in every run. Those that are opened have sheets of those that are closed. */
void make_closed_groups(struct group groups[CLOSED_GROUPS]);
void make_opened_groups(struct group groups[OPENED_GROUPS], const struct group closed[CLOSED_GROUPS]);
void make_searched_groups(struct group groups[SEARCHED_GROUPS]);
void make_text_groups(struct group groups[TEXT_GROUPS]);

/* Make one group for each of the sizes of sites, from 4 boards to 16, two more each time: of sheets that are closed; and of sheets that are searched. */
void make_grown_closings(struct group groups[SIZES]);
void make_grown_searches(struct group groups[SIZES]);

/* Make a sheet to be closed, taken off a site of so many boards: with few relation lines; with kind lines too, on boards drawn, some of them on one board or on one
   place. */
void make_sparse(struct sheet *s, size_t boards);
void make_panels(struct sheet *s, size_t boards);

/* Make a sheet to be searched that has an arrangement. There are three kinds of each. With few lines, taken off a site: relation lines, kind lines, both. With
   many: a relation line on each pair, taken off a site; on half of the pairs, with kind lines; off no site, with tries in vain. */
void make_loose(struct sheet *s, size_t boards, size_t kind);
void make_tight(struct sheet *s, size_t boards, size_t kind);

#endif
