/* The groups of sheets that are closed. Most sheets are taken off a site, so that they do not contradict themselves. */
#include "sheets.h"
#include "sites.h"

/* ---- sheets that close */

/* Nothing is said of the boards. */
static void make_full(struct sheet *s, size_t boards)
{
    begin(s, boards);
}

void make_sparse(struct sheet *s, size_t boards)
{
    struct site site;
    grow(&site, boards, between(3 * boards / 8, boards));
    begin(s, boards);
    add_holding_lines(s, &site, between(boards / 2, boards), 5);
    keep_site(s, &site);
}

/* As many relation lines as there may be. */
static void make_dense(struct sheet *s, size_t boards)
{
    struct site site;
    grow(&site, boards, between(3 * boards / 8, boards));
    begin(s, boards);
    add_holding_lines(s, &site, MOST_LINES, MOST_WORDS);
    keep_site(s, &site);
}

void make_panels(struct sheet *s, size_t boards)
{
    struct site site;
    grow(&site, boards, between(3 * boards / 8, boards));
    begin(s, boards);
    add_holding_lines(s, &site, between(boards / 4, 2 * boards), 7);
    size_t kinds = between(boards / 4, boards);
    for (size_t i = 0; i < kinds; i++)
        add_panel(s, &site, below(boards));
    keep_site(s, &site);
}

/* As many kind lines as there may be, of one code and one number of ways. */
static void make_same_panels(struct sheet *s, size_t boards)
{
    struct site site;
    grow_alike(&site, boards, between(1, MOST_WAYS));
    begin(s, boards);
    add_holding_lines(s, &site, between(0, 8), 3);
    for (size_t i = 0; i < MOST_KINDS; i++)
        add_panel_with_ways(s, &site);
    keep_site(s, &site);
}

/* Up to so many boards, few lines, and a table of which something is known. */
static void make_small(struct sheet *s, size_t most)
{
    struct site site;
    size_t boards = between(1, most);
    grow(&site, boards, between(1, boards));
    begin(s, boards);
    add_holding_lines(s, &site, between(0, 4), 5);
    size_t kinds = between(0, 2);
    for (size_t i = 0; i < kinds; i++)
        add_panel(s, &site, below(boards));
    keep_site(s, &site);
    for (size_t k = 0; k < s->m; k++) {
        if (below(8) == 0)
            s->table[k] = s->site[k] | below(16);
    }
}

/* ---- sheets that close to a contradiction */

/* Something that does not hold at the site: a relation line among many or among few, a panel with another code, a panel with other ways. */
static void make_fault(struct sheet *s, const struct site *site, size_t fault)
{
    uint16_t ways[2] = {below(16), below(16)};
    add_holding_lines(s, site, fault == 0 ? MOST_LINES - 1 : between(0, 16), 7);
    if (fault < 2)
        add_failing_line(s, site, 3);
    for (size_t i = 0; i < 8; i++)
        add_panel_with_ways(s, site);
    if (fault == 2)
        s->words[s->words[4] + 1]++;
    if (fault == 3)
        add_kind_line(s, below(16), 1, ways, between(0, 2));
}

/* Boards of which each is at or above the next one, and the last one above the first. */
static void make_ring(struct sheet *s, const size_t *boards, size_t length)
{
    static const uint16_t at_or_above[3] = {UNION, 0, 1};
    static const uint16_t above[1] = {1};
    for (size_t i = 0; i + 1 < length; i++)
        add_relation_line(s, boards[i], boards[i + 1], at_or_above, 3);
    add_relation_line(s, boards[length - 1], boards[0], above, 1);
}

/* Panels of which each has the next one as its only way, and the last one the first. */
static void make_panel_ring(struct sheet *s, const size_t *boards, size_t length)
{
    for (size_t i = 0; i < length; i++) {
        uint16_t way = boards[(i + 1) % length];
        add_kind_line(s, boards[i], 1, &way, 1);
    }
}

/* Whether the sheet is contradictory. If it is not, its table is then closed. */
static int clashes(struct sheet *s)
{
    return plain_close(s->words, s->n, s->table, s->m) == 7;
}

/* A try of the search that fails: a closed table with one of its cells narrowed to a single relation. */
static void make_failed_try(struct sheet *s)
{
    size_t tries = 0;
    make_panels(s, 16);
    while (!clashes(s)) {
        if (++tries > 1000) {
            make_panels(s, 16);
            tries = 0;
            continue;
        }
        size_t k = below(s->m);
        uint8_t relation = 1 << below(4);
        if (s->table[k] & relation)
            s->table[k] = relation;
    }
}

/* There are eight kinds: four faults, two rings, an empty cell in the lent table, a failed try. */
static void make_contradictory(struct sheet *s, size_t kind)
{
    struct site site;
    do {
        begin(s, 16);
        /* with 16 places, each board has one of its own */
        grow(&site, 16, kind < 4 ? between(6, 16) : 16);
        if (kind < 4)
            make_fault(s, &site, kind);
        else if (kind == 4)
            make_ring(s, site.place, between(2, 16));
        else if (kind == 5)
            make_panel_ring(s, site.place, between(2, 16));
        else if (kind == 6)
            s->table[below(s->m)] = 0;
        else
            make_failed_try(s);
    } while (!clashes(s));
    s->number = TALUNG_CONTRADICTORY;
    for (size_t k = 0; k < TALUNG_MOST_CELLS; k++)
        s->site[k] = 0;
}

/* ---- sheets that are refused */

/* Each of these spoils a good sheet in one of some ways, and answers the place of the refusal. */

/* The word at this place becomes another. */
static size_t spoil_word(struct sheet *s, size_t place, uint16_t word)
{
    s->words[place] = word;
    return place;
}

/* So many words alone are lent. */
static size_t cut(struct sheet *s, size_t n)
{
    s->n = n;
    return n;
}

/* Too few words, or a number of the header out of range. */
static size_t spoil_numbers(struct sheet *s, size_t way)
{
    switch (way) {
    case 0: return cut(s, 0);
    case 1: return cut(s, 5);
    case 2: return spoil_word(s, 0, 0);
    case 3: return spoil_word(s, 0, 17);
    case 4: return spoil_word(s, 0, 65535);
    case 5: return spoil_word(s, 1, 129);
    case 6: return spoil_word(s, 2, 17);
    default: return spoil_word(s, 2, 65535);
    }
}

/* An offset or the total wrong. */
static size_t spoil_offsets(struct sheet *s, size_t way)
{
    switch (way) {
    case 0: return spoil_word(s, 3, 5);
    case 1: return spoil_word(s, 3, 7);
    case 2: return spoil_word(s, 4, 5);
    case 3: return spoil_word(s, 4, s->n + 1);
    case 4: return spoil_word(s, 4, 0);
    case 5: return spoil_word(s, 5, s->n + 1);
    case 6: return spoil_word(s, 5, 65535);
    default: s->n--; return 5;
    }
}

/* A length or a number of ways out of range, a line that runs past its section, or words left over. */
static size_t spoil_lengths(struct sheet *s, size_t way, size_t line, size_t kind)
{
    switch (way) {
    case 0: return spoil_word(s, line + 2, 0);
    case 1: return spoil_word(s, HEADER + 2, 16);
    case 2: return --s->words[4];
    case 3: s->words[1]--; return line;
    case 4: s->words[2]--; return kind;
    case 5: return spoil_word(s, s->words[4] + 2, 9);
    case 6: return ++s->words[kind + 2] > MOST_WAYS ? kind + 2 : s->n;
    default: s->words[kind + 2]--; return s->n - 1;
    }
}

/* A board that the site has not. */
static size_t spoil_boards(struct sheet *s, size_t way, size_t line, size_t kind)
{
    uint16_t boards = s->words[0];
    switch (way) {
    case 0: return spoil_word(s, line, boards);
    case 1: return spoil_word(s, line + 1, boards);
    case 2: return spoil_word(s, kind, boards);
    case 3: return spoil_word(s, kind + HEAD, boards);
    case 4: return spoil_word(s, HEADER, 65535);
    case 5: return spoil_word(s, HEADER + 1, boards);
    case 6: return spoil_word(s, s->words[4], boards);
    default: return spoil_word(s, s->n - 1, 65535);
    }
}

/* A code that there is not, or an operator without its operand: there a word is missing after the last. */
static size_t spoil_expression(struct sheet *s, size_t way, size_t line)
{
    size_t last = line + HEAD + s->words[line + 2] - 1;
    switch (way) {
    case 0: return spoil_word(s, line + HEAD, 8);
    case 1: return spoil_word(s, line + HEAD, 65535);
    case 2: return spoil_word(s, last, UNION) + 1;
    default: return spoil_word(s, last, COMPLEMENT) + 1;
    }
}

/* A wrong number of cells, or a cell that is no set: that has no place. */
static size_t spoil_table(struct sheet *s, size_t way)
{
    switch (way) {
    case 0: s->m = 0; break;
    case 1: s->m--; break;
    case 2: s->m++; break;
    case 3: s->m = 15 * 15; break;
    case 4: s->table[0] = 16; break;
    case 5: s->table[s->m / 2] = 128; break;
    case 6: s->table[s->m - 1] = 16; break;
    default: s->table[s->m - 1] = 255; break;
    }
    return 0;
}

/* A kind line more, with the code of the last one and another number of ways. */
static size_t spoil_kinds(struct sheet *s, size_t way, size_t kind)
{
    static const uint16_t ways[MOST_WAYS];
    size_t added = s->n;
    add_kind_line(s, below(16), s->words[kind + 1], ways, (s->words[kind + 2] + 1 + way) % (MOST_WAYS + 1));
    return added + 2;
}

/* Where the last one of some lines begins, of which the first begins at this word. */
static size_t last_line(const struct sheet *s, size_t at, size_t count)
{
    for (size_t i = 1; i < count; i++)
        at += HEAD + s->words[at + 2];
    return at;
}

/* Spoils a good sheet so that it must be refused with this number, and keeps the place of the refusal. */
static void spoil(struct sheet *s, unsigned number, size_t way)
{
    size_t line = last_line(s, HEADER, s->words[1]);
    size_t kind = last_line(s, s->words[4], s->words[2]);
    s->number = number;
    switch (number) {
    case TALUNG_OUT_OF_RANGE: s->place = spoil_numbers(s, way); break;
    case TALUNG_MISPLACED: s->place = spoil_offsets(s, way); break;
    case TALUNG_UNFIT: s->place = spoil_lengths(s, way, line, kind); break;
    case TALUNG_NO_BOARD: s->place = spoil_boards(s, way, line, kind); break;
    case TALUNG_NO_EXPRESSION: s->place = spoil_expression(s, way % 4, way < 4 ? HEADER : line); break;
    case TALUNG_NO_TABLE: s->place = spoil_table(s, way); break;
    default: s->place = spoil_kinds(s, way, kind); break;
    }
}

/* A good sheet that is then spoilt. There are 56 kinds: eight ways for each refusal from 1 to 6, and for 11. */
static void make_refused(struct sheet *s, size_t kind)
{
    struct site site;
    grow(&site, 16, between(6, 16));
    begin(s, 16);
    add_holding_lines(s, &site, between(32, MOST_LINES), MOST_WORDS);
    for (size_t i = 0; i < 8; i++)
        add_panel_with_ways(s, &site);
    spoil(s, kind < 48 ? 1 + kind / 8 : TALUNG_DISAGREES, kind % 8);
}

/* ---- the groups */

static void fill(struct group *g, const char *name, size_t count, size_t boards, void (*make)(struct sheet *, size_t))
{
    g->name = name;
    g->task = CLOSE;
    g->count = count;
    g->lent = MOST_TABLE;
    for (size_t i = 0; i < count; i++)
        make(&g->sheets[i], boards);
}

/* With as many sheets of each kind. */
static void fill_kinds(struct group *g, const char *name, size_t count, size_t kinds, void (*make)(struct sheet *, size_t))
{
    g->name = name;
    g->task = CLOSE;
    g->count = count;
    g->lent = MOST_TABLE;
    for (size_t i = 0; i < count; i++)
        make(&g->sheets[i], i % kinds);
}

void make_closed_groups(struct group groups[CLOSED_GROUPS])
{
    seed(1);
    fill(&groups[0], "full 16", 1, 16, make_full);
    fill(&groups[1], "sparse", 40, 16, make_sparse);
    fill(&groups[2], "dense", 40, 16, make_dense);
    fill(&groups[3], "panels", 40, 16, make_panels);
    fill(&groups[4], "same panels", 40, 16, make_same_panels);
    fill(&groups[5], "small", 40, 6, make_small);
    fill_kinds(&groups[6], "contradictory", 40, 8, make_contradictory);
    fill_kinds(&groups[7], "refused", 56, 56, make_refused);
}
