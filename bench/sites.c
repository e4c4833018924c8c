/* Sites that are grown, and descriptions that are taken off them. */
#include "sites.h"

static uint64_t state;

void seed(uint64_t number)
{
    state = 0x9e3779b97f4a7c15u * (2 * number + 1);
}

/* Xorshift. */
size_t below(size_t n)
{
    state ^= state << 13;
    state ^= state >> 7;
    state ^= state << 17;
    return (size_t)(state >> 33) % n;
}

size_t between(size_t least, size_t most)
{
    return least + below(most - least + 1);
}

/* ---- sites */

static size_t ways_below(const struct site *site, size_t place)
{
    size_t n = 0;
    for (size_t i = 0; i < site->places; i++)
        n += site->above[i] == (int)place;
    return n;
}

static void add_place(struct site *site, int above, uint16_t code)
{
    site->above[site->places] = above;
    site->code[site->places] = code;
    site->places++;
}

/* Puts the boards at the places, in an order drawn. */
static void put_boards(struct site *site)
{
    for (size_t b = 0; b < site->boards; b++)
        site->place[b] = b < site->places ? b : below(site->places);
    for (size_t b = site->boards; b > 1; b--) {
        size_t other = below(b);
        size_t place = site->place[b - 1];
        site->place[b - 1] = site->place[other];
        site->place[other] = place;
    }
}

void grow(struct site *site, size_t boards, size_t places)
{
    site->boards = boards;
    site->places = 0;
    while (site->places < places) {
        int above = site->places > 0 && below(8) > 0 ? (int)below(site->places) : -1;
        if (above < 0 || ways_below(site, above) < MOST_WAYS)
            add_place(site, above, 100 + site->places);
    }
    put_boards(site);
}

void grow_alike(struct site *site, size_t boards, size_t ways)
{
    site->boards = boards;
    site->places = 0;
    add_place(site, -1, 100);
    do {
        size_t above = below(site->places);
        if (ways_below(site, above) == 0) {
            for (size_t i = 0; i < ways; i++)
                add_place(site, (int)above, 100);
        }
    } while (site->places + ways < boards && below(4) > 0);
    put_boards(site);
}

static int is_above(const struct site *site, size_t place, size_t other)
{
    int at = site->above[other];
    while (at >= 0 && at != (int)place)
        at = site->above[at];
    return at >= 0;
}

/* The relation of board p to board q, as a code of an expression. */
static uint16_t relation(const struct site *site, size_t p, size_t q)
{
    size_t a = site->place[p];
    size_t b = site->place[q];
    if (a == b)
        return 0;
    if (is_above(site, a, b))
        return 1;
    return is_above(site, b, a) ? 2 : 3;
}

/* One of the boards at a place. */
static size_t board_at(const struct site *site, size_t place)
{
    size_t b;
    do
        b = below(site->boards);
    while (site->place[b] != place);
    return b;
}

void keep_site(struct sheet *s, const struct site *site)
{
    for (size_t p = 0; p < site->boards; p++) {
        for (size_t q = 0; q < site->boards; q++)
            s->site[site->boards * p + q] = 1 << relation(site, p, q);
    }
}

/* ---- descriptions */

void fill_table(uint8_t table[MOST_TABLE])
{
    for (size_t k = 0; k < MOST_TABLE; k++)
        table[k] = TALUNG_ANY;
}

void begin(struct sheet *s, size_t boards)
{
    s->words[0] = boards;
    s->words[1] = 0;
    s->words[2] = 0;
    s->words[3] = HEADER;
    s->words[4] = HEADER;
    s->words[5] = HEADER;
    s->n = HEADER;
    s->m = boards * boards;
    s->budget = BUDGET;
    s->number = 0;
    fill_table(s->table);
    for (size_t k = 0; k < TALUNG_MOST_CELLS; k++)
        s->site[k] = 0;
}

/* Adds the words of either kind of line, with what follows its third word. */
static void add_words(struct sheet *s, uint16_t first, uint16_t second, const uint16_t *rest, size_t count)
{
    uint16_t *at = s->words + s->n;
    at[0] = first;
    at[1] = second;
    at[2] = count;
    for (size_t i = 0; i < count; i++)
        at[HEAD + i] = rest[i];
    s->n += HEAD + count;
    s->words[5] = s->n;
}

void add_relation_line(struct sheet *s, size_t p, size_t q, const uint16_t *expression, size_t length)
{
    add_words(s, p, q, expression, length);
    s->words[1]++;
    s->words[4] = s->n;
}

void add_set_line(struct sheet *s, size_t p, size_t q, uint8_t set)
{
    uint16_t expression[MOST_WORDS];
    size_t length = 0;
    for (uint16_t relation = 0; relation < 4; relation++) {
        uint8_t rest = set >> relation;
        if (rest % 2 == 0)
            continue;
        if (rest > 1)
            expression[length++] = UNION;
        expression[length++] = relation;
    }
    add_relation_line(s, p, q, expression, length);
}

void add_kind_line(struct sheet *s, size_t p, uint16_t code, const uint16_t *ways, size_t count)
{
    add_words(s, p, code, ways, count);
    s->words[2]++;
}

/* Writes an expression of this length that has the relation, or that lacks it. */
static uint16_t *write_expression(uint16_t *at, size_t length, uint16_t relation, int has)
{
    static const uint16_t converse[4] = {0, 2, 1, 3};
    if (length == 1) {
        *at++ = has ? relation : (relation + 1 + below(3)) % 4;
        return at;
    }
    if (length == 2 || below(3) == 0) {
        if (below(2) == 0) {
            *at++ = COMPLEMENT;
            return write_expression(at, length - 1, relation, !has);
        }
        *at++ = INVERSE;
        return write_expression(at, length - 1, converse[relation], has);
    }
    int is_union = below(2) == 0;
    int one = has;
    int other = has;
    /* a union has it where either does, an intersection lacks it where either does */
    if (is_union == has) {
        one = below(2) == 0;
        other = one == has ? below(2) == 0 : has;
    }
    size_t first = between(1, length - 2);
    *at++ = is_union ? UNION : INTERSECTION;
    at = write_expression(at, first, relation, one);
    return write_expression(at, length - 1 - first, relation, other);
}

static void add_drawn_line(struct sheet *s, const struct site *site, size_t shortest, size_t longest, int holds)
{
    uint16_t expression[MOST_WORDS];
    size_t p = below(site->boards);
    size_t q = below(site->boards);
    size_t length = between(shortest, longest);
    write_expression(expression, length, relation(site, p, q), holds);
    add_relation_line(s, p, q, expression, length);
}

void add_holding_lines(struct sheet *s, const struct site *site, size_t count, size_t longest)
{
    for (size_t i = 0; i < count; i++)
        add_drawn_line(s, site, 1, longest, 1);
}

void add_longest_lines(struct sheet *s, const struct site *site, size_t count)
{
    for (size_t i = 0; i < count; i++)
        add_drawn_line(s, site, MOST_WORDS, MOST_WORDS, 1);
}

void add_failing_line(struct sheet *s, const struct site *site, size_t longest)
{
    add_drawn_line(s, site, 1, longest, 0);
}

void add_panel(struct sheet *s, const struct site *site, size_t p)
{
    uint16_t ways[MOST_WAYS];
    size_t count = 0;
    size_t place = site->place[p];
    for (size_t i = 0; i < site->places; i++) {
        if (site->above[i] == (int)place)
            ways[count++] = board_at(site, i);
    }
    add_kind_line(s, p, site->code[place], ways, count);
}

void add_panel_with_ways(struct sheet *s, const struct site *site)
{
    size_t p;
    do
        p = below(site->boards);
    while (ways_below(site, site->place[p]) == 0);
    add_panel(s, site, p);
}
