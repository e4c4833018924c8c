/* Opening and closing a table in plain C, by the product's method: the pairs of boards that lost something are marked, and only what depends on them is looked at
   again. */
#include "list_parts.h"
#include "plain_closing.h"

/* Each relation line's cell lies within its set. The lines have been tested before. */
static void strike_lines(size_t v, size_t count, const uint16_t *words, uint8_t *cells)
{
    for (size_t i = 0; i < count; i++) {
        const uint16_t *end = words + HEAD_WORDS + words[2];
        narrow(&cells[v * words[0] + words[1]], (uint8_t)evaluate(words + HEAD_WORDS, end).set);
        words = end;
    }
}

/* The place of the first bit of some bits, which are not all 0. */
static size_t first_of(uint32_t bits)
{
    return (size_t)__builtin_ctz(bits);
}

/* The bits without the first. */
static uint32_t rest_of(uint32_t bits)
{
    return bits & (bits - 1);
}

/* Makes the index of as many kind lines as this, which have been read before. */
static void make_index(size_t count, const uint16_t *words, struct index *index)
{
    index->count = count;
    if (count == 0)
        return;
    index->words = words;
    for (size_t b = 0; b < TALUNG_MOST_BOARDS; b++) {
        index->panels[b] = 0;
        index->places[b] = 0;
        for (size_t i = 0; i < MOST_WAYS; i++)
            index->spots[b][i] = 0;
    }
    const uint16_t *at = words;
    for (size_t l = 0; l < count; l++) {
        struct kind_line line;
        index->starts[l] = (uint32_t)(at - words);
        at = next_kind_line(at, &line);
        index->panels[line.p] |= 1u << l;
        for (size_t i = 0; i < line.count; i++) {
            index->places[line.ways[i]] |= 1u << i;
            index->spots[line.ways[i]][i] |= 1u << l;
        }
    }
}

/* One of the kind lines. */
static struct kind_line line_at(const struct index *index, size_t l)
{
    struct kind_line line;
    next_kind_line(index->words + index->starts[l], &line);
    return line;
}

/* ---- rules 6 and 7, of lines that the index tells */

/* What is below the panel of a line is at or below one of its ways: for the board z. */
static int rule6(size_t v, const struct index *index, size_t l, size_t z, uint8_t *cells, uint32_t *marks)
{
    struct kind_line line = line_at(index, l);
    uint8_t cell = cells[v * line.p + z];
    if (!(cell & A))
        return 1;
    size_t i = reaching(v, &line, z, 0, cells);
    if (i == line.count)
        return strike(v, line.p, z, NOT_ABOVE, cells, marks);
    if (cell != A || reaching(v, &line, z, i + 1, cells) < line.count)
        return 1;
    return strike(v, line.ways[i], z, AT_OR_ABOVE, cells, marks);
}

/* The same of each of some lines. */
static inline int rules6(size_t v, const struct index *index, uint32_t lines, size_t z, uint8_t *cells, uint32_t *marks)
{
    for (; lines; lines = rest_of(lines)) {
        if (!rule6(v, index, first_of(lines), z, cells, marks))
            return 0;
    }
    return 1;
}

/* Rule 6 where the cell of a and z has lost something: z must now be below a, which is the panel of some lines; or a, which is a way of some, can no longer be at or
   above z. */
static int rules6_for(size_t v, const struct index *index, size_t a, size_t z, uint8_t *cells, uint32_t *marks)
{
    uint8_t cell = cells[v * a + z];
    if (cell == A)
        return rules6(v, index, index->panels[a], z, cells, marks);
    if (cell & AT_OR_ABOVE)
        return 1;
    for (uint32_t places = index->places[a]; places; places = rest_of(places)) {
        if (!rules6(v, index, index->spots[a][first_of(places)], z, cells, marks))
            return 0;
    }
    return 1;
}

/* Two lines: if their panels are the same, so are their codes and their ways. */
static int rule7(size_t v, const struct index *index, size_t l, size_t k, uint8_t *cells, uint32_t *marks)
{
    struct kind_line line = line_at(index, l);
    struct kind_line other = line_at(index, k);
    uint8_t cell = cells[v * line.p + other.p];
    if (!(cell & E))
        return 1;
    if (line.code != other.code || !ways_match(v, &line, &other, cells))
        return strike(v, line.p, other.p, NOT_SAME, cells, marks);
    if (cell != E)
        return 1;
    for (size_t i = 0; i < line.count; i++) {
        if (!strike(v, line.ways[i], other.ways[i], E, cells, marks))
            return 0;
    }
    return 1;
}

/* The same of each of some lines with each of some others. */
static inline int rules7(size_t v, const struct index *index, uint32_t lines, uint32_t others, uint8_t *cells, uint32_t *marks)
{
    for (; lines; lines = rest_of(lines)) {
        for (uint32_t rest = others; rest; rest = rest_of(rest)) {
            if (!rule7(v, index, first_of(lines), first_of(rest), cells, marks))
                return 0;
        }
    }
    return 1;
}

/* Rule 7 where the cell of a and b has lost something: they must now be the same, and are panels of some lines; or they can no longer be, and are ways of some at
   one place. */
static int rules7_for(size_t v, const struct index *index, size_t a, size_t b, uint8_t *cells, uint32_t *marks)
{
    uint8_t cell = cells[v * a + b];
    if (cell == E)
        return rules7(v, index, index->panels[a], index->panels[b], cells, marks);
    if (cell & E)
        return 1;
    for (uint32_t places = index->places[a] & index->places[b]; places; places = rest_of(places)) {
        size_t i = first_of(places);
        if (!rules7(v, index, index->spots[a][i], index->spots[b][i], cells, marks))
            return 0;
    }
    return 1;
}

/* ---- the list */

/* Each third board, by way of p and q, from both sides: p to it is what p to q and q to it allow, and q to it what q to p and p to it do. A call of its own, so that
   its loop is compiled alike whatever stands beside it. */
static __attribute__((noinline)) int through(size_t v, size_t p, size_t q, uint8_t *cells, uint32_t *marks)
{
    const uint8_t *row = compositions + 16 * cells[v * p + q];
    const uint8_t *other = compositions + 16 * cells[v * q + p];
    for (size_t r = 0; r < v; r++) {
        look();
        if (!strike(v, p, r, row[cells[v * q + r]], cells, marks))
            return 0;
        look();
        if (!strike(v, q, r, other[cells[v * p + r]], cells, marks))
            return 0;
    }
    return 1;
}

/* Looks at all that depends on the pair of p and q: rules 3, 6 and 7. */
static inline int follow(size_t v, const struct index *index, size_t p, size_t q, uint8_t *cells, uint32_t *marks)
{
    if (!through(v, p, q, cells, marks))
        return 0;
    if (index->count == 0)
        return 1;
    return rules6_for(v, index, p, q, cells, marks) && rules6_for(v, index, q, p, cells, marks) && rules7_for(v, index, p, q, cells, marks);
}

int list_drain(size_t v, const struct index *index, uint8_t *cells, uint32_t *marks)
{
    int again;
    do {
        again = 0;
        for (size_t p = 0; p < v; p++) {
            while (marks[p]) {
                size_t q = first_of(marks[p]);
                marks[p] = rest_of(marks[p]);
                again = 1;
                if (!follow(v, index, p, q, cells, marks))
                    return 0;
            }
        }
    } while (again);
    return 1;
}

/* ---- the first closing */

/* Makes both cells of each pair what both sides allow, and marks the pair where that is not all. Answers whether no cell is empty. */
static int mark_pairs(size_t v, uint8_t *cells, uint32_t *marks)
{
    for (size_t p = 0; p < v; p++) {
        if (cells[v * p + p] == 0)
            return 0;
        for (size_t q = p + 1; q < v; q++) {
            uint8_t cell = cells[v * p + q] & converses[cells[v * q + p]];
            if (cell == TALUNG_ANY)
                continue;
            if (cell == 0)
                return 0;
            cells[v * p + q] = cell;
            cells[v * q + p] = converses[cell];
            marks[p] |= 1u << q;
        }
    }
    return 1;
}

/* Nothing is below a panel without ways: rule 6 of these lines, for each board. */
static int start_panels(size_t v, const struct index *index, uint8_t *cells, uint32_t *marks)
{
    for (size_t l = 0; l < index->count; l++) {
        if (line_at(index, l).count > 0)
            continue;
        for (size_t z = 0; z < v; z++) {
            if (!rule6(v, index, l, z, cells, marks))
                return 0;
        }
    }
    return 1;
}

/* Panels of two codes are not the same, and two lines of one board have the same ways: rule 7 of each two lines that have two codes or one board. */
static int start_codes(size_t v, const struct index *index, uint8_t *cells, uint32_t *marks)
{
    for (size_t l = 0; l < index->count; l++) {
        struct kind_line line = line_at(index, l);
        for (size_t k = 0; k < index->count; k++) {
            struct kind_line other = line_at(index, k);
            if ((line.code != other.code || line.p == other.p) && !rule7(v, index, l, k, cells, marks))
                return 0;
        }
    }
    return 1;
}

int list_first(const struct header *h, const uint16_t *words, uint8_t *cells, uint32_t *marks, struct index *index)
{
    size_t v = h->boards;
    const uint16_t *kinds = words + h->kinds_at;
    rules1(v, cells);
    strike_lines(v, h->lines, words + HEADER_WORDS, cells);
    rules5(v, h->kinds, kinds, cells);
    clear(marks);
    if (!mark_pairs(v, cells, marks))
        return 0;
    make_index(h->kinds, kinds, index);
    return start_panels(v, index, cells, marks) && start_codes(v, index, cells, marks) && list_drain(v, index, cells, marks);
}

/* How many relations the m cells have together. */
static int members(size_t m, const uint8_t *cells)
{
    int n = 0;
    for (size_t i = 0; i < m; i++)
        n += __builtin_popcount(cells[i]);
    return n;
}

static int close_listed(const struct header *h, const uint16_t *words, uint8_t *cells)
{
    struct index index;
    uint32_t marks[TALUNG_MOST_BOARDS];
    size_t m = h->boards * h->boards;
    int before = members(m, cells);
    return list_first(h, words, cells, marks, &index) ? before - members(m, cells) : -1;
}

/* ---- the calls */

uint64_t list_open(const uint16_t *words, size_t n, uint8_t *table, size_t m)
{
    return open_by(WITHOUT_SETS, close_listed, words, n, table, m);
}

uint64_t list_close(const uint16_t *words, size_t n, uint8_t *table, size_t m)
{
    return close_by(take, close_listed, words, n, table, m);
}
