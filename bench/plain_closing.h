/* What the versions that close share: kind lines, the rules that strike once, and what a call does before its closing and after it. */
#ifndef PLAIN_CLOSING_H
#define PLAIN_CLOSING_H

#include "plain_read.h"

/* p is a panel of this code, and feeds exactly these ways. */
struct kind_line {
    size_t p;
    uint16_t code;
    size_t count;
    const uint16_t *ways;
};

/* What two sets compose to: that of x and y stands at 16 times x plus y. */
static const uint8_t compositions[256] = {
    0,  0,  0,  0,  0,  0,  0,  0,  0,  0,  0,  0,  0,  0,  0,  0,
    0,  1,  2,  3,  4,  5,  6,  7,  8,  9,  10, 11, 12, 13, 14, 15,
    0,  2,  2,  2,  7,  7,  7,  7,  10, 10, 10, 10, 15, 15, 15, 15,
    0,  3,  2,  3,  7,  7,  7,  7,  10, 11, 10, 11, 15, 15, 15, 15,
    0,  4,  15, 15, 4,  4,  15, 15, 8,  12, 15, 15, 12, 12, 15, 15,
    0,  5,  15, 15, 4,  5,  15, 15, 8,  13, 15, 15, 12, 13, 15, 15,
    0,  6,  15, 15, 7,  7,  15, 15, 10, 14, 15, 15, 15, 15, 15, 15,
    0,  7,  15, 15, 7,  7,  15, 15, 10, 15, 15, 15, 15, 15, 15, 15,
    0,  8,  8,  8,  12, 12, 12, 12, 15, 15, 15, 15, 15, 15, 15, 15,
    0,  9,  10, 11, 12, 13, 14, 15, 15, 15, 15, 15, 15, 15, 15, 15,
    0,  10, 10, 10, 15, 15, 15, 15, 15, 15, 15, 15, 15, 15, 15, 15,
    0,  11, 10, 11, 15, 15, 15, 15, 15, 15, 15, 15, 15, 15, 15, 15,
    0,  12, 15, 15, 12, 12, 15, 15, 15, 15, 15, 15, 15, 15, 15, 15,
    0,  13, 15, 15, 12, 13, 15, 15, 15, 15, 15, 15, 15, 15, 15, 15,
    0,  14, 15, 15, 15, 15, 15, 15, 15, 15, 15, 15, 15, 15, 15, 15,
    0,  15, 15, 15, 15, 15, 15, 15, 15, 15, 15, 15, 15, 15, 15, 15,
};

/* Steps to the kind line at the front of the words, which has been read before. Answers where the words after it begin. */
static const uint16_t *next_kind_line(const uint16_t *words, struct kind_line *line)
{
    line->p = words[0];
    line->code = words[1];
    line->count = words[2];
    line->ways = words + HEAD_WORDS;
    return line->ways + line->count;
}

/* Narrows one cell to what the bound has too. Answers how many relations that struck. */
static int narrow(uint8_t *cell, uint8_t bound)
{
    uint8_t was = *cell;
    uint8_t is = was & bound;
    if (is == was)
        return 0;
    *cell = is;
    return __builtin_popcount(was) - __builtin_popcount(is);
}

/* Each board is the same as itself. */
static int rules1(size_t v, uint8_t *cells)
{
    int struck = 0;
    for (size_t p = 0; p < v; p++)
        struck += narrow(&cells[v * p + p], E);
    return struck;
}

/* The ways of each kind line lie below its panel and beside each other. */
static int rules5(size_t v, size_t count, const uint16_t *words, uint8_t *cells)
{
    int struck = 0;
    for (size_t l = 0; l < count; l++) {
        struct kind_line line;
        words = next_kind_line(words, &line);
        for (size_t i = 0; i < line.count; i++) {
            size_t y = line.ways[i];
            struck += narrow(&cells[v * line.p + y], A);
            for (size_t j = 0; j < line.count; j++)
                struck += narrow(&cells[v * y + line.ways[j]], i == j ? TALUNG_ANY : S);
        }
    }
    return struck;
}

/* The first place from this one on whose way may be at or above the board z, or the number of ways if there is none. */
static size_t reaching(size_t v, const struct kind_line *line, size_t z, size_t from, const uint8_t *cells)
{
    size_t i = from;
    while (i < line->count && !(cells[v * line->ways[i] + z] & AT_OR_ABOVE))
        i++;
    return i;
}

/* Ways in the same place may all be the same. */
static int ways_match(size_t v, const struct kind_line *line, const struct kind_line *other, const uint8_t *cells)
{
    for (size_t i = 0; i < line->count; i++) {
        if (!(cells[v * line->ways[i] + other->ways[i]] & E))
            return 0;
    }
    return 1;
}

/* Closes the m working cells by a method, and copies them to the table. Where they are contradictory, refuses and leaves the table as it came. */
static inline __attribute__((always_inline)) uint64_t close_into(closing *close, const struct header *h, const uint16_t *words, uint8_t *cells, uint8_t *table,
                                                                 size_t m)
{
    int struck = close(h, words, cells);
    if (struck < 0)
        return answer(TALUNG_CONTRADICTORY, 0);
    for (size_t i = 0; i < m; i++)
        table[i] = cells[i];
    return answer(TALUNG_OK, struck);
}

/* Opens a table by a method, whose reading is with sets or without. */
static inline __attribute__((always_inline)) uint64_t open_by(enum reading sets, closing *close, const uint16_t *words, size_t n, uint8_t *table, size_t m)
{
    struct header h;
    uint8_t cells[TALUNG_MOST_CELLS];
    struct refusal found = admit(sets, words, n, m, &h);
    if (found.number)
        return refuse_at(found);
    for (size_t i = 0; i < TALUNG_MOST_CELLS; i++)
        cells[i] = TALUNG_ANY;
    return close_into(close, &h, words, cells, table, m);
}

/* Closes a table by a method. */
static inline __attribute__((always_inline)) uint64_t close_by(taking *take_by, closing *close, const uint16_t *words, size_t n, uint8_t *table, size_t m)
{
    struct header h;
    uint8_t cells[TALUNG_MOST_CELLS];
    struct refusal found = take_by(words, n, table, m, &h, cells);
    if (found.number)
        return refuse_at(found);
    return close_into(close, &h, words, cells, table, m);
}

#endif
