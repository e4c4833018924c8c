/* Opening and closing a table in plain C by sweeps over all triples, round after round. */
#include "plain_closing.h"

/* Each relation line's cell lies within its set. Each line is tested again as it is read. */
static int rules4(size_t v, size_t count, const uint16_t *words, size_t n, uint8_t *cells)
{
    int struck = 0;
    size_t at = 0;
    for (size_t i = 0; i < count; i++) {
        struct relation_line line;
        if (read_relation_line(v, words + at, n - at, &line).number)
            return struck;
        struck += narrow(&cells[v * line.p + line.q], line.allowed);
        at += line.length;
    }
    return struck;
}

/* Each pair of boards is the same seen from both sides. */
static int rules2(size_t v, uint8_t *cells)
{
    int struck = 0;
    for (size_t p = 0; p < v; p++) {
        for (size_t q = 0; q < v; q++)
            struck += narrow(&cells[v * q + p], converses[cells[v * p + q]]);
    }
    return struck;
}

/* What is below the panel is at or below one of its ways: for the board z. */
static int rule6_at(size_t v, const struct kind_line *line, size_t z, uint8_t *cells)
{
    uint8_t *cell = &cells[v * line->p + z];
    if (!(*cell & A))
        return 0;
    size_t i = reaching(v, line, z, 0, cells);
    if (i == line->count)
        return narrow(cell, NOT_ABOVE);
    if (*cell != A || reaching(v, line, z, i + 1, cells) < line->count)
        return 0;
    return narrow(&cells[v * line->ways[i] + z], AT_OR_ABOVE);
}

/* What is below a panel is at or below one of its ways. */
static int rules6(size_t v, size_t count, const uint16_t *words, uint8_t *cells)
{
    int struck = 0;
    for (size_t l = 0; l < count; l++) {
        struct kind_line line;
        words = next_kind_line(words, &line);
        for (size_t z = 0; z < v; z++)
            struck += rule6_at(v, &line, z, cells);
    }
    return struck;
}

/* Two kind lines: if their panels are the same, so are their codes and their ways. */
static int rule7(size_t v, const struct kind_line *line, const struct kind_line *other, uint8_t *cells)
{
    uint8_t *cell = &cells[v * line->p + other->p];
    if (!(*cell & E))
        return 0;
    if (line->code != other->code || !ways_match(v, line, other, cells))
        return narrow(cell, NOT_SAME);
    if (*cell != E)
        return 0;
    int struck = 0;
    for (size_t i = 0; i < line->count; i++)
        struck += narrow(&cells[v * line->ways[i] + other->ways[i]], E);
    return struck;
}

/* Panels that are the same have one code and the same ways. */
static int rules7(size_t v, size_t count, const uint16_t *words, uint8_t *cells)
{
    int struck = 0;
    const uint16_t *at = words;
    for (size_t i = 0; i < count; i++) {
        struct kind_line line;
        at = next_kind_line(at, &line);
        const uint16_t *beside = words;
        for (size_t j = 0; j < count; j++) {
            struct kind_line other;
            beside = next_kind_line(beside, &other);
            struck += rule7(v, &line, &other, cells);
        }
    }
    return struck;
}

/* Each three boards: the first to the third is what the second allows. Answers the number struck, or -1 at once when a cell is empty. A call of its own, so that
   its loop is compiled alike whatever stands beside it. */
static __attribute__((noinline)) int rules3(size_t v, uint8_t *cells)
{
    int struck = 0;
    for (size_t p = 0; p < v; p++) {
        for (size_t q = 0; q < v; q++) {
            for (size_t r = 0; r < v; r++) {
                look();
                uint8_t *cell = &cells[v * p + r];
                struck += narrow(cell, compositions[16 * cells[v * p + q] + cells[v * q + r]]);
                if (*cell == 0)
                    return -1;
            }
        }
    }
    return struck;
}

/* Rounds of the rules whose bounds depend on the table, until a round strikes nothing. Answers the number struck, or -1 if a cell is empty. */
static int rounds(size_t v, size_t count, const uint16_t *words, uint8_t *cells)
{
    int struck = 0;
    for (;;) {
        int more = rules2(v, cells);
        more += rules6(v, count, words, cells);
        more += rules7(v, count, words, cells);
        int swept = rules3(v, cells);
        if (swept < 0)
            return -1;
        more += swept;
        if (more == 0)
            return struck;
        struck += more;
    }
}

int close_cells(const struct header *h, const uint16_t *words, uint8_t *cells)
{
    size_t v = h->boards;
    const uint16_t *kinds = words + h->kinds_at;
    int struck = rules1(v, cells);
    struck += rules4(v, h->lines, words + HEADER_WORDS, h->kinds_at - HEADER_WORDS, cells);
    struck += rules5(v, h->kinds, kinds, cells);
    int more = rounds(v, h->kinds, kinds, cells);
    return more < 0 ? -1 : struck + more;
}

int close_again(const struct header *h, const uint16_t *words, uint8_t *cells)
{
    return rounds(h->boards, h->kinds, words + h->kinds_at, cells);
}

uint64_t plain_open(const uint16_t *words, size_t n, uint8_t *table, size_t m)
{
    return open_by(WITH_SETS, close_cells, words, n, table, m);
}

uint64_t plain_close(const uint16_t *words, size_t n, uint8_t *table, size_t m)
{
    return close_by(take_with_sets, close_cells, words, n, table, m);
}
