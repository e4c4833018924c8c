/* Reading a description in plain C, alone or with a table. */
#include "plain_read.h"

struct refusal read_description(const uint16_t *words, size_t n, struct header *h)
{
    return read_whole(WITHOUT_SETS, words, n, h);
}

/* Copies the m cells of a table. Answers whether each of them is a set. A call of its own, so that its loop is compiled alike whatever stands beside it. */
static __attribute__((noinline)) int copy_table(const uint8_t *table, size_t m, uint8_t *cells)
{
    for (size_t i = 0; i < m; i++) {
        if (table[i] > TALUNG_ANY)
            return 0;
        cells[i] = table[i];
    }
    return 1;
}

/* Reads a description, with the sets of its lines or without, and copies the table lent with it. */
static inline __attribute__((always_inline)) struct refusal take_by(enum reading sets, const uint16_t *words, size_t n, const uint8_t *table, size_t m,
                                                                    struct header *h, uint8_t *cells)
{
    struct refusal found = admit(sets, words, n, m, h);
    if (found.number)
        return found;
    return copy_table(table, m, cells) ? good : refuse(TALUNG_NO_TABLE, 0);
}

struct refusal take(const uint16_t *words, size_t n, const uint8_t *table, size_t m, struct header *h, uint8_t *cells)
{
    return take_by(WITHOUT_SETS, words, n, table, m, h, cells);
}

struct refusal take_with_sets(const uint16_t *words, size_t n, const uint8_t *table, size_t m, struct header *h, uint8_t *cells)
{
    return take_by(WITH_SETS, words, n, table, m, h, cells);
}
