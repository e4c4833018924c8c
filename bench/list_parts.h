/* What the closing and the search by lists share: the index of kind lines, marks, and closing a working copy. */
#ifndef LIST_PARTS_H
#define LIST_PARTS_H

#include "plain_parts.h"

/* The kind lines by what they name. For each board: the lines whose panel it is, as bits; the places at which it is a way of some line, as bits; and for each place
   the lines that have it there. And where each line begins in the words. Where the count is 0, nothing else is in it. */
struct index {
    size_t count;
    const uint16_t *words;
    uint32_t panels[TALUNG_MOST_BOARDS];
    uint32_t places[TALUNG_MOST_BOARDS];
    uint32_t spots[TALUNG_MOST_BOARDS][MOST_WAYS];
    uint32_t starts[MOST_KINDS];
};

/* Narrows the cell of p and q. If that changes it, the converse goes to the cell of q and p, and the pair is marked: by bit q of what p has among the marks.
   Answers whether the cell is not empty. */
static inline __attribute__((always_inline)) int strike(size_t v, size_t p, size_t q, uint8_t bound, uint8_t *cells, uint32_t *marks)
{
    uint8_t was = cells[v * p + q];
    uint8_t is = was & bound;
    if (is == was)
        return 1;
    cells[v * p + q] = is;
    cells[v * q + p] = converses[is];
    marks[p] |= 1u << q;
    return is != 0;
}

/* No pair is marked. */
static inline void clear(uint32_t *marks)
{
    for (size_t p = 0; p < TALUNG_MOST_BOARDS; p++)
        marks[p] = 0;
}

/* Closes the cells under the description, and makes the index. Answers whether no cell is empty; then no pair is marked. */
int list_first(const struct header *h, const uint16_t *words, uint8_t *cells, uint32_t *marks, struct index *index);

/* Looks at what depends on the marked pairs until none is marked. Answers whether no cell is empty; else it is left at once. */
int list_drain(size_t v, const struct index *index, uint8_t *cells, uint32_t *marks);

#endif
