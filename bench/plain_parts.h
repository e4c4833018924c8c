/* What the calls in plain C share: limits, sets of relations, answers, reading a description alone or with a table, and closing a working copy by sweeps. */
#ifndef PLAIN_PARTS_H
#define PLAIN_PARTS_H

#include "plain.h"

/* The limits of a description. */
enum {
    HEADER_WORDS = 6,
    HEAD_WORDS = 3,
    MOST_LINES = 128,
    MOST_KINDS = 16,
    MOST_WORDS = 15,
    MOST_WAYS = 8
};

/* Sets of relations: same board, above, below, side, and some of them together. */
enum {
    E = 1,
    A = 2,
    B = 4,
    S = 8,
    AT_OR_ABOVE = 3,
    NOT_ABOVE = 13,
    NOT_SAME = 14
};

/* Each set the other way round: A and B exchanged. */
static const uint8_t converses[16] = {0, 1, 4, 5, 2, 3, 6, 7, 8, 9, 12, 13, 10, 11, 14, 15};

/* An answer of this number and count. */
static inline uint64_t answer(uint32_t number, uint32_t count)
{
    return number + 4294967296u * (uint64_t)count;
}

/* Why a description or what is lent with it is refused: the number of the refusal, 0 where there is none, and its place in the words that were read. */
struct refusal {
    int number;
    size_t place;
};

/* No refusal. */
static const struct refusal good = {0, 0};

static inline struct refusal refuse(int number, size_t place)
{
    return (struct refusal){number, place};
}

/* The same refusal, where so many words stand before those that were read. */
static inline struct refusal later(size_t words, struct refusal found)
{
    return refuse(found.number, words + found.place);
}

/* The answer of a call that refuses: its count is the place. */
static inline uint64_t refuse_at(struct refusal found)
{
    return answer((uint32_t)found.number, (uint32_t)found.place);
}

/* A triple is looked at. It is counted in objects that are compiled to count; in all others, which are those that are timed, this is nothing. */
static inline void look(void)
{
#ifdef COUNT_TRIPLES
    triples++;
#endif
}

struct header {
    size_t boards;
    size_t lines;
    size_t kinds;
    size_t kinds_at;
};

/* Reads the description of n words. Answers the first refusal, if there is one. */
struct refusal read_description(const uint16_t *words, size_t n, struct header *h);

/* Reads the description of n words, and copies the table of m cells. Answers the first refusal, if there is one. */
typedef struct refusal taking(const uint16_t *words, size_t n, const uint8_t *table, size_t m, struct header *h, uint8_t *cells);

/* As the product does, and as the sweeps do, which find the set of each line then too. */
taking take;
taking take_with_sets;

/* Closes the cells under the description. Answers the number struck, or -1 if a cell is empty. */
typedef int closing(const struct header *h, const uint16_t *words, uint8_t *cells);

/* By sweeps; and the same of cells that lie inside a closed table, in which the rules whose bounds stay strike nothing. */
closing close_cells;
closing close_again;

#endif
