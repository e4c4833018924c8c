/* Reading a description in plain C. Each version that closes has it in its own code, so that its closing reads without a call. */
#ifndef PLAIN_READ_H
#define PLAIN_READ_H

#include "plain_parts.h"

/* The codes of an expression's operators; those below union stand for E, A, B and S. */
enum {
    UNION = 4,
    COMPLEMENT = 6,
    INVERSE = 7
};

/* How many operands each code has. */
static const uint8_t operands[8] = {0, 0, 0, 0, 2, 2, 1, 1};

/* The relation of p to q is one of the allowed. */
struct relation_line {
    size_t p;
    size_t q;
    uint8_t allowed;
    size_t length;
};

/* What stands at the front of some words: a set, and where the words after its expression begin; or no set, and the first word that goes on with no expression,
   or the end where words are missing. */
struct expression {
    int set;
    const uint16_t *at;
};

/* The sweeps read each expression with its set, before the rules read it again, as the product did once. The product now tests it without. */
enum reading {
    WITH_SETS,
    WITHOUT_SETS
};

/* In place of a set, where there is none. */
enum { NO_SET = -1 };

static const uint8_t relations[4] = {E, A, B, S};

/* Reads the expression at the front of the words. Where an operand fails, the whole does. */
static struct expression evaluate(const uint16_t *at, const uint16_t *end)
{
    if (at == end || *at > INVERSE)
        return (struct expression){NO_SET, at};
    uint16_t code = *at;
    if (code < UNION)
        return (struct expression){relations[code], at + 1};
    struct expression x = evaluate(at + 1, end);
    if (x.set < 0)
        return x;
    if (code == COMPLEMENT)
        return (struct expression){TALUNG_ANY - x.set, x.at};
    if (code == INVERSE)
        return (struct expression){converses[x.set], x.at};
    struct expression y = evaluate(x.at, end);
    if (y.set < 0)
        return y;
    return (struct expression){code == UNION ? x.set | y.set : x.set & y.set, y.at};
}

/* Where the first word stands that does not go on with one whole expression, or the end where words are missing; or 0 where the words are one. It counts the
   operands that are still needed. */
static inline const uint16_t *scan(const uint16_t *at, const uint16_t *end)
{
    unsigned needed = 1;
    for (; at < end; at++) {
        if (needed == 0 || *at > INVERSE)
            return at;
        needed = needed - 1 + operands[*at];
    }
    return needed == 0 ? 0 : end;
}

/* Tests all of the relation line at the front of n words but its expression, for boards below v. Answers the refusal, if there is one, with its place from the
   line's first word. */
static inline __attribute__((always_inline)) struct refusal read_front(size_t v, const uint16_t *words, size_t n, struct relation_line *line)
{
    if (n < HEAD_WORDS)
        return refuse(TALUNG_UNFIT, n);
    size_t length = words[2];
    if (length < 1 || length > MOST_WORDS)
        return refuse(TALUNG_UNFIT, 2);
    if (length > n - HEAD_WORDS)
        return refuse(TALUNG_UNFIT, n);
    if (words[0] >= v)
        return refuse(TALUNG_NO_BOARD, 0);
    if (words[1] >= v)
        return refuse(TALUNG_NO_BOARD, 1);
    line->length = HEAD_WORDS + length;
    return good;
}

/* Reads that line. */
static struct refusal read_relation_line(size_t v, const uint16_t *words, size_t n, struct relation_line *line)
{
    struct refusal refused = read_front(v, words, n, line);
    if (refused.number)
        return refused;
    const uint16_t *end = words + line->length;
    struct expression found = evaluate(words + HEAD_WORDS, end);
    if (found.set < 0 || found.at != end)
        return refuse(TALUNG_NO_EXPRESSION, (size_t)(found.at - words));
    line->p = words[0];
    line->q = words[1];
    line->allowed = (uint8_t)found.set;
    return good;
}

/* Tests that line without its set, and tells its length alone. */
static inline struct refusal test_relation_line(size_t v, const uint16_t *words, size_t n, struct relation_line *line)
{
    struct refusal refused = read_front(v, words, n, line);
    if (refused.number)
        return refused;
    const uint16_t *failed = scan(words + HEAD_WORDS, words + line->length);
    return failed ? refuse(TALUNG_NO_EXPRESSION, (size_t)(failed - words)) : good;
}

/* Reads a header, word by word. */
static struct refusal read_header(const uint16_t *words, size_t n, struct header *h)
{
    if (n < HEADER_WORDS)
        return refuse(TALUNG_OUT_OF_RANGE, n);
    h->boards = words[0];
    h->lines = words[1];
    h->kinds = words[2];
    h->kinds_at = words[4];
    if (h->boards < 1 || h->boards > TALUNG_MOST_BOARDS)
        return refuse(TALUNG_OUT_OF_RANGE, 0);
    if (h->lines > MOST_LINES)
        return refuse(TALUNG_OUT_OF_RANGE, 1);
    if (h->kinds > MOST_KINDS)
        return refuse(TALUNG_OUT_OF_RANGE, 2);
    if (words[3] != HEADER_WORDS)
        return refuse(TALUNG_MISPLACED, 3);
    if (h->kinds_at < HEADER_WORDS || h->kinds_at > words[5])
        return refuse(TALUNG_MISPLACED, 4);
    if (words[5] != n)
        return refuse(TALUNG_MISPLACED, 5);
    return good;
}

/* A section of n words after its last line, which ends at this place: words left over are refused. */
static struct refusal ended(size_t at, size_t n)
{
    return at < n ? refuse(TALUNG_UNFIT, at) : good;
}

/* Reads as many relation lines as this, or tests them where their sets are not wanted. They must fill the n words. Answers the first refusal, if there is one,
   with its place in these words. */
static inline __attribute__((always_inline)) struct refusal read_relation_lines(enum reading sets, size_t v, size_t count, const uint16_t *words, size_t n)
{
    size_t at = 0;
    for (size_t i = 0; i < count; i++) {
        struct relation_line line;
        struct refusal found = (sets == WITHOUT_SETS ? test_relation_line : read_relation_line)(v, words + at, n - at, &line);
        if (found.number)
            return later(at, found);
        at += line.length;
    }
    return ended(at, n);
}

/* Reads the kind line at the front of n words, for boards below v. Answers the refusal, if there is one, with its place from the line's first word. */
static struct refusal read_kind_line(size_t v, const uint16_t *words, size_t n)
{
    if (n < HEAD_WORDS)
        return refuse(TALUNG_UNFIT, n);
    size_t ways = words[2];
    if (ways > MOST_WAYS)
        return refuse(TALUNG_UNFIT, 2);
    if (ways > n - HEAD_WORDS)
        return refuse(TALUNG_UNFIT, n);
    if (words[0] >= v)
        return refuse(TALUNG_NO_BOARD, 0);
    for (size_t i = 0; i < ways; i++) {
        if (words[HEAD_WORDS + i] >= v)
            return refuse(TALUNG_NO_BOARD, HEAD_WORDS + i);
    }
    return good;
}

/* Where the first of these kind lines begins, which have been read, that has the code of an earlier one and another number of ways; or n, their number of words. */
static size_t first_disagreeing(size_t count, const uint16_t *words, size_t n)
{
    const uint16_t *at = words;
    for (size_t i = 0; i < count; i++) {
        const uint16_t *before = words;
        for (size_t j = 0; j < i; j++) {
            if (before[1] == at[1] && before[2] != at[2])
                return (size_t)(at - words);
            before += HEAD_WORDS + before[2];
        }
        at += HEAD_WORDS + at[2];
    }
    return n;
}

/* Reads as many kind lines as this. They must fill the n words. Answers the first refusal, if there is one, with its place in these words. */
static struct refusal read_kind_lines(size_t v, size_t count, const uint16_t *words, size_t n)
{
    size_t at = 0;
    for (size_t i = 0; i < count; i++) {
        struct refusal found = read_kind_line(v, words + at, n - at);
        if (found.number)
            return later(at, found);
        at += HEAD_WORDS + words[at + 2];
    }
    return ended(at, n);
}

/* Reads the same, and then looks for a line that disagrees with an earlier one: it is refused at its number of ways. */
static struct refusal read_agreed_lines(size_t v, size_t count, const uint16_t *words, size_t n)
{
    struct refusal found = read_kind_lines(v, count, words, n);
    if (found.number)
        return found;
    size_t at = first_disagreeing(count, words, n);
    return at < n ? refuse(TALUNG_DISAGREES, at + 2) : good;
}

/* Reads a whole description. Answers the first refusal, if there is one. Each of its callers has it in its own code, so that a closing reads without a call. */
static inline __attribute__((always_inline)) struct refusal read_whole(enum reading sets, const uint16_t *words, size_t n, struct header *h)
{
    struct refusal found = read_header(words, n, h);
    if (found.number)
        return found;
    found = read_relation_lines(sets, h->boards, h->lines, words + HEADER_WORDS, h->kinds_at - HEADER_WORDS);
    if (found.number)
        return later(HEADER_WORDS, found);
    found = read_agreed_lines(h->boards, h->kinds, words + h->kinds_at, n - h->kinds_at);
    return found.number ? later(h->kinds_at, found) : good;
}

/* Reads a whole description, and then looks whether m cells are one for each two boards. Answers the first refusal, if there is one. */
static inline __attribute__((always_inline)) struct refusal admit(enum reading sets, const uint16_t *words, size_t n, size_t m, struct header *h)
{
    struct refusal found = read_whole(sets, words, n, h);
    if (found.number)
        return found;
    return m == h->boards * h->boards ? good : refuse(TALUNG_NO_TABLE, 0);
}

#endif
