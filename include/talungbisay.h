/* Talungbisay: finds radial trees of boards that fit a description, and checks those that somebody proposes.
 *
 * A call is lent a description, a table or both, or a typed sheet, with room for what it makes. It takes whatever they hold: what is malformed is refused by a
 * number, and the refusal of a description says where. It keeps nothing, allocates nothing and always returns. A refusal leaves the lent table or room as it
 * came. Calls on different tables or rooms may run at the same time.
 *
 * All that the caller answers for:
 *  - 'words' points to n words, 'table' to as many cells and 'text' to as many bytes as said; where a call writes words or text, to as many as its room. None
 *    is ever NULL, not even where the length is 0.
 *  - What is lent to a call does not overlap, and nothing else writes it during the call, nor reads what the call writes.
 *
 * To link: this header and libtalung.a, for Linux on processors of level x86-64-v2 and above. C99 or later, or C++. Of the C library it uses memcpy and memset
 * alone. */
#ifndef TALUNGBISAY_H
#define TALUNGBISAY_H

#include <stddef.h>
#include <stdint.h>

#ifdef __cplusplus
extern "C" {
#endif

/* The most that a site and its description have. */
enum {
    TALUNG_MOST_BOARDS = 16,
    TALUNG_MOST_CELLS = 256,
    TALUNG_MOST_RELATION_LINES = 128,
    TALUNG_MOST_KIND_LINES = 16,
    TALUNG_MOST_WORDS = 2486,
    TALUNG_MOST_TEXT = 16762 /* bytes of the text that talung_to_text writes; a text that is read may be longer */
};

/* What board p may be to board q, as bits of a cell. A cell is a set of them: 0 has none of them, 15 all four. */
enum {
    TALUNG_SAME = 1,  /* p and q are two names of one board */
    TALUNG_ABOVE = 2, /* p feeds q, directly or through other boards */
    TALUNG_BELOW = 4, /* q feeds p */
    TALUNG_SIDE = 8,  /* p and q lie on separate feeders */
    TALUNG_ANY = 15   /* nothing is known */
};

/* A description is a run of 16-bit words. Its first six are its header:
 *
 *     the number of boards V, 1 to 16; they are numbered from 0
 *     the number of relation lines, 0 to 128
 *     the number of kind lines, 0 to 16
 *     where the relation lines begin: always word 6
 *     where the kind lines begin
 *     the number of words in all
 *
 * Relation line: p, q, a length from 1 to 15, and an expression of that many words. What p is to q must be among what the expression allows.
 * Kind line: p, a kind code, a number of ways from 0 to 8, and that many boards in order. Panel p feeds exactly these, on separate feeders, and all else that
 * is below it is below them. Any word is a code; one code means one number of ways. Two panels that are one board have one code, and the same boards in the
 * same places.
 *
 * An expression is written with each operator before its operands: 'at or above' is TALUNG_EITHER, TALUNG_IS_SAME, TALUNG_IS_ABOVE. */
enum {
    TALUNG_IS_SAME = 0,
    TALUNG_IS_ABOVE = 1,
    TALUNG_IS_BELOW = 2,
    TALUNG_IS_SIDE = 3,
    TALUNG_EITHER = 4, /* union of the two expressions that follow */
    TALUNG_BOTH = 5,   /* intersection of the two expressions that follow */
    TALUNG_NOT = 6,    /* complement of the expression that follows */
    TALUNG_INVERSE = 7 /* the expression that follows, of q to p */
};

/* What a call answers. The first refusal that applies is given, in the order 1, 2, then the first faulty line (3, 4 and 5 within it), 11, 6, then the rest. */
enum {
    TALUNG_OK = 0,
    TALUNG_OUT_OF_RANGE = 1,   /* fewer than 6 words; or the number of boards, relation lines or kind lines is out of range */
    TALUNG_MISPLACED = 2,      /* the header's offsets or its total are wrong; the total must be the number of words lent */
    TALUNG_UNFIT = 3,          /* a line runs past its section, its length or number of ways is out of range, or words are left over */
    TALUNG_NO_BOARD = 4,       /* a line names a board that the site has not */
    TALUNG_NO_EXPRESSION = 5,  /* an expression has a code above 7, breaks off, or has words left over */
    TALUNG_NO_TABLE = 6,       /* the table has not V times V cells, or a cell is above 15; opening takes cells of any contents */
    TALUNG_CONTRADICTORY = 7,  /* opening: the description contradicts itself; closing: the description and the table contradict each other */
    TALUNG_NOWHERE = 8,        /* search: no tree fits; the count is of the tries made */
    TALUNG_RAN_OUT = 9,        /* search: more tries are needed than the budget; the count is the budget */
    TALUNG_NO_ARRANGEMENT = 10, /* check: the table is no tree that fits */
    TALUNG_DISAGREES = 11,     /* a kind line has the code of an earlier one and another number of ways; it comes after 5 and before 6 */
    TALUNG_NO_ROOM = 19,       /* text: the lent room is too small */
    TALUNG_NO_SHEET = 20       /* text: a line is malformed; the count is its number, from 1, or 4294967295 where that is smaller */
};

/* Where a refusal is. Refusals from 1 to 5 and TALUNG_DISAGREES are of the description, and their count is a place in it, an index from 0 into its n words: of
 * the first word that breaks the rule or, where words are missing, the place just after the header, section or expression that is too short. The place is never
 * above n, and it may be n, where there is no word to look at.
 *
 *     TALUNG_OUT_OF_RANGE   n, if it is below 6; else the first of words 0, 1 and 2 that is out of range
 *     TALUNG_MISPLACED      3, unless it says 6; else 4, if the kind lines begin before word 6 or after the header's total; else 5, as that total is not n
 *     TALUNG_UNFIT          a length or number of ways out of range; else the end of the section that a line runs past; or the first word left over
 *     TALUNG_NO_BOARD       p, else q; of a kind line p, else the first of its ways that is no board
 *     TALUNG_NO_EXPRESSION  a code above 7; the place just after an expression that breaks off; or the first word left over
 *     TALUNG_DISAGREES      the number of ways of the first kind line that disagrees with an earlier one
 *
 * In talung_from_text it is a place in the words that the sheet makes: the header, then all relation lines, then all kind lines, each sort in its order. */

/* Takes an answer apart: its number, TALUNG_OK or a refusal, is the low 32 bits, its count the high 32. The count is 0 where nothing else is said. */
static inline uint32_t talung_number(uint64_t answer)
{
    return (uint32_t)(answer % 4294967296u);
}

static inline uint32_t talung_count(uint64_t answer)
{
    return (uint32_t)(answer / 4294967296u);
}

/* A table has V times V cells, a byte each; what p may be to q stands at V times p plus q. */

/* Reads a description of n words. Answers TALUNG_OK if it is good, else a refusal from 1 to 5 or TALUNG_DISAGREES, with its place. */
uint64_t talung_read(const uint16_t *words, size_t n);

/* Opens a table: whatever the cells hold, all is taken as possible, as if each were TALUNG_ANY, and then what the rules exclude under the description is struck.
 * Leaves the largest table in which no rule strikes anything, and loses no tree that fits. Answers TALUNG_OK, and counts the relations struck, at most 768; or a
 * refusal from 1 to 5 or TALUNG_DISAGREES, with its place; or TALUNG_NO_TABLE, where there are not V times V cells, or TALUNG_CONTRADICTORY. A table is opened
 * first. Then it is closed under further lines, or searched. */
uint64_t talung_open(const uint16_t *words, size_t n, uint8_t *table, size_t cells);

/* Closes a table: strikes from it what the rules exclude under the description. Leaves the largest table inside it in which no rule strikes anything, and loses
 * no tree that fits. Answers TALUNG_OK, and counts the relations struck, 0 to 768; or a refusal from 1 to 5 or TALUNG_DISAGREES, with its place; or
 * TALUNG_NO_TABLE or TALUNG_CONTRADICTORY. An opened table that is closed under all its lines and some more comes to what one opening under all of them leaves;
 * if that is contradictory, some stage is. */
uint64_t talung_close(const uint16_t *words, size_t n, uint8_t *table, size_t cells);

/* Looks for a tree inside the table that fits the description, with at most as many tries as the budget, which is any number. Leaves the first one in the order
 * of its cells (p, q) with p < q, same before above before below before side: each cell is then a single relation. Answers TALUNG_OK, and counts the
 * tries made; or a refusal from 1 to 5 or TALUNG_DISAGREES, with its place; or TALUNG_NO_TABLE, TALUNG_NOWHERE or TALUNG_RAN_OUT. In a table that was opened
 * under the same description it finds what it finds where each cell is TALUNG_ANY, after as many tries. */
uint64_t talung_search(const uint16_t *words, size_t n, uint8_t *table, size_t cells, uint32_t budget);

/* Says whether the table is a tree that fits the description, whoever proposed it, and only reads it. Answers TALUNG_OK if it is; else a refusal from 1 to 5 or
 * TALUNG_DISAGREES, with its place; or TALUNG_NO_TABLE or TALUNG_NO_ARRANGEMENT. */
uint64_t talung_check(const uint16_t *words, size_t n, const uint8_t *table, size_t cells);

/* A sheet is a description as people type it; docs/SHEETS.md shows how:
 *
 *     boards 4
 *     0 : 5 ( 1 2 )
 *     0 same or above 3
 *
 * The first line has the number of boards. A relation line is p, an expression and q. An expression has the words same, above, below, side, 'not' and 'inv' before
 * an operand, 'and' and 'or' between two, and parentheses; 'not' and 'inv' bind tightest, then 'and', then 'or', and each is joined from the left. A kind line
 * is p, a colon, the code, and the ways in parentheses. */

/* Reads a sheet of so many bytes, of any length. Its description goes to the front of the words, and the answer counts them; room for TALUNG_MOST_WORDS is
 * always enough. Answers TALUNG_OK; or TALUNG_NO_SHEET for the first malformed line, wherever it is, with its number; then a refusal of the description, with
 * its place: TALUNG_OUT_OF_RANGE, at word 1 or 2 where there are too many lines of a sort, TALUNG_UNFIT, TALUNG_NO_BOARD or TALUNG_DISAGREES; then
 * TALUNG_NO_ROOM. Room past the description stays as it came. */
uint64_t talung_from_text(const char *text, size_t bytes, uint16_t *words, size_t room);

/* Writes a description as a sheet, with only the parentheses that are needed. It goes to the front of the text, without a zero byte at its end, and the answer counts
 * its bytes; room for TALUNG_MOST_TEXT is always enough. Answers TALUNG_OK; or a refusal from 1 to 5 or TALUNG_DISAGREES, with its place; then
 * TALUNG_NO_ROOM. Room past the sheet stays as it came. Reading it back gives the same description. */
uint64_t talung_to_text(const uint16_t *words, size_t n, char *text, size_t room);

#ifdef __cplusplus
}
#endif

#endif
