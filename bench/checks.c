/* That all versions answer each sheet the same, leave the same, and answer as the sheet's group says. */
#include <stdio.h>
#include <stdlib.h>
#include <string.h>

#include "checks.h"
#include "sites.h"

/* The most words of a short description, the largest word, and room for a short text that is spoilt. */
enum {
    SHORT = 64,
    LARGEST = 65535,
    MOST_SPOILT = (MOST_LINES + 2) * MOST_TABLE
};

/* What each sheet of the group at hand is answered, and what is then left of what was lent with it. */
static uint64_t answers[MOST_SHEETS];
static uint16_t lefts[FULL_SHEETS * MOST_ROOM / 2];

static void *left(const struct group *g, size_t i)
{
    return (uint8_t *)lefts + i * g->lent;
}

/* ---- all versions */

/* Ends the program, with what is wrong. */
static _Noreturn void fail(const struct group *g, size_t i, const char *what)
{
    printf("%s, sheet %lu: %s\n", g->name, (unsigned long)i, what);
    exit(1);
}

/* What a version answers and leaves. */
struct outcome {
    const char *name;
    uint64_t answer;
    const uint8_t *left;
};

/* The product and another version have answered a sheet: ends the program unless they say the same and leave the same. */
static void compare(const struct group *g, size_t i, const struct outcome *product, const struct outcome *other)
{
    if (product->answer != other->answer) {
        printf("the product answers number %u count %u, %s number %u count %u\n", talung_number(product->answer), talung_count(product->answer), other->name,
               talung_number(other->answer), talung_count(other->answer));
        fail(g, i, "the answers differ");
    }
    for (size_t k = 0; k < g->lent; k++) {
        if (product->left[k] != other->left[k]) {
            printf("the product leaves %u at byte %lu, %s %u\n", product->left[k], (unsigned long)k, other->name, other->left[k]);
            fail(g, i, "what they leave differs");
        }
    }
}

/* Has all versions do a task with a sheet, which is the i-th one of the group or made of it. Answers what they do, and leaves what they leave. */
static uint64_t answer_task(const struct group *g, size_t i, enum task task, const struct sheet *s, void *lent)
{
    static const char *const names[VERSIONS] = {"", "plain C", "plain C by sweeps"};
    uint16_t room[MOST_ROOM / 2];
    lend(g, s, lent);
    struct outcome product = {"", calls[PRODUCT][task](s, lent), lent};
    for (size_t version = PLAIN; version < versions_of(task); version++) {
        lend(g, s, room);
        struct outcome other = {names[version], calls[version][task](s, room), (uint8_t *)room};
        compare(g, i, &product, &other);
    }
    return product.answer;
}

/* Has them do the group's own task with it. */
static uint64_t answer_sheet(const struct group *g, size_t i, const struct sheet *s, void *lent)
{
    return answer_task(g, i, g->task, s, lent);
}

void answer_group(const struct group *g)
{
    for (size_t i = 0; i < g->count; i++)
        answers[i] = answer_sheet(g, i, &g->sheets[i], left(g, i));
}

void expect_kept(const struct group *g, size_t i, uint64_t answer, const void *lent)
{
    if (answer != answers[i] || memcmp(lent, left(g, i), g->lent))
        fail(g, i, "answered otherwise than before");
}

/* Ends the program unless the answer has this number; and, if that is a refusal, no count but of tries or the sheet's place, and what was lent is as it came. */
static void expect(const struct group *g, size_t i, uint64_t answer, unsigned number, const void *lent)
{
    uint16_t as_it_came[MOST_ROOM / 2];
    int counts = number == TALUNG_OK || number == TALUNG_NOWHERE || number == TALUNG_RAN_OUT;
    unsigned place = g->sheets[i].place;
    if (talung_number(answer) != number || (!counts && talung_count(answer) != place)) {
        printf("answered number %u count %u, made for number %u place %u\n", talung_number(answer), talung_count(answer), number, place);
        fail(g, i, "not answered as it should be");
    }
    lend(g, &g->sheets[i], as_it_came);
    if (number && memcmp(lent, as_it_came, g->lent))
        fail(g, i, "refused, but what was lent is not as it came");
}

/* ---- openings */

/* Has all versions close the full table under the sheet's description. Answers what they do, and leaves their table. */
static uint64_t close_full(const struct group *g, size_t i, const struct sheet *s, uint8_t *table)
{
    struct sheet full = *s;
    fill_table(full.table);
    return answer_task(g, i, CLOSE, &full, table);
}

/* Has all versions open the sheet's table. Ends the program unless they answer what a closing of the full table does, and leave the same cells; the rest of the
   table, or all of it where they refuse, must be as it came. */
static void check_opening(const struct group *g, size_t i, const struct sheet *s)
{
    uint8_t table[MOST_TABLE];
    uint8_t closed[MOST_TABLE];
    uint8_t expected[MOST_TABLE];
    uint64_t answer = close_full(g, i, s, closed);
    memcpy(expected, s->table, MOST_TABLE);
    if (talung_number(answer) == TALUNG_OK)
        memcpy(expected, closed, s->m);
    if (answer_sheet(g, i, s, table) != answer || memcmp(table, expected, MOST_TABLE))
        fail(g, i, "not opened as the full table is closed");
}

/* ---- spoilt descriptions */

/* Has all versions do the group's task with a description that has another word at this place. */
static void compare_word(const struct group *g, size_t i, struct sheet *s, size_t place, uint16_t word)
{
    uint16_t lent[MOST_ROOM / 2];
    uint16_t was = s->words[place];
    s->words[place] = word;
    if (g->task == OPEN)
        check_opening(g, i, s);
    else
        answer_sheet(g, i, s, lent);
    s->words[place] = was;
}

/* Has them do it, if the description is short or the first of its group, with each of its words in turn one larger, one smaller and the largest that there is;
   with each of them as the one where the kind lines begin; and cut before each of them, with the total that it has and with one that is right. A search makes no
   try. */
static void compare_spoilt(const struct group *g, size_t i)
{
    struct sheet s = g->sheets[i];
    size_t n = s.n;
    if (n > SHORT && i > 0)
        return;
    s.budget = 0;
    if (g->task == WRITE)
        s.m = g->lent;
    for (size_t k = 0; k < n; k++) {
        compare_word(g, i, &s, k, s.words[k] + 1);
        compare_word(g, i, &s, k, s.words[k] - 1);
        compare_word(g, i, &s, k, LARGEST);
        compare_word(g, i, &s, 4, k);
    }
    for (s.n = 0; s.n < n; s.n++) {
        compare_word(g, i, &s, 5, s.words[5]);
        compare_word(g, i, &s, 5, s.n);
    }
}

/* ---- tables */

/* Ends the program unless the closed table has kept the site. */
static void expect_site(const struct group *g, size_t i, const uint8_t *table)
{
    const struct sheet *s = &g->sheets[i];
    for (size_t k = 0; k < TALUNG_MOST_CELLS; k++) {
        if (s->site[k] & ~table[k])
            fail(g, i, "a cell has lost the site's relation");
    }
}

/* Ends the program unless the table is an arrangement, closed and of single relations, and does not come after the site in the order. */
static void expect_arrangement(const struct group *g, size_t i, const uint8_t *table)
{
    const struct sheet *s = &g->sheets[i];
    uint8_t closed[MOST_TABLE];
    memcpy(closed, table, MOST_TABLE);
    if (plain_close(s->words, s->n, closed, s->m))
        fail(g, i, "the table found is not closed");
    for (size_t k = 0; k < s->m; k++) {
        if (table[k] & (table[k] - 1))
            fail(g, i, "the table found has a cell of several relations");
    }
    if (s->site[0] && memcmp(table, s->site, s->m) > 0)
        fail(g, i, "the arrangement found is not the least");
}

/* Has all versions search a sheet with this budget, and leaves their table. */
static uint64_t search(const struct group *g, size_t i, uint32_t budget, uint8_t *table)
{
    struct sheet s = g->sheets[i];
    s.budget = budget;
    return answer_task(g, i, SEARCH, &s, table);
}

/* Checks that the writer refuses a description that closing refuses, at the same place. */
static void check_written(const struct group *g, size_t i)
{
    static struct group written = {.task = WRITE, .lent = MOST_ROOM};
    struct sheet *s = &written.sheets[i];
    uint16_t room[MOST_ROOM / 2];
    written.name = g->name;
    *s = g->sheets[i];
    s->m = TALUNG_MOST_TEXT;
    if (s->number == TALUNG_NO_TABLE || s->number == TALUNG_CONTRADICTORY)
        s->number = TALUNG_OK;
    expect(&written, i, answer_sheet(&written, i, s, room), s->number, room);
}

/* Checks a sheet that is closed; that the search refuses what closing refuses, a contradiction with no try, and else finds an arrangement; and the writer. */
static void check_closed(const struct group *g, size_t i)
{
    unsigned number = g->sheets[i].number;
    expect_site(g, i, left(g, i));
    uint8_t table[MOST_TABLE];
    uint64_t answer = search(g, i, BUDGET, table);
    expect(g, i, answer, number == TALUNG_CONTRADICTORY ? TALUNG_NOWHERE : number, table);
    if (number == TALUNG_CONTRADICTORY && talung_count(answer))
        fail(g, i, "tries in a contradictory table");
    if (number == 0)
        expect_arrangement(g, i, table);
    check_written(g, i);
    compare_spoilt(g, i);
}

/* Checks a sheet that is opened, with its own old contents of the table and with others: zeros, the largest byte, the full table, and bytes that rise; and with one
   cell more, and with none. */
static void check_opened(const struct group *g, size_t i)
{
    static const struct {
        uint8_t first;
        uint8_t step;
    } contents[] = {{0, 0}, {255, 0}, {TALUNG_ANY, 0}, {0, 1}};
    struct sheet s = g->sheets[i];
    expect_site(g, i, left(g, i));
    check_opening(g, i, &s);
    for (size_t c = 0; c < sizeof contents / sizeof contents[0]; c++) {
        for (size_t k = 0; k < MOST_TABLE; k++)
            s.table[k] = contents[c].first + k * contents[c].step;
        check_opening(g, i, &s);
    }
    s.m++;
    check_opening(g, i, &s);
    s.m = 0;
    check_opening(g, i, &s);
    compare_spoilt(g, i);
}

/* Checks that a sheet which was given this answer runs out of another budget exactly if it takes more tries. */
static void check_budget(const struct group *g, size_t i, uint64_t answer, uint32_t budget)
{
    uint8_t table[MOST_TABLE];
    uint64_t other = search(g, i, budget, table);
    int spent = talung_number(answer) == TALUNG_RAN_OUT || talung_count(answer) > budget;
    expect(g, i, other, spent ? TALUNG_RAN_OUT : talung_number(answer), table);
    if (talung_count(other) != (spent ? budget : talung_count(answer)))
        fail(g, i, "another number of tries with another budget");
}

/* Checks a sheet that is searched, with its own budget and with others. */
static void check_searched(const struct group *g, size_t i)
{
    uint64_t answer = answers[i];
    uint32_t count = talung_count(answer);
    if (talung_number(answer) == 0)
        expect_arrangement(g, i, left(g, i));
    if (count > 0)
        check_budget(g, i, answer, count - 1);
    check_budget(g, i, answer, count);
    check_budget(g, i, answer, count + 1);
    compare_spoilt(g, i);
}

/* ---- texts */

/* How many words or bytes a sheet has to be put into its room. */
static size_t made_of(const struct group *g, const struct sheet *s)
{
    return g->task == READ ? s->n : s->bytes;
}

/* Ends the program unless the front of the room has the sheet's words or its text, the answer has how many they are, and the rest of the room is as it came. */
static void expect_made(const struct group *g, size_t i, uint64_t answer, const void *room)
{
    const struct sheet *s = &g->sheets[i];
    uint16_t made[MOST_ROOM / 2];
    lend(g, s, made);
    if (g->task == READ)
        memcpy(made, s->words, s->n * sizeof s->words[0]);
    else
        memcpy(made, s->text, s->bytes);
    if (talung_count(answer) != made_of(g, s))
        fail(g, i, "another length than it should have");
    if (memcmp(room, made, g->lent))
        fail(g, i, "the room has not what it should have");
}

/* Checks a sheet that is read or written in a room of this length. */
static void check_room(const struct group *g, size_t i, size_t length)
{
    struct sheet s = g->sheets[i];
    uint16_t room[MOST_ROOM / 2];
    int too_small = s.number == 0 && length < made_of(g, &s);
    s.m = length;
    uint64_t answer = answer_sheet(g, i, &s, room);
    expect(g, i, answer, too_small ? TALUNG_NO_ROOM : s.number, room);
    if (talung_number(answer) == 0)
        expect_made(g, i, answer, room);
}

/* Has both versions read a sheet's text with other bytes in place of those from one place to another. */
static void compare_text(const struct group *g, size_t i, size_t from, size_t to, const char *bytes, size_t n)
{
    static char text[MOST_SPOILT];
    const struct sheet *was = &g->sheets[i];
    struct sheet s = *was;
    uint16_t room[MOST_ROOM / 2];
    memcpy(text, was->text, from);
    memcpy(text + from, bytes, n);
    memcpy(text + from + n, was->text + to, was->bytes - to);
    s.text = text;
    s.bytes = from + n + was->bytes - to;
    s.m = g->lent / sizeof room[0];
    answer_sheet(g, i, &s, room);
}

/* Has both read a short text in which each byte in turn is left out, or has something before it: a digit, too many words, too many ways, a kind line. */
static void compare_bytes(const struct group *g, size_t i)
{
    static const char *const symbols[] = {
        "1", "not not not not not not not not not not not not not not not ", "0 1 0 1 0 1 0 1 0 ", "\n0 : 0 ( )\n", "0 : 1 ( 1 2 )\n",
    };
    for (size_t k = 0; k < g->sheets[i].bytes; k++) {
        compare_text(g, i, k, k + 1, "", 0);
        for (size_t l = 0; l < sizeof symbols / sizeof symbols[0]; l++)
            compare_text(g, i, k, k, symbols[l], strlen(symbols[l]));
    }
}

/* Has both read it with the bytes from one place to another typed as many times as this, after some others. */
static void compare_repeated(const struct group *g, size_t i, const char *others, size_t from, size_t to, size_t times)
{
    static char bytes[MOST_SPOILT];
    size_t n = strlen(others);
    memcpy(bytes, others, n);
    for (; times > 0; times--) {
        memcpy(bytes + n, g->sheets[i].text + from, to - from);
        n += to - from;
    }
    compare_text(g, i, from, to, bytes, n);
}

/* Where the line ends that has this place of a sheet's text. */
static size_t line_end(const struct sheet *s, size_t at)
{
    while (s->text[at] != '\n')
        at++;
    return at;
}

/* Has both read a short text in which each line after the first in turn stands as many times as kind lines or relation lines may, and once more; and so do all lines
   from it on, then after one more digit too: before the second line it makes the number of boards too large. */
static void compare_lines(const struct group *g, size_t i)
{
    const struct sheet *s = &g->sheets[i];
    size_t end = s->bytes - 1;
    for (size_t from = line_end(s, 0), to; from < end; from = to) {
        to = line_end(s, from + 1);
        compare_repeated(g, i, "", from, to, MOST_KINDS);
        compare_repeated(g, i, "", from, to, MOST_KINDS + 1);
        compare_repeated(g, i, "", from, to, MOST_LINES);
        compare_repeated(g, i, "", from, to, MOST_LINES + 1);
        compare_repeated(g, i, "", from, end, MOST_LINES + 1);
        compare_repeated(g, i, "0", from, end, MOST_LINES + 1);
    }
}

/* Checks a sheet that is read or written, in its own room and in others; and compares what they make of a short one that is spoilt. */
static void check_text(const struct group *g, size_t i)
{
    const struct sheet *s = &g->sheets[i];
    if (s->number == 0)
        expect_made(g, i, answers[i], left(g, i));
    check_room(g, i, 0);
    check_room(g, i, made_of(g, s) - 1);
    check_room(g, i, made_of(g, s) + 1);
    if (s->bytes > MOST_TABLE)
        return;
    if (g->task == WRITE) {
        compare_spoilt(g, i);
    } else {
        compare_bytes(g, i);
        compare_lines(g, i);
    }
}

/* ---- groups */

void check_group(const struct group *g)
{
    static void (*const checks[])(const struct group *, size_t) = {
        [CLOSE] = check_closed,
        [OPEN] = check_opened,
        [SEARCH] = check_searched,
        [READ] = check_text,
        [WRITE] = check_text,
    };
    answer_group(g);
    for (size_t i = 0; i < g->count; i++) {
        expect(g, i, answers[i], g->sheets[i].number, left(g, i));
        checks[g->task](g, i);
    }
}
