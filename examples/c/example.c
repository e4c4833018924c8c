/* Describes five sites in code, has them opened, searched and checked, and says what comes of it; closes one in stages; writes one as a sheet, and reads sheets. To
 * be linked with libtalung.a. */
#include <assert.h>
#include <stdio.h>
#include <string.h>

#include "talungbisay.h"

enum { BUDGET = 10000 };

struct site {
    const char *title;
    const char *const *names; /* of the boards */
    uint32_t boards;
    const uint16_t *words;
    size_t n;
};

/* "At or above" allows that both are one board. Said one way, either may be; said both ways, they are one. */
static const char *const pair_names[] = {"switch", "board A"};
static const uint16_t pair_words[] = {
    2, 2, 0, 6, 18, 18,
    0, 1, 3, TALUNG_EITHER, TALUNG_IS_SAME, TALUNG_IS_ABOVE,
    1, 0, 3, TALUNG_EITHER, TALUNG_IS_SAME, TALUNG_IS_ABOVE,
};
static const uint16_t half_words[] = {
    2, 1, 0, 6, 12, 12,
    0, 1, 3, TALUNG_EITHER, TALUNG_IS_SAME, TALUNG_IS_ABOVE,
};
static const struct site half = {"The switch is at or above board A", pair_names, 2, half_words, sizeof half_words / sizeof *half_words};
static const struct site pair = {"Each is at or above the other", pair_names, 2, pair_words, sizeof pair_words / sizeof *pair_words};

/* A panel's ways are all of its ways: what is below the panel and beside two of three ways is the third, or below it. */
static const char *const panel_names[] = {"main", "kitchen", "workshop", "pump", "meter"};
static const uint16_t panel_words[] = {
    5, 3, 1, 6, 18, 24,
    0, 4, 1, TALUNG_IS_ABOVE,
    1, 4, 1, TALUNG_IS_SIDE,
    2, 4, 1, TALUNG_IS_SIDE,
    0, 7, 3, 1, 2, 3,
};
static const struct site panel = {"A three-way panel", panel_names, 5, panel_words, sizeof panel_words / sizeof *panel_words};

/* Beside all three ways there is no place for it. */
static const uint16_t crowded_words[] = {
    5, 4, 1, 6, 22, 28,
    0, 4, 1, TALUNG_IS_ABOVE,
    1, 4, 1, TALUNG_IS_SIDE,
    2, 4, 1, TALUNG_IS_SIDE,
    3, 4, 1, TALUNG_IS_SIDE,
    0, 7, 3, 1, 2, 3,
};
static const struct site crowded = {"A meter beside all three ways", panel_names, 5, crowded_words, sizeof crowded_words / sizeof *crowded_words};

/* Of two boards there is no board 2: they are numbered from 0. The refusal says where it stands, at word 7. */
static const uint16_t slip_words[] = {
    2, 1, 0, 6, 10, 10,
    1, 2, 1, TALUNG_IS_ABOVE,
};
static const struct site slip = {"A slip of the pen", pair_names, 2, slip_words, sizeof slip_words / sizeof *slip_words};

/* One kind code means one number of ways: of code 7 there is no panel with one way where another has two. The refusal says where, at word 13, the number of
 * ways of the later panel. */
static const char *const parts_names[] = {"main", "kitchen", "workshop", "annex", "pump"};
static const uint16_t parts_words[] = {
    5, 0, 2, 6, 6, 15,
    0, 7, 2, 1, 2,
    3, 7, 1, 4,
};
static const struct site parts = {"Two panels of one code, with two ways and with one", parts_names, 5, parts_words, sizeof parts_words / sizeof *parts_words};

static const char *meaning(uint64_t answer)
{
    switch (talung_number(answer)) {
    case TALUNG_OUT_OF_RANGE: return "the header is too short, or a number in it is out of range";
    case TALUNG_MISPLACED: return "an offset or the total in the header is wrong";
    case TALUNG_UNFIT: return "a line does not fit its section";
    case TALUNG_NO_BOARD: return "a line names a board that the site has not";
    case TALUNG_NO_EXPRESSION: return "an expression is malformed";
    case TALUNG_NO_TABLE: return "the table is none of this site";
    case TALUNG_CONTRADICTORY: return "the lines contradict each other";
    case TALUNG_NOWHERE: return "no tree fits";
    case TALUNG_RAN_OUT: return "the budget of tries ran out";
    case TALUNG_NO_ARRANGEMENT: return "this is no tree that fits";
    case TALUNG_DISAGREES: return "a panel has another number of ways than an earlier one of its code";
    case TALUNG_NO_ROOM: return "the room is too small";
    case TALUNG_NO_SHEET: return "a line is malformed";
    default: return "good";
    }
}

/* Says what an answer means; of a description that is refused also the word, and of a malformed sheet the line. */
static void print_meaning(uint64_t answer)
{
    uint32_t number = talung_number(answer);
    printf("%s", meaning(answer));
    if ((number >= TALUNG_OUT_OF_RANGE && number <= TALUNG_NO_EXPRESSION) || number == TALUNG_DISAGREES)
        printf(": word %u", (unsigned)talung_count(answer));
    if (number == TALUNG_NO_SHEET)
        printf(": line %u", (unsigned)talung_count(answer));
}

/* Says that the call was refused, if it was, and sees that it has left the table as it was lent. */
static int refused(const char *call, uint64_t answer, const struct site *s, const uint8_t *table, const uint8_t *lent)
{
    if (talung_number(answer) == TALUNG_OK)
        return 0;
    assert(memcmp(table, lent, s->boards * s->boards) == 0);
    printf("  %s: refused with %u, ", call, (unsigned)talung_number(answer));
    print_meaning(answer);
    printf("; the table is as it came\n");
    return 1;
}

/* Says what each board may be to each later one. */
static void print_table(const struct site *s, const uint8_t *table)
{
    static const struct {
        uint8_t relation;
        const char *words;
    } said[] = {{TALUNG_SAME, "the same as"}, {TALUNG_ABOVE, "above"}, {TALUNG_BELOW, "below"}, {TALUNG_SIDE, "beside"}};
    for (uint32_t p = 0; p < s->boards; p++) {
        for (uint32_t q = p + 1; q < s->boards; q++) {
            const char *link = "";
            printf("    %s is ", s->names[p]);
            for (size_t i = 0; i < sizeof said / sizeof *said; i++) {
                if (table[s->boards * p + q] & said[i].relation) {
                    printf("%s%s", link, said[i].words);
                    link = " or ";
                }
            }
            printf(" %s\n", s->names[q]);
        }
    }
}

/* Opens the table, whatever it holds, searches it and checks what was found. Leaves the table. */
static void solve(const struct site *s, uint8_t *table)
{
    uint8_t lent[TALUNG_MOST_CELLS];
    size_t cells = s->boards * s->boards;
    memcpy(lent, table, cells);

    printf("%s\n", s->title);
    printf("  reading: ");
    print_meaning(talung_read(s->words, s->n));
    printf("\n");

    uint64_t answer = talung_open(s->words, s->n, table, cells);
    if (refused("opening", answer, s, table, lent))
        return;
    printf("  opening: good, relations struck: %u\n", (unsigned)talung_count(answer));
    print_table(s, table);
    memcpy(lent, table, cells);

    answer = talung_search(s->words, s->n, table, cells, BUDGET);
    if (refused("search", answer, s, table, lent))
        return;
    printf("  search: good, tries made: %u\n", (unsigned)talung_count(answer));
    print_table(s, table);
    printf("  check: %s\n", meaning(talung_check(s->words, s->n, table, cells)));
}

/* Opens the table under the first lines, and closes it once all are known. The two together strike what one opening under all of them strikes. */
static void in_stages(const struct site *first, const struct site *all, uint8_t *table)
{
    size_t cells = all->boards * all->boards;
    uint64_t opened = talung_open(first->words, first->n, table, cells);
    assert(talung_number(opened) == TALUNG_OK);
    printf("%s\n", first->title);
    printf("  opening: good, relations struck: %u\n", (unsigned)talung_count(opened));
    print_table(first, table);
    uint64_t closed = talung_close(all->words, all->n, table, cells);
    assert(talung_number(closed) == TALUNG_OK);
    printf("  closing with the other line too: good, relations struck: %u\n", (unsigned)talung_count(closed));
    print_table(all, table);
}

/* Has a table checked in which p is beside q, and all else is as it was found. */
static void propose_beside(const struct site *s, uint8_t *table, uint32_t p, uint32_t q)
{
    table[s->boards * p + q] = TALUNG_SIDE;
    table[s->boards * q + p] = TALUNG_SIDE;
    printf("  check with %s beside %s: %s\n", s->names[p], s->names[q], meaning(talung_check(s->words, s->n, table, s->boards * s->boards)));
}

/* Writes the site as a sheet, and sees that reading it gives the same description. */
static void type(const struct site *s)
{
    char text[TALUNG_MOST_TEXT];
    uint16_t words[TALUNG_MOST_WORDS];
    uint64_t written = talung_to_text(s->words, s->n, text, sizeof text);
    assert(talung_number(written) == TALUNG_OK);
    printf("%s, as a sheet of %u bytes:\n%.*s", s->title, (unsigned)talung_count(written), (int)talung_count(written), text);
    uint64_t made = talung_from_text(text, talung_count(written), words, TALUNG_MOST_WORDS);
    assert(talung_number(made) == TALUNG_OK && talung_count(made) == s->n);
    assert(memcmp(words, s->words, s->n * sizeof *words) == 0);
}

/* Reads a sheet, and says what it comes to. A refusal's word is one of those that the sheet makes. */
static void read_sheet(const char *title, const char *text, size_t bytes)
{
    uint16_t words[TALUNG_MOST_WORDS];
    uint64_t made = talung_from_text(text, bytes, words, TALUNG_MOST_WORDS);
    if (talung_number(made) == TALUNG_OK) {
        printf("%s: good, words made: %u\n", title, (unsigned)talung_count(made));
        return;
    }
    printf("%s: refused with %u, ", title, (unsigned)talung_number(made));
    print_meaning(made);
    printf("\n");
}

int main(void)
{
    static const char at_or_above[] = "boards 2\n0 same or above 1\n";
    static const char slip_of_the_key[] = "boards 2\n0 at or above 1\n";
    static const char slip_in_a_panel[] = "boards 3\n0 : 7 ( 1 3 )\n0 above 2\n";
    uint8_t table[TALUNG_MOST_CELLS] = {0}; /* holds what the site before has left: opening takes any contents */
    solve(&pair, table);
    in_stages(&half, &pair, table);
    solve(&panel, table);
    propose_beside(&panel, table, 3, 4);
    solve(&crowded, table);
    solve(&slip, table);
    solve(&parts, table);
    type(&panel);
    read_sheet("'same or above'", at_or_above, sizeof at_or_above - 1);
    read_sheet("'at or above'", slip_of_the_key, sizeof slip_of_the_key - 1);
    read_sheet("A panel with board 3 of three boards", slip_in_a_panel, sizeof slip_in_a_panel - 1);
    return 0;
}
