/* The groups of typed sheets that are read, and of descriptions that are written. */
#include "sheets.h"
#include "sites.h"

enum {
    SMALL_SHEETS = 40,
    LONG_LINES = 4,
    TEXTS = SMALL_SHEETS * MOST_TABLE + FULL_SHEETS * TALUNG_MOST_TEXT + LONG_LINES * (MEGABYTE + 64)
};

/* All texts, each after the one before, and how many bytes they have. */
static char texts[TEXTS];
static size_t typed;

/* ---- typing */

/* Types some symbols at the end of the sheet's text, as many times as this. */
static void type(struct sheet *s, const char *symbols, size_t times)
{
    for (; times > 0; times--) {
        for (const char *c = symbols; *c; c++)
            texts[typed++] = *c;
    }
    s->bytes = (size_t)(texts + typed - s->text);
}

/* Types the text of the sheet's description. */
static void type_description(struct sheet *s)
{
    typed += talung_count(plain_to_text(s->words, s->n, texts + typed, TEXTS - typed));
    s->bytes = (size_t)(texts + typed - s->text);
}

/* ---- sheets that people type */

/* Five lines: relation lines and kind lines, off a site of few boards. */
static void make_small(struct sheet *s)
{
    struct site site;
    size_t boards = between(3, 6);
    size_t lines = between(1, 3);
    grow_alike(&site, boards, between(1, boards - 1));
    begin(s, boards);
    add_holding_lines(s, &site, lines, 5);
    for (size_t i = lines; i < 4; i++)
        add_panel_with_ways(s, &site);
    type_description(s);
}

/* As many lines of each sort as there may be, and as long as they may be. */
static void make_full(struct sheet *s)
{
    struct site site;
    grow(&site, 16, 16);
    begin(s, 16);
    add_longest_lines(s, &site, MOST_LINES);
    for (size_t i = 0; i < MOST_KINDS; i++) {
        uint16_t ways[MOST_WAYS];
        for (size_t j = 0; j < MOST_WAYS; j++)
            ways[j] = below(16);
        add_kind_line(s, below(16), below(65536), ways, MOST_WAYS);
    }
    type_description(s);
}

/* ---- a megabyte in one line */

/* A description that says that 0 is the same as 1, and its first line. */
static void begin_line(struct sheet *s)
{
    static const uint16_t same[1] = {TALUNG_IS_SAME};
    begin(s, 2);
    add_relation_line(s, 0, 1, same, 1);
    type(s, "boards 2\n", 1);
}

/* Parentheses around one word. */
static void make_parens(struct sheet *s)
{
    begin_line(s);
    type(s, "0", 1);
    type(s, "(", MEGABYTE / 2);
    type(s, "same", 1);
    type(s, ")", MEGABYTE / 2);
    type(s, "1\n", 1);
}

/* Blanks wherever they may stand. */
static void make_blanks(struct sheet *s)
{
    begin_line(s);
    type(s, " ", MEGABYTE / 4);
    type(s, "0", 1);
    type(s, " ", MEGABYTE / 4);
    type(s, "same", 1);
    type(s, " ", MEGABYTE / 4);
    type(s, "1", 1);
    type(s, " ", MEGABYTE / 4);
    type(s, "\n", 1);
}

/* Far too many words with one operand. */
static void make_nots(struct sheet *s)
{
    begin_line(s);
    type(s, "0 ", 1);
    type(s, "not ", MEGABYTE / 4);
    type(s, "same 1\n", 1);
    s->number = TALUNG_UNFIT;
    s->place = HEADER + 2;
}

/* Far too many words that are joined. */
static void make_words(struct sheet *s)
{
    begin_line(s);
    type(s, "0 same", 1);
    type(s, " or same", MEGABYTE / 8);
    type(s, " 1\n", 1);
    s->number = TALUNG_UNFIT;
    s->place = HEADER + 2;
}

/* ---- the groups */

/* Sheets to be read, each into a room that is just long enough. */
static void fill_read(struct group *g, const char *name, size_t count, size_t lent, void (*make)(struct sheet *))
{
    g->name = name;
    g->task = READ;
    g->count = count;
    g->lent = lent;
    for (size_t i = 0; i < count; i++) {
        struct sheet *s = &g->sheets[i];
        s->text = texts + typed;
        make(s);
        s->m = s->n;
    }
}

/* The descriptions of sheets that are read, to be written, each into a room that is just long enough. */
static void fill_written(struct group *g, const char *name, const struct group *read)
{
    *g = *read;
    g->name = name;
    g->task = WRITE;
    for (size_t i = 0; i < g->count; i++)
        g->sheets[i].m = g->sheets[i].bytes;
}

/* The first descriptions of a group that is written, each into a room for the longest text. */
static void fill_roomy(struct group *g, const char *name, const struct group *written)
{
    *g = *written;
    g->name = name;
    g->count = FULL_SHEETS;
    g->lent = MOST_ROOM;
    for (size_t i = 0; i < g->count; i++)
        g->sheets[i].m = TALUNG_MOST_TEXT;
}

void make_text_groups(struct group groups[TEXT_GROUPS])
{
    seed(3);
    fill_read(&groups[0], "typed small", SMALL_SHEETS, MOST_TABLE, make_small);
    fill_read(&groups[1], "typed full", FULL_SHEETS, MOST_ROOM, make_full);
    fill_read(&groups[2], "typed parens", 1, MOST_TABLE, make_parens);
    fill_read(&groups[3], "typed blanks", 1, MOST_TABLE, make_blanks);
    fill_read(&groups[4], "typed nots", 1, MOST_TABLE, make_nots);
    fill_read(&groups[5], "typed words", 1, MOST_TABLE, make_words);
    fill_written(&groups[6], "written small", &groups[0]);
    fill_written(&groups[7], "written full", &groups[1]);
    fill_roomy(&groups[8], "small roomy", &groups[6]);
    fill_roomy(&groups[9], "full roomy", &groups[7]);
}
