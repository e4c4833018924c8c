/* Reads a typed sheet from standard input and writes the words of its description, little-endian, to standard output. A sheet that is refused is told on
 * standard error, with the word and the line where it is refused, and nothing is written. Exit status: 0 written; 1 refused; 2 the input could not be read or
 * the answer not be written. */
#include "filter.h"
#include "talungbisay.h"

enum { HEADER_WORDS = 6 };

enum sort { RELATION, KIND };

/* A walk through the lines of a well typed sheet. */
struct walk {
    struct bytes sheet;
    size_t next;    /* where the next line begins */
    size_t number;  /* of the line just passed, from 1 */
    enum sort sort; /* of this line; a kind line has a colon */
    size_t words;   /* how many words of the description this line makes */
};

/* Passes the next line; answers 0 where there is none. A line after the first makes a word of each name and number in it, and one more: the length of its
 * expression, or its number of ways. */
static int pass_line(struct walk *w)
{
    size_t i = w->next;
    int inside = 0; /* a name or a number */
    if (i >= w->sheet.n)
        return 0;
    w->number += 1;
    w->sort = RELATION;
    w->words = 1;
    for (; i < w->sheet.n && w->sheet.at[i] != '\n'; i++) {
        unsigned char byte = w->sheet.at[i];
        int apart = byte == ' ' || byte == ':' || byte == '(' || byte == ')';
        if (byte == ':')
            w->sort = KIND;
        if (!apart && !inside)
            w->words += 1;
        inside = !apart;
    }
    w->next = i + 1;
    return 1;
}

/* A walk that has passed the first line, which makes the header. */
static struct walk walk_from_first(struct bytes sheet)
{
    struct walk w = {sheet, 0, 0, RELATION, 0};
    pass_line(&w);
    return w;
}

/* The number of the line of a sort that makes this word, where so many words are passed before the lines of the sort; 0 where none of them makes it, and then
 * their words are passed too. */
static size_t line_among(struct bytes sheet, enum sort sort, size_t *passed, size_t word)
{
    struct walk w = walk_from_first(sheet);
    while (pass_line(&w)) {
        if (w.sort != sort)
            continue;
        *passed += w.words;
        if (word < *passed)
            return w.number;
    }
    return 0;
}

/* The number of the line that makes this word: the first line makes the header, then come the words of the relation lines, then those of the kind lines. */
static size_t line_of_word(struct bytes sheet, size_t word)
{
    size_t passed = HEADER_WORDS;
    if (word < passed)
        return 1;
    size_t line = line_among(sheet, RELATION, &passed, word);
    return line != 0 ? line : line_among(sheet, KIND, &passed, word);
}

/* The number of the first line of a sort after so many of that sort; 0 where there is none. */
static size_t line_after(struct bytes sheet, enum sort sort, size_t lines)
{
    struct walk w = walk_from_first(sheet);
    while (pass_line(&w)) {
        if (w.sort != sort)
            continue;
        if (lines == 0)
            return w.number;
        lines -= 1;
    }
    return 0;
}

/* The number of the line to look at in a refused sheet; 0 where it is no line's fault. Of too many lines of a sort it is the first one too many. */
static size_t line_refused(struct bytes sheet, uint64_t answer)
{
    uint32_t number = talung_number(answer);
    uint32_t count = talung_count(answer);
    if (number == TALUNG_NO_SHEET)
        return count;
    if (number == TALUNG_NO_ROOM)
        return 0;
    if (number == TALUNG_OUT_OF_RANGE && count == 1)
        return line_after(sheet, RELATION, TALUNG_MOST_RELATION_LINES);
    if (number == TALUNG_OUT_OF_RANGE && count == 2)
        return line_after(sheet, KIND, TALUNG_MOST_KIND_LINES);
    return line_of_word(sheet, count);
}

int main(void)
{
    static uint16_t words[TALUNG_MOST_WORDS];
    static unsigned char output[2 * TALUNG_MOST_WORDS];
    struct bytes input = read_input("words");
    uint64_t answer = talung_from_text((const char *)input.at, input.n, words, TALUNG_MOST_WORDS);
    if (talung_number(answer) != TALUNG_OK)
        return tell_refusal(answer, line_refused(input, answer));
    size_t n = talung_count(answer);
    for (size_t i = 0; i < n; i++) {
        output[2 * i] = (unsigned char)(words[i] % 256);
        output[2 * i + 1] = (unsigned char)(words[i] / 256);
    }
    write_output("words", output, 2 * n);
    return 0;
}
