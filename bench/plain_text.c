/* Reading a typed sheet and writing one in plain C, by the product's method: the same passes in the same order. */
#include "plain_parts.h"

/* A symbol is a number: a number that was typed is itself, and all others are above those. From WORDS on they are the words of expressions, in the order of
   their codes. */
enum {
    BOARDS = 65536,
    COLON,
    LEFT_PAREN,
    RIGHT_PAREN,
    UNKNOWN,   /* a run of bytes that is neither a word nor a number */
    NO_SYMBOL, /* the line ends */
    WORDS,
    OR = WORDS + TALUNG_EITHER,
    AND = WORDS + TALUNG_BOTH
};

/* The limits of a number, and room for the words of one kind line more than there may be. */
enum {
    MOST_DIGITS = 5,
    MOST_NUMBER = 65535,
    KINDS_ROOM = (MOST_KINDS + 1) * (HEAD_WORDS + MOST_WAYS)
};

/* The largest count of an answer. */
static const size_t most_count = 4294967295u;

/* What is left of a line. */
struct line {
    const char *at;
    const char *end;
};

/* What the lines of a text make: how many there are of each sort, and their words, as long as there are not too many lines of the sort. The words of relation
   lines stand after room for a header, up to the place next, and those of kind lines apart, up to the place last. */
struct made {
    uint16_t boards;
    size_t relations;
    size_t kinds;
    size_t next;
    size_t last;
    uint16_t words[TALUNG_MOST_WORDS];
    uint16_t kind_words[KINDS_ROOM];
};

/* Where the words of an expression end, and where its text does. */
struct written {
    const uint16_t *word;
    char *next;
};

/* ---- symbols */

/* Whether a run of n bytes is this word. */
static int is_word(const char *run, size_t n, const char *word, size_t letters)
{
    if (n != letters)
        return 0;
    for (size_t i = 0; i < letters; i++) {
        if (run[i] != word[i])
            return 0;
    }
    return 1;
}

/* The number that a run of bytes spells, or UNKNOWN. */
static uint32_t number_of(const char *run, size_t n)
{
    if (n > MOST_DIGITS || (n > 1 && run[0] == '0'))
        return UNKNOWN;
    uint32_t value = 0;
    for (size_t i = 0; i < n; i++) {
        if (run[i] < '0' || run[i] > '9')
            return UNKNOWN;
        value = 10 * value + (uint32_t)(run[i] - '0');
    }
    return value > MOST_NUMBER ? UNKNOWN : value;
}

/* The symbol that a run of bytes spells. */
static uint32_t symbol_of(const char *run, size_t n)
{
    if (is_word(run, n, "boards", 6))
        return BOARDS;
    if (is_word(run, n, "same", 4))
        return WORDS + TALUNG_IS_SAME;
    if (is_word(run, n, "above", 5))
        return WORDS + TALUNG_IS_ABOVE;
    if (is_word(run, n, "below", 5))
        return WORDS + TALUNG_IS_BELOW;
    if (is_word(run, n, "side", 4))
        return WORDS + TALUNG_IS_SIDE;
    if (is_word(run, n, "or", 2))
        return OR;
    if (is_word(run, n, "and", 3))
        return AND;
    if (is_word(run, n, "not", 3))
        return WORDS + TALUNG_NOT;
    if (is_word(run, n, "inv", 3))
        return WORDS + TALUNG_INVERSE;
    return number_of(run, n);
}

/* Whether a word or a number ends before this byte. */
static int parts(char byte)
{
    return byte == ' ' || byte == ':' || byte == '(' || byte == ')';
}

/* Takes the next symbol off a line. */
static uint32_t next_symbol(struct line *line)
{
    const char *at = line->at;
    while (at < line->end && *at == ' ')
        at++;
    line->at = at;
    if (at == line->end)
        return NO_SYMBOL;
    line->at = at + 1;
    if (*at == ':')
        return COLON;
    if (*at == '(')
        return LEFT_PAREN;
    if (*at == ')')
        return RIGHT_PAREN;
    const char *end = at;
    while (end < line->end && !parts(*end))
        end++;
    line->at = end;
    return symbol_of(at, (size_t)(end - at));
}

/* ---- expressions */

/* How tightly the word for a code binds. */
static int level(uint16_t code)
{
    return code == TALUNG_EITHER ? 0 : code == TALUNG_BOTH ? 1 : 2;
}

/* Whether the word for a code at a depth binds looser than one before it. */
static int outranks(uint16_t code, size_t depth, uint16_t before, size_t before_depth)
{
    if (depth != before_depth)
        return depth < before_depth;
    return level(code) < 2 && level(code) <= level(before);
}

/* The place of the word that binds loosest, of n words with their depths. */
static size_t chief(const uint16_t *codes, const size_t *depths, size_t n)
{
    size_t best = 0;
    for (size_t i = 1; i < n; i++) {
        if (outranks(codes[i], depths[i], codes[best], depths[best]))
            best = i;
    }
    return best;
}

/* Puts n words in prefix order: the loosest, then those before it, then those after it. */
static void put_prefix(const uint16_t *codes, const size_t *depths, size_t n, uint16_t *words)
{
    if (n == 0)
        return;
    size_t top = chief(codes, depths, n);
    size_t next = top + 1;
    words[0] = codes[top];
    put_prefix(codes, depths, top, words + 1);
    put_prefix(codes + next, depths + next, n - next, words + next);
}

/* Whether a symbol may stand with so many parentheses open, where an operand is expected or not. */
static int allowed(uint32_t symbol, size_t depth, int expected)
{
    if (symbol == LEFT_PAREN)
        return expected;
    if (symbol == RIGHT_PAREN)
        return !expected && depth > 0;
    if (symbol < WORDS)
        return 0;
    return symbol == OR || symbol == AND ? !expected : expected;
}

/* How many parentheses are open after a symbol. */
static size_t deeper(uint32_t symbol, size_t depth)
{
    if (symbol == LEFT_PAREN)
        return depth + 1;
    return symbol == RIGHT_PAREN ? depth - 1 : depth;
}

/* Keeps a word and its depth after those so far. Answers how many there are then, up to one too many. */
static size_t keep(uint16_t *codes, size_t *depths, size_t count, uint32_t symbol, size_t depth)
{
    if (symbol < WORDS)
        return count;
    if (count >= MOST_WORDS)
        return MOST_WORDS + 1;
    codes[count] = (uint16_t)(symbol - WORDS);
    depths[count] = depth;
    return count + 1;
}

/* Goes over the line: the words of the expression with their depths, and the board after it, which ends the line. Answers how many words there are, up to one
   too many, or 0 if the line is malformed. */
static size_t scan(struct line line, uint16_t *codes, size_t *depths, uint32_t *board)
{
    size_t depth = 0;
    int expected = 1;
    size_t count = 0;
    for (;;) {
        uint32_t symbol = next_symbol(&line);
        if (symbol < BOARDS) {
            if (expected || depth != 0 || next_symbol(&line) != NO_SYMBOL)
                return 0;
            *board = symbol;
            return count;
        }
        if (symbol == NO_SYMBOL || !allowed(symbol, depth, expected))
            return 0;
        count = keep(codes, depths, count, symbol, depth);
        depth = deeper(symbol, depth);
        expected = symbol == LEFT_PAREN || symbol >= OR;
    }
}

/* ---- lines */

/* Puts the first three words of a line. */
static void put_start(uint16_t *words, uint32_t first, uint32_t second, size_t count)
{
    words[0] = (uint16_t)first;
    words[1] = (uint16_t)second;
    words[2] = (uint16_t)count;
}

/* Puts n words. */
static void put_words(uint16_t *to, const uint16_t *words, size_t n)
{
    for (size_t i = 0; i < n; i++)
        to[i] = words[i];
}

/* Takes a relation line after its first board. Answers how many words it has put, or 0 if the line is malformed. */
static size_t take_relation(struct line line, uint32_t board, uint16_t *words)
{
    uint16_t codes[MOST_WORDS];
    size_t depths[MOST_WORDS];
    uint32_t other;
    size_t count = scan(line, codes, depths, &other);
    if (count == 0)
        return 0;
    put_start(words, board, other, count);
    if (count > MOST_WORDS)
        return HEAD_WORDS;
    put_prefix(codes, depths, count, words + HEAD_WORDS);
    return HEAD_WORDS + count;
}

/* Lists the ways of a kind line up to the closing parenthesis, which ends the line. Answers whether they are well-formed, and counts up to one too many. */
static int list_ways(struct line line, uint16_t *ways, size_t *count)
{
    *count = 0;
    for (;;) {
        uint32_t symbol = next_symbol(&line);
        if (symbol == RIGHT_PAREN)
            return next_symbol(&line) == NO_SYMBOL;
        if (symbol >= BOARDS)
            return 0;
        if (*count < MOST_WAYS)
            ways[(*count)++] = (uint16_t)symbol;
        else
            *count = MOST_WAYS + 1;
    }
}

/* Takes a kind line after its colon. Answers how many words it has put, or 0 if the line is malformed. */
static size_t take_kind(struct line line, uint32_t board, uint16_t *words)
{
    uint16_t ways[MOST_WAYS];
    size_t count;
    uint32_t code = next_symbol(&line);
    if (code >= BOARDS || next_symbol(&line) != LEFT_PAREN || !list_ways(line, ways, &count))
        return 0;
    put_start(words, board, code, count);
    if (count > MOST_WAYS)
        return HEAD_WORDS;
    put_words(words + HEAD_WORDS, ways, count);
    return HEAD_WORDS + count;
}

/* Takes the first line. Answers whether it is well-formed. */
static int take_first(struct line line, struct made *made)
{
    if (next_symbol(&line) != BOARDS)
        return 0;
    uint32_t boards = next_symbol(&line);
    made->boards = (uint16_t)boards;
    return boards < BOARDS && next_symbol(&line) == NO_SYMBOL;
}

/* Takes a line after the first. Answers whether it is well-formed. */
static int take_line(struct line line, struct made *made)
{
    size_t put;
    uint32_t board = next_symbol(&line);
    if (board >= BOARDS)
        return 0;
    struct line rest = line;
    if (next_symbol(&rest) == COLON) {
        put = take_kind(rest, board, made->kind_words + made->last);
        if (put && made->kinds++ < MOST_KINDS)
            made->last += put;
    } else {
        put = take_relation(line, board, made->words + made->next);
        if (put && made->relations++ < MOST_LINES)
            made->next += put;
    }
    return put > 0;
}

/* ---- reading */

/* The line that begins at a place. */
static struct line line_at(const char *at, const char *end)
{
    struct line line = {at, at};
    while (line.end < end && *line.end != '\n')
        line.end++;
    return line;
}

/* The place after a line's end. */
static const char *passed(const char *line_end, const char *end)
{
    return line_end < end ? line_end + 1 : end;
}

/* Gathers what the lines of a text make. Answers the number of the first malformed line, or 0. */
static size_t gather(const char *text, const char *end, struct made *made)
{
    struct line line = line_at(text, end);
    if (!take_first(line, made))
        return 1;
    size_t number = 1;
    made->relations = 0;
    made->kinds = 0;
    made->next = HEADER_WORDS;
    made->last = 0;
    for (const char *at = passed(line.end, end); at < end; at = passed(line.end, end)) {
        line = line_at(at, end);
        number++;
        if (!take_line(line, made))
            return number;
    }
    return 0;
}

/* Joins what was gathered: the header, the words of the relation lines, those of the kind lines. Answers how many words there are. */
static size_t join(struct made *made)
{
    size_t total = made->next + made->last;
    made->words[0] = made->boards;
    made->words[1] = (uint16_t)made->relations;
    made->words[2] = (uint16_t)made->kinds;
    made->words[3] = HEADER_WORDS;
    made->words[4] = (uint16_t)made->next;
    made->words[5] = (uint16_t)total;
    put_words(made->words + made->next, made->kind_words, made->last);
    return total;
}

uint64_t plain_from_text(const char *text, size_t bytes, uint16_t *words, size_t room)
{
    struct made made;
    struct header h;
    size_t fault = gather(text, text + bytes, &made);
    if (fault)
        return answer(TALUNG_NO_SHEET, (uint32_t)(fault < most_count ? fault : most_count));
    if (made.boards < 1 || made.boards > TALUNG_MOST_BOARDS)
        return answer(TALUNG_OUT_OF_RANGE, 0);
    if (made.relations > MOST_LINES)
        return answer(TALUNG_OUT_OF_RANGE, 1);
    if (made.kinds > MOST_KINDS)
        return answer(TALUNG_OUT_OF_RANGE, 2);
    size_t total = join(&made);
    struct refusal found = read_description(made.words, total, &h);
    if (found.number)
        return refuse_at(found);
    if (room < total)
        return answer(TALUNG_NO_ROOM, 0);
    put_words(words, made.words, total);
    return answer(TALUNG_OK, (uint32_t)total);
}

/* ---- writing */

/* Each of these puts something at a place of a text, and answers the next place. */

static char *put_byte(char *at, char byte)
{
    *at = byte;
    return at + 1;
}

static char *put_text(char *at, const char *bytes, size_t n)
{
    for (size_t i = 0; i < n; i++)
        at[i] = bytes[i];
    return at + n;
}

static char *put_number(char *at, size_t n)
{
    if (n >= 10)
        at = put_number(at, n / 10);
    return put_byte(at, (char)('0' + n % 10));
}

/* A number after a blank. */
static char *put_spaced(char *at, size_t n)
{
    return put_number(put_byte(at, ' '), n);
}

/* The word for a code, after a blank. */
static char *put_word(char *at, uint16_t code)
{
    switch (code) {
    case TALUNG_IS_SAME: return put_text(at, " same", 5);
    case TALUNG_IS_ABOVE: return put_text(at, " above", 6);
    case TALUNG_IS_BELOW: return put_text(at, " below", 6);
    case TALUNG_IS_SIDE: return put_text(at, " side", 5);
    case TALUNG_EITHER: return put_text(at, " or", 3);
    case TALUNG_BOTH: return put_text(at, " and", 4);
    case TALUNG_NOT: return put_text(at, " not", 4);
    default: return put_text(at, " inv", 4);
    }
}

/* A parenthesis after a blank, where it is needed. */
static char *put_paren(char *at, int needed, char paren)
{
    return needed ? put_byte(put_byte(at, ' '), paren) : at;
}

/* The expression that the words begin with, in parentheses unless it binds at least as tightly as this level. */
static struct written put_expression(const uint16_t *words, int tightness, char *at)
{
    uint16_t code = words[0];
    if (code < TALUNG_EITHER)
        return (struct written){words + 1, put_word(at, code)};
    if (code > TALUNG_BOTH)
        return put_expression(words + 1, 2, put_word(at, code));
    int own = level(code);
    at = put_paren(at, own < tightness, '(');
    struct written left = put_expression(words + 1, own, at);
    struct written right = put_expression(left.word, own + 1, put_word(left.next, code));
    return (struct written){right.word, put_paren(right.next, own < tightness, ')')};
}

/* The relation line that the words begin with. */
static struct written put_relation(const uint16_t *words, char *at)
{
    struct written end = put_expression(words + HEAD_WORDS, 0, put_number(at, words[0]));
    end.next = put_byte(put_spaced(end.next, words[1]), '\n');
    return end;
}

/* The kind line that the words begin with. */
static struct written put_kind(const uint16_t *words, char *at)
{
    size_t count = words[2];
    at = put_text(put_number(at, words[0]), " :", 2);
    at = put_text(put_spaced(at, words[1]), " (", 2);
    for (size_t i = 0; i < count; i++)
        at = put_spaced(at, words[HEAD_WORDS + i]);
    return (struct written){words + HEAD_WORDS + count, put_text(at, " )\n", 3)};
}

/* The text of a good description. */
static char *put_sheet(const struct header *h, const uint16_t *words, char *at)
{
    at = put_byte(put_spaced(put_text(at, "boards", 6), h->boards), '\n');
    struct written lines = {words + HEADER_WORDS, at};
    for (size_t i = 0; i < h->lines; i++)
        lines = put_relation(lines.word, lines.next);
    for (size_t i = 0; i < h->kinds; i++)
        lines = put_kind(lines.word, lines.next);
    return lines.next;
}

/* Writes a description that was read in room that may be too small: the text is made apart, and copied where it fits. */
static uint64_t write_apart(const struct header *h, const uint16_t *words, char *text, size_t room)
{
    char sheet[TALUNG_MOST_TEXT];
    size_t length = (size_t)(put_sheet(h, words, sheet) - sheet);
    if (room < length)
        return answer(TALUNG_NO_ROOM, 0);
    put_text(text, sheet, length);
    return answer(TALUNG_OK, (uint32_t)length);
}

uint64_t plain_to_text(const uint16_t *words, size_t n, char *text, size_t room)
{
    struct header h;
    struct refusal found = read_description(words, n, &h);
    if (found.number)
        return refuse_at(found);
    if (room < TALUNG_MOST_TEXT)
        return write_apart(&h, words, text, room);
    return answer(TALUNG_OK, (uint32_t)(put_sheet(&h, words, text) - text));
}
