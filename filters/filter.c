#include <stdio.h>
#include <stdlib.h>
#include <string.h>
#include <unistd.h>

#include "filter.h"
#include "talungbisay.h"

/* A refusal has at most 62 bytes: its numbers have at most 10, 10 and 20 digits. */
enum { FIRST_ROOM = 65536, REFUSAL_TEXT = 64 };

static void say(const char *text)
{
    size_t n = strlen(text);
    while (n > 0) {
        ssize_t wrote = write(STDERR_FILENO, text, n);
        if (wrote <= 0)
            return;
        text += wrote;
        n -= (size_t)wrote;
    }
}

static _Noreturn void fail(const char *program, const char *what)
{
    say(program);
    say(what);
    exit(2);
}

struct bytes read_input(const char *program)
{
    size_t room = FIRST_ROOM;
    struct bytes input = {malloc(room), 0};
    for (;;) {
        if (input.at == NULL)
            fail(program, ": the input is too long for this machine\n");
        ssize_t got = read(STDIN_FILENO, input.at + input.n, room - input.n);
        if (got < 0)
            fail(program, ": the input could not be read\n");
        if (got == 0)
            return input;
        input.n += (size_t)got;
        if (input.n == room) {
            room *= 2;
            input.at = realloc(input.at, room);
        }
    }
}

void write_output(const char *program, const void *bytes, size_t n)
{
    const unsigned char *at = bytes;
    while (n > 0) {
        ssize_t wrote = write(STDOUT_FILENO, at, n);
        if (wrote <= 0)
            fail(program, ": the answer could not be written\n");
        at += wrote;
        n -= (size_t)wrote;
    }
}

/* Whether the count of this refusal is a place in the words. */
static int has_place(uint32_t number)
{
    return (number >= TALUNG_OUT_OF_RANGE && number <= TALUNG_NO_EXPRESSION) || number == TALUNG_DISAGREES;
}

int tell_refusal(uint64_t answer, size_t line)
{
    char text[REFUSAL_TEXT];
    uint32_t number = talung_number(answer);
    int n = snprintf(text, sizeof text, "refused %u", (unsigned)number);
    if (has_place(number))
        n += snprintf(text + n, sizeof text - (size_t)n, " word %u", (unsigned)talung_count(answer));
    if (line > 0)
        n += snprintf(text + n, sizeof text - (size_t)n, " line %zu", line);
    snprintf(text + n, sizeof text - (size_t)n, "\n");
    say(text);
    return 1;
}

int tell_input(void)
{
    say("input\n");
    return 1;
}
