/* Reads the words of a description, little-endian, from standard input and writes its typed sheet to standard output. A description that is refused is told
 * on standard error, with the word where it is refused, and nothing is written; so is an odd number of bytes, as 'input'. Exit status: 0 written; 1 refused;
 * 2 the input could not be read or the answer not be written. */
#include "filter.h"
#include "talungbisay.h"

int main(void)
{
    static char text[TALUNG_MOST_TEXT];
    struct bytes input = read_input("text");
    if (input.n % 2 != 0)
        return tell_input();
    /* each word takes the place of its two bytes */
    size_t n = input.n / 2;
    uint16_t *words = (void *)input.at;
    for (size_t i = 0; i < n; i++)
        words[i] = (uint16_t)(input.at[2 * i] + 256 * input.at[2 * i + 1]);
    uint64_t answer = talung_to_text(words, n, text, TALUNG_MOST_TEXT);
    if (talung_number(answer) != TALUNG_OK)
        return tell_refusal(answer, 0);
    write_output("text", text, talung_count(answer));
    return 0;
}
