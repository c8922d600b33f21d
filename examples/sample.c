/* Samples for teachers: prints a shortest sentence that uses a production, for one production of a card or for each.
 *
 *   sample CARD [PRODUCTION]
 *
 * CARD is a file with a card in the form that maketable reads: at most 772 decimal numbers up to 65535, with blanks and
 * line feeds between. PRODUCTION is a production by its number, counted from 0, up to 18446744073709551615. It gets one
 * line; where none is named each production of the card gets one, in their order. With a sample it is
 *
 *   production 0: length 2: 2 1
 *
 * with the sample's length and its terminals, of which there may be none; else
 *
 *   production 5: refused 48: no such production
 *   production 1: refused 49: no sentence of up to 255 terminals uses the production
 *
 * Which of several equally short samples is printed is open.
 *
 * Status: 0 where each line has a sample; 1 for a refusal, of a production or of the card: then `refused` and its number,
 * for 10 with the nonterminal, are all that is printed, and standard error says why; 2 for trouble, told on standard error:
 * a file that cannot be read or has another form, a PRODUCTION that is no such number, a failed write.
 */
#define PROGRAM "sample"
#include "card.h"

#include "sidumza_sample.h"

/* The production that an argument names. */
static uint64_t production_of(const char *word)
{
    char *end;
    errno = 0;
    uint64_t number = strtoull(word, &end, 10);
    if (word[0] < '0' || word[0] > '9' || errno || *end)
        fail("%s: not a number up to 18446744073709551615", word);
    return number;
}

/* The end for a card that is refused, 4 to 10. */
static void refuse(const uint64_t out[2])
{
    print_refusal(out[0], out[1]);
    flush_output();
    fprintf(stderr, PROGRAM ": refused %d: ", (int)out[0]);
    say_fault(out[0], out[1]);
    exit(1);
}

/* Prints the line of a production; returns 1 where it has no sample, else 0. */
static int show(const uint16_t *card, size_t card_len, uint64_t production)
{
    uint8_t sample[SIDUMZA_SAMPLE];
    uint64_t out[2];
    sidumza_sample(card, card_len, production, sample, SIDUMZA_SAMPLE, out);
    if (out[0] >= SIDUMZA_CARD_SHORT && out[0] <= SIDUMZA_USELESS)
        refuse(out);
    printf("production %llu: ", (unsigned long long)production);
    if (out[0] == SIDUMZA_NO_PRODUCTION) {
        puts("refused 48: no such production");
    } else if (out[0] == SIDUMZA_SAMPLE_LONG) {
        puts("refused 49: no sentence of up to 255 terminals uses the production");
    } else {
        printf("length %d:", (int)out[1]);
        for (uint64_t i = 0; i < out[1]; i++)
            printf(" %u", sample[i]);
        putchar('\n');
    }
    return out[0] != SIDUMZA_SAMPLE_MADE;
}

int main(int argc, char **argv)
{
    uint16_t card[SIDUMZA_CARD_MOST];
    if (argc != 2 && argc != 3)
        fail("usage: " PROGRAM " CARD [PRODUCTION]");
    uint64_t production = argc == 3 ? production_of(argv[2]) : 0;
    size_t card_len = load(argv[1], card);
    int status = show(card, card_len, production); /* ends where the card is refused; so below card[2] is P */
    if (argc == 2)
        for (unsigned r = 1; r < card[2]; r++)
            status |= show(card, card_len, r);
    flush_output();
    return status;
}
