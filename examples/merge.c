/* Merges two cards: prints a card whose sentences are those of either, for maketable.
 *
 *   merge FIRST SECOND
 *
 * FIRST and SECOND are files with a card each, in the form that maketable reads: at most 772 decimal numbers up to 65535,
 * with blanks and line feeds between. The merged card has the sizes on its first line, the left sides on the second, the
 * lengths on the third and the symbols on the fourth.
 *
 * Status: 0 for a merged card; 1 for a refusal: `refused` and its number, for 10 with the nonterminal, are printed, and
 * standard error says which card is meant and why; 2 for trouble, told on standard error: a file that cannot be read or
 * has another form, a failed write.
 */
#define PROGRAM "merge"
#include "card.h"

#include "sidumza_merge.h"

static void print_line(const uint16_t *numbers, size_t count)
{
    for (size_t i = 0; i < count; i++)
        printf("%s%u", i ? " " : "", numbers[i]);
    putchar('\n');
}

/* A card as maketable reads it. */
static void print_card(const uint16_t *card)
{
    size_t p = card[2], l = card[3];
    print_line(card, 4);
    print_line(card + 4, p);
    print_line(card + 4 + p, p);
    print_line(card + 4 + 2 * p, l);
}

/* Which card a refusal means, and why. */
static void explain_refusal(const uint64_t out[3])
{
    static const char *const cards[] = {"", "first card: ", "second card: ", "merged card: "};
    fprintf(stderr, PROGRAM ": %srefused %d: ", cards[out[1]], (int)out[0]);
    if (out[0] == SIDUMZA_TERMINALS_DIFFER)
        fputs("the cards differ in T\n", stderr);
    else if (out[0] == SIDUMZA_MERGED_AREA_SHORT)
        fputs("area shorter than the merged card\n", stderr);
    else
        say_fault(out[0], out[2]);
}

int main(int argc, char **argv)
{
    uint16_t first[SIDUMZA_CARD_MOST], second[SIDUMZA_CARD_MOST], merged[SIDUMZA_CARD_MOST];
    uint64_t out[3];
    if (argc != 3)
        fail("usage: " PROGRAM " FIRST SECOND");
    size_t first_len = load(argv[1], first);
    size_t second_len = load(argv[2], second);
    sidumza_merge(first, first_len, second, second_len, merged, SIDUMZA_CARD_MOST, out);
    if (out[0] == SIDUMZA_MERGED)
        print_card(merged);
    else
        print_refusal(out[0], out[2]);
    flush_output();
    if (out[0] != SIDUMZA_MERGED)
        explain_refusal(out);
    return out[0] != SIDUMZA_MERGED;
}
