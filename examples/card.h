/* What the programs over card files share: messages, the reading of a card, refusals by 4 to 10.
 *
 * A program defines PROGRAM, its name, before it includes this. A card file has the form that maketable reads: at most 772
 * decimal numbers up to 65535, with blanks and line feeds between.
 */
#include <errno.h>
#include <stdarg.h>
#include <stdio.h>
#include <stdlib.h>
#include <string.h>

#include "sidumza_generator.h"

static void fail(const char *form, ...)
{
    va_list a;
    va_start(a, form);
    fputs(PROGRAM ": ", stderr);
    vfprintf(stderr, form, a);
    fputc('\n', stderr);
    va_end(a);
    exit(2);
}

/* A card as far as it was read, and the place of the next byte. */
struct scan {
    uint16_t *card;
    size_t count, line, column;
    int inside; /* the last byte was a digit */
};

/* Adds a digit to the number that it belongs to, the last one or a new one; else says why there is no such number. */
static const char *digit(struct scan *s, unsigned d)
{
    if (!s->inside && s->count == SIDUMZA_CARD_MOST)
        return "more than 772 numbers";
    if (!s->inside)
        s->card[s->count++] = 0;
    unsigned long value = 10UL * s->card[s->count - 1] + d;
    if (value > 65535)
        return "a number above 65535";
    s->card[s->count - 1] = (uint16_t)value;
    return NULL;
}

/* Takes a byte of a file. */
static void feed(struct scan *s, const char *path, int c)
{
    char other[64];
    const char *why = NULL;
    int is_digit = c >= '0' && c <= '9';
    if (is_digit) {
        why = digit(s, (unsigned)(c - '0'));
    } else if (c != ' ' && c != '\n') {
        snprintf(other, sizeof other, "byte %d is no digit, blank or line feed", c);
        why = other;
    }
    if (why)
        fail("%s: not a card: line %zu, column %zu: %s", path, s->line, s->column, why);
    s->inside = is_digit;
    s->column++;
    if (c == '\n') {
        s->line++;
        s->column = 1;
    }
}

/* Reads the card of a file and returns how many numbers it has. */
static size_t load(const char *path, uint16_t card[SIDUMZA_CARD_MOST])
{
    struct scan s = {card, 0, 1, 1, 0};
    FILE *f = fopen(path, "rb");
    if (!f)
        fail("%s: %s", path, strerror(errno));
    for (int c; (c = getc(f)) != EOF;)
        feed(&s, path, c);
    if (ferror(f))
        fail("%s: %s", path, strerror(errno));
    fclose(f);
    return s.count;
}

/* A refusal as maketable prints it. */
static void print_refusal(uint64_t number, uint64_t nonterminal)
{
    printf("refused %d", (int)number);
    if (number == SIDUMZA_USELESS)
        printf(" %d", (int)nonterminal);
    putchar('\n');
}

/* Why a card is refused, 4 to 10. */
static void say_fault(uint64_t number, uint64_t nonterminal)
{
    static const char *const words[] = {
        "card under 4 numbers",
        "a size outside its limits",
        "not 4 + 2P + L numbers",
        "a left side that is no nonterminal",
        "lengths that do not add up to L",
        "a symbol that is 0 or at least T + N",
    };
    if (number == SIDUMZA_USELESS)
        fprintf(stderr, "nonterminal %d is not reached or derives no string of terminals\n", (int)nonterminal);
    else
        fprintf(stderr, "%s\n", words[number - SIDUMZA_CARD_SHORT]);
}

/* Sees that all that was printed is written. */
static void flush_output(void)
{
    if (fflush(stdout) != 0 || ferror(stdout))
        fail("write: %s", strerror(errno));
}
