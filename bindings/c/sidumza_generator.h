/* The table generator: makes the parse table of a grammar card, or refuses the card.
 *
 * Link with the archive libgenerator_c.a (x86-64 Linux; of the C library it needs at most memset, memcpy
 * and memmove). The parser has its own header and archive: sidumza.h, libparser_c.a.
 */
#ifndef SIDUMZA_GENERATOR_H
#define SIDUMZA_GENERATOR_H

#include <stddef.h>
#include <stdint.h>

#ifdef __cplusplus
extern "C" {
#endif

/* A card has at most so many numbers. */
enum { SIDUMZA_CARD_MOST = 772 };

/* The least lengths of the areas. */
enum { SIDUMZA_TABLE = 32260, SIDUMZA_WORDS = 8192, SIDUMZA_HALVES = 16384 };

/* The answer's number, out[0]. Places of `out` that an answer does not have are 0. */
enum {
    SIDUMZA_TABLE_MADE = 0,

    /* Refusals in the order in which they are tested. 1 to 10 change no area. */
    SIDUMZA_TABLE_AREA_SHORT = 1,
    SIDUMZA_WORDS_SHORT = 2,
    SIDUMZA_HALVES_SHORT = 3,
    SIDUMZA_CARD_SHORT = 4,  /* under 4 numbers */
    SIDUMZA_CARD_SIZES = 5,  /* a size outside its limits: T 1 to 64, N 1 to 60, P 1 to 128, L 0 to 512 */
    SIDUMZA_CARD_LENGTH = 6, /* not 4 + 2 * P + L numbers */
    SIDUMZA_LEFT_SIDE = 7,   /* a left side that is no nonterminal */
    SIDUMZA_LENGTHS = 8,     /* lengths of right sides that do not add up to L */
    SIDUMZA_SYMBOL = 9,      /* a symbol of a right side that is 0 or at least T + N */
    SIDUMZA_USELESS = 10,    /* out[1]: the lowest nonterminal that is not reached or derives no terminals */
    SIDUMZA_STATES = 11,     /* more than 256 states */
    SIDUMZA_TRANSITIONS = 12, /* more than 2048 transitions on nonterminals */
    SIDUMZA_CONFLICT = 13    /* out[1] to out[4]: state, terminal and the two lowest cell values that meet */
};

/* Makes the table of `card` in `table` and writes the answer to `out`.
 *
 * card, card_len     16-bit numbers: the sizes T (terminals; 0 is the end marker), N (nonterminals, T to
 *                    T+N-1; T is the start), P (productions), L (symbols of all right sides); P left
 *                    sides; P lengths of right sides; L symbols.
 * table, table_len   the table area. After a table it holds the table (see sidumza.h) and zeros behind it
 *                    over the first 32260 places; after 11 to 13 zeros over these.
 *                    The table has 4 + 2 * P + Q + Q * (T + N) numbers (its first four are Q T N P). sidumza_parse
 *                    ignores what stands behind it, so that table_len may be passed on as it is.
 * words, words_len   a work area, 8192 places; zeros over these after a table and after 11 to 13.
 * halves, halves_len a work area, 16384 places; the same.
 * out                the answer, five numbers; all are written.
 *
 * Places behind the least lengths never change. Every content of the card and every length is answered.
 * To the caller is left:
 * - each pointer is aligned and valid for its length: card for reading, table, words and halves for
 *   reading and writing, out for writing. A pointer whose length is 0 may be NULL.
 * - none of table, words, halves and out overlaps another of the five.
 * - nobody else writes any of the five during the call.
 * - the thread has 640 KiB of stack left: a call can be as deep as there are transitions on nonterminals.
 *   The deepest stored card, with 2048 of them, takes some 540000 bytes (tests/cases/stack.c).
 * What a call costs: most cards take under 3 milliseconds, the slowest known 0.15 to 0.19 seconds (bench/generator: one
 * production of some 250 nullable symbols, where the relation reads is longest). The limits on the card bound it; no card
 * makes it run on.
 * The function keeps no pointer and has no state of its own: calls from several threads are independent.
 */
void sidumza_generate(const uint16_t *card, size_t card_len, uint16_t *table, size_t table_len, uint64_t *words,
                      size_t words_len, uint32_t *halves, size_t halves_len, uint64_t out[5]);

#ifdef __cplusplus
}
#endif

#endif
