/* A sample for a production: finds a shortest sentence of a grammar card that uses the production, or refuses.
 *
 * Link with the archive libsample_c.a (x86-64 Linux; of the C library it needs at most memset, memcpy
 * and memmove). The names of the refusals 4 to 10 are those of sidumza_generator.h: only names, so that the
 * archive libgenerator_c.a need not be linked. There is no libsample_c.a yet: the crate that makes it is to come.
 */
#ifndef SIDUMZA_SAMPLE_H
#define SIDUMZA_SAMPLE_H

#include "sidumza_generator.h"

#include <stddef.h>
#include <stdint.h>

#ifdef __cplusplus
extern "C" {
#endif

/* The least length of the area, in bytes; no sample is longer. */
enum { SIDUMZA_SAMPLE = 255 };

/* The answer's number, out[0]. Where an answer has no value out[1] is 0. */
enum {
    SIDUMZA_SAMPLE_MADE = 0, /* out[1]: the length of the sample, 0 to 255 */

    /* Refusals, tested in the order 47, 4 to 10, 48, 49. They write nothing but `out`. 4 to 10, SIDUMZA_CARD_SHORT to
     * SIDUMZA_USELESS, are in sidumza_generator.h; with 10 out[1] is the nonterminal, as it is with sidumza_generate. */
    SIDUMZA_SAMPLE_AREA_SHORT = 47, /* the area has under 255 bytes */
    SIDUMZA_NO_PRODUCTION = 48,     /* the card has no such production: the number is P or more */
    SIDUMZA_SAMPLE_LONG = 49        /* every sentence with a derivation that uses the production is longer than 255 */
};

/* Finds a sample for the production `production` of `card`, leaves it in `area` and writes the answer to `out`.
 *
 * card, card_len     a card in 16-bit numbers, as for sidumza_generate, with the sizes T, N, P and L.
 * production         a production by its number, 0 to P-1, in the order of the card, as it stands in the list of
 *                    sidumza_parse.
 * area, area_len     at least SIDUMZA_SAMPLE bytes. After a sample the first 255 hold it, a byte for each terminal, 1 to
 *                    T-1, without the end marker, and zeros behind it. Bytes behind these 255 never change.
 * out                the answer, two numbers; both are written.
 *
 * The sample is a sentence that has a derivation that uses the production, and no sentence that has one is shorter. The
 * empty sentence may be one: then the answer is SIDUMZA_SAMPLE_MADE with length 0. Where several are equally short any of
 * them may come, from another version of the archive another one: rely on its length and not on which it is.
 *
 * Where sidumza_generate makes a table of the card, each sentence can be derived in one way only: so by that table
 * sidumza_parse, with steps and places enough, accepts the sample, and its list has the production. Where it makes none,
 * with 11, 12 or 13, there are samples, too; if the card is ambiguous a sample may have other derivations, which do not
 * use the production.
 *
 * What to do about a refusal:
 * - 47: lend SIDUMZA_SAMPLE bytes. It is tested first, so with a shorter area nothing is said about the card.
 * - 4 to 10: mend the card, as for sidumza_generate.
 * - 48: productions are counted from 0, so the last one is P-1; P is card[2].
 * - 49: a longer area does not help. A card whose start is nearer to the production may have a sample for it; else give
 *   one of the nonterminals that it needs a shorter production.
 *
 * Every content of the card, every number of a production and every length is answered.
 * To the caller is left:
 * - each pointer is aligned and valid for its length: card for reading, area for reading and writing, out for
 *   writing. A pointer whose length is 0 may be NULL.
 * - neither area nor out overlaps another of the three.
 * - nobody else writes any of the three during the call.
 * What a call costs: @COST@, and @STACK@ of stack.
 * The function keeps no pointer and has no state of its own: calls from several threads are independent.
 */
void sidumza_sample(const uint16_t *card, size_t card_len, uint64_t production, uint8_t *area, size_t area_len,
                    uint64_t out[2]);

#ifdef __cplusplus
}
#endif

#endif
