/* Two grammar cards in one: merges them into a card whose sentences are those of either, or refuses.
 *
 * Link with the archive libmerge_c.a (x86-64 Linux; of the C library it needs at most memset, memcpy
 * and memmove). SIDUMZA_CARD_MOST and the names of the refusals 4 to 10 are those of sidumza_generator.h: only names, so
 * that the archive libgenerator_c.a need not be linked.
 */
#ifndef SIDUMZA_MERGE_H
#define SIDUMZA_MERGE_H

#include "sidumza_generator.h"

#include <stddef.h>
#include <stdint.h>

#ifdef __cplusplus
extern "C" {
#endif

/* The answer's number, out[0]. Places of `out` that an answer does not have are 0. */
enum {
    SIDUMZA_MERGED = 0, /* out[2]: the length of the merged card */

    /* Refusals, tested in the order 4 to 10 of the first card, 4 to 10 of the second, 53, 5 of the merged card, 54.
     * They write nothing but `out`. 4 to 10, SIDUMZA_CARD_SHORT to SIDUMZA_USELESS, are in sidumza_generator.h; with
     * them out[1] says which card is meant, and with 10 out[2] is the nonterminal, in that card's own numbering
     * (sidumza_generate has it in out[1]). */
    SIDUMZA_TERMINALS_DIFFER = 53,  /* the cards differ in T */
    SIDUMZA_MERGED_AREA_SHORT = 54  /* the area is shorter than the merged card */
};

/* Which card is meant, out[1]: with 4 to 10, else it is 0. */
enum {
    SIDUMZA_FIRST_CARD = 1,
    SIDUMZA_SECOND_CARD = 2,
    SIDUMZA_MERGED_CARD = 3 /* with 5 alone: N above 60, P above 128 or L above 512 */
};

/* Merges the cards `first` and `second` into `merged` and writes the answer to `out`.
 *
 * first, first_len   a card in 16-bit numbers, as for sidumza_generate. Its sizes are called T, N1, P1 and L1 here.
 * second, second_len another, with T, N2, P2 and L2; it may be the same one.
 * merged, merged_len the area of the merged card, which has first_len + second_len + 2 numbers; one of
 *                    SIDUMZA_CARD_MOST places is always long enough. Places behind the card never change.
 * out                the answer, three numbers; all are written.
 *
 * The merged card: its sizes are T, N1 + N2 + 1, P1 + P2 + 2 and L1 + L2 + 2. Terminals keep their numbers. T is a new
 * start; a nonterminal x of the first card becomes x + 1, one of the second x + 1 + N1. Production 0 leads from the new
 * start to the first card's, production 1 to the second's; then come those of the first card, r becoming r + 2, then
 * those of the second, r becoming r + 2 + P1. It may be merged again, with a third card.
 *
 * Its sentences are those of either card. sidumza_generate takes it as any other card; 4 to 10 never come for it, but 11,
 * 12 or 13 may, also where a table is made of each card alone:
 * - A sentence of both cards can be derived in two ways, so no table is made of the merged one: 13, if not 11 or 12.
 * - Cards without a common sentence may conflict, too, for example where a reduction is due before the input shows which
 *   card it belongs to.
 * By its table the last production listed of an accepted input is 0 where the input is a sentence of the first card, and
 * 1 where it is one of the second; neither stands elsewhere in the list. The others are that card's, with 2 or 2 + P1
 * added.
 *
 * What to do about a refusal:
 * - 4 to 10 of the first or second card: mend that card, as for sidumza_generate.
 * - 53: write both cards over the same terminals. A terminal may be unused, so the smaller T can be raised; each
 *   nonterminal of that card moves with it. Only T is compared: that a terminal means the same in both is left to you.
 * - 5 of the merged card: the two do not fit into one card. Leave out what can be left out, or keep two tables.
 * - 54: lend first_len + second_len + 2 places, or SIDUMZA_CARD_MOST.
 *
 * Every content of the two cards and every length is answered.
 * To the caller is left:
 * - each pointer is aligned and valid for its length: first and second for reading, merged for reading and
 *   writing, out for writing. A pointer whose length is 0 may be NULL.
 * - neither merged nor out overlaps another of the four; first and second may overlap each other, or be the same.
 * - nobody else writes any of the four during the call.
 * What a call costs: mostly the checks of the two cards, up to some 40 microseconds where it was measured, and under 16 KiB
 * of stack.
 * The function keeps no pointer and has no state of its own: calls from several threads are independent.
 */
void sidumza_merge(const uint16_t *first, size_t first_len, const uint16_t *second, size_t second_len, uint16_t *merged,
                   size_t merged_len, uint64_t out[3]);

#ifdef __cplusplus
}
#endif

#endif
