/* The merging of cards as a C program sees it, by its header: answers and merged cards written out, and pointers that
 * are NULL where a length is 0. */
#include <stdio.h>
#include <string.h>

#include "sidumza_merge.h"

/* S -> S 1, S -> 2 */
static const uint16_t a[] = {3, 1, 2, 3, 3, 3, 2, 1, 3, 1, 2};
/* a merged with itself */
static const uint16_t twice[] = {3, 3, 6, 8, 3, 3, 4, 4, 5, 5, 1, 1, 2, 1, 2, 1, 4, 5, 4, 1, 2, 5, 1, 2};
/* S -> 1, with T 2 */
static const uint16_t two[] = {2, 1, 1, 1, 2, 1, 1};
/* S -> 1 and B -> 1, which is not reached */
static const uint16_t useless[] = {3, 2, 2, 2, 3, 4, 1, 1, 1, 1};

enum { ROOM = SIDUMZA_CARD_MOST };

static uint16_t area[ROOM];
static int cases, failed;
/* What is expected wrongly, and so must not be found: a number of the answer from 1 on, 4 the area; 0 nothing. */
static int wrong;

/* The call with an area of so many places, and what must be answered. */
static void call(const char *name, const uint16_t *first, size_t first_len, const uint16_t *second, size_t second_len,
                 size_t room, uint64_t number, uint64_t card, uint64_t value)
{
    void (*merge)(const uint16_t *, size_t, const uint16_t *, size_t, uint16_t *, size_t, uint64_t *) = sidumza_merge;
    uint64_t out[3] = {99, 99, 99};
    size_t written = number == SIDUMZA_MERGED ? value : 0;
    int good;

    memset(area, 0xa5, sizeof area);
    merge(first, first_len, second, second_len, room == 0 ? NULL : area, room, out);
    good = out[0] == number + (wrong == 1) && out[1] == card + (wrong == 2) && out[2] == value + (wrong == 3);
    for (size_t at = 0; at < ROOM; at++)
        good = good && area[at] == (at < written ? twice[at] : 0xa5a5) + (wrong == 4 && at == room);
    cases++;
    if (good != (wrong == 0)) {
        failed++;
        printf("FAILED: %s (%d): %d %d %d\n", name, wrong, (int)out[0], (int)out[1], (int)out[2]);
    }
}

#define NUMBERS(card) card, sizeof card / sizeof card[0]

static void calls(void)
{
    /* sixty nonterminals: each the next, the last one a terminal */
    uint16_t chain[4 + 3 * 60] = {3, 60, 60, 60};
    for (int j = 0; j < 60; j++) {
        chain[4 + j] = (uint16_t)(3 + j);
        chain[64 + j] = 1;
        chain[124 + j] = (uint16_t)(j < 59 ? 4 + j : 1);
    }
    call("merged", NUMBERS(a), NUMBERS(a), 700, SIDUMZA_MERGED, 0, 24);
    call("merged in 24 places", NUMBERS(a), NUMBERS(a), 24, SIDUMZA_MERGED, 0, 24);
    call("23 places", NUMBERS(a), NUMBERS(a), 23, SIDUMZA_MERGED_AREA_SHORT, 0, 0);
    call("no area", NUMBERS(a), NUMBERS(a), 0, SIDUMZA_MERGED_AREA_SHORT, 0, 0);
    call("no first card", NULL, 0, NUMBERS(a), 700, SIDUMZA_CARD_SHORT, SIDUMZA_FIRST_CARD, 0);
    call("no second card", NUMBERS(a), NULL, 0, 700, SIDUMZA_CARD_SHORT, SIDUMZA_SECOND_CARD, 0);
    call("nothing", NULL, 0, NULL, 0, 0, SIDUMZA_CARD_SHORT, SIDUMZA_FIRST_CARD, 0);
    call("other terminals", NUMBERS(a), NUMBERS(two), 700, SIDUMZA_TERMINALS_DIFFER, 0, 0);
    call("the first useless", NUMBERS(useless), NUMBERS(a), 700, SIDUMZA_USELESS, SIDUMZA_FIRST_CARD, 4);
    call("the second useless", NUMBERS(two), NUMBERS(useless), 700, SIDUMZA_USELESS, SIDUMZA_SECOND_CARD, 4);
    call("62 nonterminals", NUMBERS(a), NUMBERS(chain), 700, SIDUMZA_CARD_SIZES, SIDUMZA_MERGED_CARD, 0);
}

int main(void)
{
    for (wrong = 0; wrong <= 4; wrong++)
        calls();
    printf("%d calls with what is right and what is wrong, %d failed\n", cases, failed);
    return failed != 0;
}
