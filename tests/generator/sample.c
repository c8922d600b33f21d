/* The finding of samples as a C program sees it, by its header: answers and samples written out, and pointers that are
 * NULL where a length is 0. */
#include <stdio.h>
#include <string.h>

#include "sidumza_sample.h"

/* S -> S 1, S -> 2 */
static const uint16_t a[] = {3, 1, 2, 3, 3, 3, 2, 1, 3, 1, 2};
/* S -> 1 B 2, B -> empty, B -> 3 S */
static const uint16_t around[] = {4, 2, 3, 5, 4, 5, 5, 3, 0, 2, 1, 5, 2, 3, 4};
/* S -> B, B -> empty */
static const uint16_t empty[] = {1, 2, 2, 1, 1, 2, 1, 0, 2};
/* S -> 1 and B -> 1, which is not reached */
static const uint16_t useless[] = {3, 2, 2, 2, 3, 4, 1, 1, 1, 1};
/* lengths that do not add up */
static const uint16_t lengths[] = {3, 1, 1, 1, 3, 2, 1};

enum { ROOM = 1000 };

static uint8_t area[ROOM];
static int cases, failed;
/* What is expected wrongly, and so must not be found: a number of the answer from 1 on, 3 the area; 0 nothing. */
static int wrong;

/* The call with an area of so many bytes, and what must be answered; with a sample these terminals. */
static void call(const char *name, const uint16_t *card, size_t card_len, uint64_t production, size_t room,
                 uint64_t number, uint64_t value, const uint8_t *sample)
{
    void (*find)(const uint16_t *, size_t, uint64_t, uint8_t *, size_t, uint64_t *) = sidumza_sample;
    uint64_t out[2] = {99, 99};
    int good;

    memset(area, 0xa5, sizeof area);
    find(card, card_len, production, room == 0 ? NULL : area, room, out);
    good = out[0] == number + (wrong == 1) && out[1] == value + (wrong == 2);
    for (size_t at = 0; at < ROOM; at++) {
        int byte = 0xa5;
        if (number == SIDUMZA_SAMPLE_MADE && at < SIDUMZA_SAMPLE)
            byte = at < value ? sample[at] : 0;
        good = good && area[at] == byte + (wrong == 3 && at == room / 2);
    }
    cases++;
    if (good != (wrong == 0)) {
        failed++;
        printf("FAILED: %s (%d): %d %d\n", name, wrong, (int)out[0], (int)out[1]);
    }
}

#define NUMBERS(card) card, sizeof card / sizeof card[0]
#define SAMPLE(...) sizeof(const uint8_t[]){__VA_ARGS__}, (const uint8_t[]){__VA_ARGS__}

static void samples(void)
{
    call("production 0", NUMBERS(a), 0, ROOM, SIDUMZA_SAMPLE_MADE, SAMPLE(2, 1));
    call("production 1", NUMBERS(a), 1, ROOM, SIDUMZA_SAMPLE_MADE, SAMPLE(2));
    call("in 255 bytes", NUMBERS(a), 0, SIDUMZA_SAMPLE, SIDUMZA_SAMPLE_MADE, SAMPLE(2, 1));
    call("in 256 bytes", NUMBERS(a), 0, SIDUMZA_SAMPLE + 1, SIDUMZA_SAMPLE_MADE, SAMPLE(2, 1));
    call("the start again", NUMBERS(around), 2, ROOM, SIDUMZA_SAMPLE_MADE, SAMPLE(1, 3, 1, 2, 2));
    call("nothing between", NUMBERS(around), 1, ROOM, SIDUMZA_SAMPLE_MADE, SAMPLE(1, 2));
    call("no terminals", NUMBERS(empty), 1, ROOM, SIDUMZA_SAMPLE_MADE, 0, NULL);
}

/* One production of 255 terminals, and of 256. */
static void lengths_of_samples(void)
{
    uint16_t card[6 + 256] = {2, 1, 1, 255, 2, 255};
    uint8_t ones[SIDUMZA_SAMPLE];
    memset(ones, 1, sizeof ones);
    for (int at = 6; at < 6 + 256; at++)
        card[at] = 1;
    call("255 terminals", card, 6 + 255, 0, SIDUMZA_SAMPLE, SIDUMZA_SAMPLE_MADE, 255, ones);
    card[3] = card[5] = 256;
    call("256 terminals", card, 6 + 256, 0, ROOM, SIDUMZA_SAMPLE_LONG, 0, NULL);
    call("256 terminals, no such production", card, 6 + 256, 1, ROOM, SIDUMZA_NO_PRODUCTION, 0, NULL);
}

static void refusals(void)
{
    call("254 bytes", NUMBERS(a), 0, SIDUMZA_SAMPLE - 1, SIDUMZA_SAMPLE_AREA_SHORT, 0, NULL);
    call("no area", NUMBERS(a), 0, 0, SIDUMZA_SAMPLE_AREA_SHORT, 0, NULL);
    call("nothing", NULL, 0, 0, 0, SIDUMZA_SAMPLE_AREA_SHORT, 0, NULL);
    call("no card", NULL, 0, 0, ROOM, SIDUMZA_CARD_SHORT, 0, NULL);
    call("a number too few", a, 10, 0, ROOM, SIDUMZA_CARD_LENGTH, 0, NULL);
    call("lengths", NUMBERS(lengths), 0, ROOM, SIDUMZA_RIGHT_LENGTHS, 0, NULL);
    call("useless", NUMBERS(useless), 0, ROOM, SIDUMZA_USELESS, 4, NULL);
    call("useless, no such production", NUMBERS(useless), 2, ROOM, SIDUMZA_USELESS, 4, NULL);
    call("production 2", NUMBERS(a), 2, ROOM, SIDUMZA_NO_PRODUCTION, 0, NULL);
    call("production 2^16", NUMBERS(a), UINT64_C(1) << 16, ROOM, SIDUMZA_NO_PRODUCTION, 0, NULL);
    call("production 2^32", NUMBERS(a), UINT64_C(1) << 32, ROOM, SIDUMZA_NO_PRODUCTION, 0, NULL);
    call("production 2^64 - 1", NUMBERS(a), UINT64_MAX, ROOM, SIDUMZA_NO_PRODUCTION, 0, NULL);
}

int main(void)
{
    for (wrong = 0; wrong <= 3; wrong++) {
        samples();
        lengths_of_samples();
        refusals();
    }
    printf("%d calls with what is right and what is wrong, %d failed\n", cases, failed);
    return failed != 0;
}
