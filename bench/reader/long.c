/* One input of more than 2^32 steps, under limits on both sides of 2^32 and of what it takes: long [NONTERMINALS]
 *
 * The card: S -> A1 1 2, A1 -> A2 A2, A2 -> A3 A3, .., and the last of n nonterminals (NONTERMINALS, 32) is empty. Each
 * is reduced twice as often as the one before, so the input 1 2 takes 1 + 2 + 4 + .. = 2^n - 1 reductions of them, then
 * the shifts of 1 and 2, the reduction of S and the acceptance: 2^n + 3 steps, 2^n of them listed.
 *
 * Prints seconds and nanoseconds a step. Exit status 0: every answer is the one that follows from these numbers;
 * 1: one is not; 2: trouble. */
#define _GNU_SOURCE
#include <stdio.h>
#include <stdlib.h>
#include <sys/mman.h>
#include <time.h>
#include <unistd.h>

#include "loop.h"
#include "sidumza.h"
#include "sidumza_generator.h"

enum { MOST_NONTERMINALS = 36, STACK = 100, PIECE = 1 << 26 };

static uint16_t table[SIDUMZA_TABLE], stack[STACK], second[STACK], *list;

/* A call and its answer: limit and length of the list; number, steps, depth and listed. */
struct call {
    uint64_t limit, list_len, want[4];
};

static void trouble(const char *what)
{
    perror(what);
    exit(2);
}

static double now(void)
{
    struct timespec s;
    clock_gettime(CLOCK_MONOTONIC, &s);
    return s.tv_sec + s.tv_nsec * 1e-9;
}

/* A list of so many places in PIECE bytes of memory: a file, mapped again and again, one piece behind the other. What is
   listed is lost, as later pieces write over it, but nothing else: the reader writes the list and never reads it. */
static uint16_t *long_list(size_t places)
{
    size_t bytes = (places * sizeof *list + PIECE - 1) / PIECE * PIECE;
    char *area = mmap(NULL, bytes, PROT_NONE, MAP_PRIVATE | MAP_ANONYMOUS | MAP_NORESERVE, -1, 0);
    int file = memfd_create("list", 0);
    if (area == MAP_FAILED || file < 0 || ftruncate(file, PIECE) != 0)
        trouble("long: the list");
    for (size_t at = 0; at < bytes; at += PIECE)
        if (mmap(area + at, PIECE, PROT_READ | PROT_WRITE, MAP_SHARED | MAP_FIXED | MAP_POPULATE, file, 0) == MAP_FAILED)
            trouble("long: a piece of the list");
    return (uint16_t *)area;
}

/* Makes the table of the card above. S is 3, the others are 4, 5, .. */
static void make(unsigned nonterminals)
{
    static uint64_t words[SIDUMZA_WORDS];
    static uint32_t halves[SIDUMZA_HALVES];
    uint16_t card[4 + 4 * (MOST_NONTERMINALS + 1) + 1] = {3, nonterminals + 1, nonterminals + 1, 2 * nonterminals + 1};
    uint16_t *left = card + 4, *length = left + nonterminals + 1, *right = length + nonterminals + 1;
    uint64_t out[5];
    left[0] = 3, length[0] = 3;
    *right++ = 4, *right++ = 1, *right++ = 2;
    for (unsigned i = 1; i <= nonterminals; i++) {
        left[i] = 3 + i, length[i] = i < nonterminals ? 2 : 0;
        for (unsigned k = 0; k < length[i]; k++)
            *right++ = 4 + i;
    }
    sidumza_generate(card, right - card, table, SIDUMZA_TABLE, words, SIDUMZA_WORDS, halves, SIDUMZA_HALVES, out);
    if (out[0] != SIDUMZA_TABLE_MADE) {
        fprintf(stderr, "long: the card is refused with %llu\n", (unsigned long long)out[0]);
        exit(2);
    }
}

/* Makes a call: whether its answer is the right one. */
static int right(const char *who, parse_fn *parse, const struct call *c)
{
    static const char *const what[] = {"number", "steps", "stack", "listed"};
    const uint8_t input[] = {1, 2};
    uint64_t out[SIDUMZA_OUT];
    int good = 1;
    double start = now();
    parse(table, SIDUMZA_TABLE, input, sizeof input, stack, STACK, list, c->list_len, second, STACK, c->limit, out);
    double took = now() - start;
    printf("%-8s %20llu %12llu %6llu %12llu %12llu %8.2f %6.2f\n", who, (unsigned long long)c->limit,
           (unsigned long long)c->list_len, (unsigned long long)out[0], (unsigned long long)out[1],
           (unsigned long long)out[3], took, took * 1e9 / c->want[1]);
    for (int i = 0; i < SIDUMZA_OUT; i++) {
        uint64_t want = i < 4 ? c->want[i] : 0;
        if (out[i] != want) {
            printf("WRONG: %s %llu, not %llu\n", i < 4 ? what[i] : "a place of 31", (unsigned long long)out[i],
                   (unsigned long long)want);
            good = 0;
        }
    }
    fflush(stdout);
    return good;
}

int main(int argc, char **argv)
{
    char *end = "";
    long nonterminals = argc > 1 ? strtol(argv[1], &end, 10) : 32;
    int good = 1;
    if (argc > 2 || *end || nonterminals < 1 || nonterminals > MOST_NONTERMINALS) {
        fprintf(stderr, "long [NONTERMINALS], 1 to %d\n", MOST_NONTERMINALS);
        return 2;
    }
    const uint64_t n = (uint64_t)1 << nonterminals, all = n + 3, wide = ((uint64_t)1 << 32) + 3;
    const struct call enough = {all, n, {SIDUMZA_ACCEPTED, all, 2, n}}, calls[] = {
        {n - 1, n, {SIDUMZA_STEP_LIMIT, n - 1, 2, n - 1}},
        {n, n, {SIDUMZA_STEP_LIMIT, n, 3, n - 1}},
        {n + 1, n, {SIDUMZA_STEP_LIMIT, n + 1, 4, n - 1}},
        {all - 1, n, {SIDUMZA_STEP_LIMIT, all - 1, 2, n}},
        enough,
        {wide > all ? wide : all + 1, n, {SIDUMZA_ACCEPTED, all, 2, n}},
        {UINT64_MAX, n, {SIDUMZA_ACCEPTED, all, 2, n}},
        {UINT64_MAX, n - 1, {SIDUMZA_LIST_FULL, n + 1, 4, n - 1}},
    };
    make(nonterminals);
    list = long_list(n);
    printf("%ld nonterminals: %llu steps\n", nonterminals, (unsigned long long)all);
    printf("%-8s %20s %12s %6s %12s %12s %8s %6s\n", "reader", "limit", "list", "number", "steps", "listed", "seconds", "ns");
    for (size_t i = 0; i < sizeof calls / sizeof *calls; i++)
        good &= right("archive", sidumza_parse, &calls[i]);
    good &= right("tuned C", tuned_parse, &enough);
    puts(good ? "all as computed" : "FAILED");
    return !good;
}
