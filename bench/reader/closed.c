/* What closed terminals cost: closed ROUNDS LENGTH..
 *
 * The publisher's call and the choir's, in turn in one process: the least of ROUNDS rounds. An input is the beginning of a
 * long sentence, of so many terminals, by the table of a grammar of this folder with two terminals more, which no production
 * has: for WRONG there is never an action; for CLOSED there is a reduction wherever a row has one, which the publisher's call
 * would make. So both calls do the same steps:
 * - none: with word 0, and a step less than it takes, so that both end in 32 without an expected set;
 * - unmet: the same with CLOSED closed, which the input does not have;
 * - last: in place of the last terminal WRONG for the publisher's call, CLOSED, which is closed, for the choir's; both end in
 *   31 there, with an expected set.
 * Before an input is timed the answers and all areas of both calls are compared.
 *
 * Prints a line for each: grammar, word, terminals, and the ns a terminal of either call. Exit status 0: the calls answer
 * the same; 1: they do not; 2: trouble. */
#include <stdio.h>
#include <stdlib.h>
#include <string.h>
#include <time.h>

#include "sidumza.h"

#include "a.h"
#include "empty.h"
#include "expression.h"
#include "json.h"

enum { MOST = 65535, TABLE = 40000, STACK = 1000, LIST = 1000000 };

struct grammar {
    const char *name;
    const uint16_t *table;
    const uint8_t *sentence;
    size_t sentence_len;
};

static const struct grammar grammars[] = {
#define GRAMMAR(g) {#g, g##_table, g##_input, sizeof g##_input},
    GRAMMAR(a) GRAMMAR(expression) GRAMMAR(json) GRAMMAR(empty)
};

/* Areas and answer of a call. The sentences need few places, and the second area is zeroed in each call: no more are
 * lent. */
static struct call {
    uint16_t stack[STACK], list[LIST], second[STACK];
    uint64_t out[SIDUMZA_OUT];
} calls[2];

static uint16_t table[TABLE];
static size_t table_len;
/* The inputs of the publisher's call and of the choir's. */
static uint8_t inputs[2][MOST];

static double now(void)
{
    struct timespec s;
    clock_gettime(CLOCK_MONOTONIC, &s);
    return s.tv_sec * 1e9 + s.tv_nsec;
}

/* The new terminals, behind the T of a grammar, and their number. */
enum { WRONG, CLOSED, NEW };

/* A reduction of a row of T terminals' cells, 0 where there is none. */
static uint16_t reduction(const uint16_t *row, unsigned T)
{
    for (unsigned x = 0; x < T; x++)
        if (row[x] >= 1024 && row[x] < 4096)
            return row[x];
    return 0;
}

/* Puts the table with the new terminals into `table`; the nonterminals' numbers grow by NEW. */
static void widen(const uint16_t *t)
{
    unsigned Q = t[0], T = t[1], N = t[2], P = t[3];
    uint16_t *to = table;
    memcpy(to, t, 4 * sizeof *t);
    to[1] += NEW;
    to += 4, t += 4;
    for (unsigned r = 0; r < P; r++)
        *to++ = *t++ + NEW;
    for (unsigned r = 0; r < P; r++)
        *to++ = *t++;
    for (unsigned q = 0; q < Q; q++, t++)
        *to++ = *t + (*t < T ? 0 : NEW);
    for (unsigned q = 0; q < Q; q++, t += T + N, to += T + NEW + N) {
        memcpy(to, t, T * sizeof *t);
        to[T + WRONG] = 0;
        to[T + CLOSED] = reduction(t, T);
        memcpy(to + T + NEW, t + T, N * sizeof *t);
    }
    table_len = to - table;
}

static void publishers(struct call *c, size_t n, uint64_t limit)
{
    sidumza_parse(table, table_len, inputs[0], n, c->stack, STACK, c->list, LIST, c->second, STACK, limit, c->out);
}

static void choirs(struct call *c, size_t n, uint64_t closed, uint64_t limit)
{
    sidumza_parse_restricted(table, table_len, inputs[1], n, closed, c->stack, STACK, c->list, LIST, c->second, STACK,
                             limit, c->out);
}

/* Whether both calls answer the same, with this number. */
static int same(size_t n, uint64_t closed, uint64_t limit, uint64_t number)
{
    for (int i = 0; i < 2; i++)
        memset(&calls[i], 7, sizeof *calls);
    publishers(&calls[0], n, limit);
    choirs(&calls[1], n, closed, limit);
    return calls[0].out[SIDUMZA_NUMBER] == number && memcmp(&calls[0], &calls[1], sizeof *calls) == 0;
}

static double least(double a, double b)
{
    return a < b ? a : b;
}

/* Times n terminals of `inputs` and prints the line; ends the program where the calls do not answer the same. */
static void row(const char *name, const char *word, size_t n, uint64_t closed, uint64_t limit, uint64_t number, int rounds)
{
    double best[2] = {1e18, 1e18};
    if (!same(n, closed, limit, number)) {
        fprintf(stderr, "%s, %s, %zu terminals: publisher's answer %d, choir's %d\n", name, word, n,
                (int)calls[0].out[SIDUMZA_NUMBER], (int)calls[1].out[SIDUMZA_NUMBER]);
        exit(1);
    }
    for (int k = 0; k < rounds; k++) {
        double start = now();
        publishers(&calls[0], n, limit);
        double then = now();
        choirs(&calls[1], n, closed, limit);
        best[1] = least(best[1], now() - then);
        best[0] = least(best[0], then - start);
    }
    printf("%s %s %zu %.4f %.4f\n", name, word, n, best[0] / n, best[1] / n);
}

static void rows(const struct grammar *g, size_t n, int rounds)
{
    unsigned T = g->table[1];
    uint64_t closed = (uint64_t)1 << (T + CLOSED);
    widen(g->table);
    for (int i = 0; i < 2; i++)
        memcpy(inputs[i], g->sentence, n);
    publishers(&calls[0], n, UINT64_MAX);
    uint64_t limit = calls[0].out[SIDUMZA_STEPS] - 1;
    row(g->name, "none", n, 0, limit, SIDUMZA_STEP_LIMIT, rounds);
    row(g->name, "unmet", n, closed, limit, SIDUMZA_STEP_LIMIT, rounds);
    inputs[0][n - 1] = T + WRONG;
    inputs[1][n - 1] = T + CLOSED;
    row(g->name, "last", n, closed, UINT64_MAX, SIDUMZA_NO_ACTION, rounds);
}

int main(int argc, char **argv)
{
    int rounds = argc > 2 ? atoi(argv[1]) : 0;
    if (rounds < 1) {
        fputs("closed ROUNDS LENGTH..\n", stderr);
        return 2;
    }
    for (size_t i = 0; i < sizeof grammars / sizeof *grammars; i++)
        for (int k = 2; k < argc; k++) {
            size_t n = strtoul(argv[k], NULL, 10);
            if (n < 2 || n > grammars[i].sentence_len) {
                fprintf(stderr, "no sentence of %s with %s terminals\n", grammars[i].name, argv[k]);
                return 2;
            }
            rows(&grammars[i], n, rounds);
        }
    return 0;
}
