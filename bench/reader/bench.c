/* Times the archive, a Bison-made parser and two C loops over the same long sentences of the same
   grammars, in one process: the least of ROUNDS rounds (200), the contestants in turn in each round. */
#include <stdio.h>
#include <stdlib.h>
#include <string.h>
#include <time.h>

#include "largest.h"
#include "loop.h"
#include "sidumza.h"

#include "a.h"
#include "empty.h"
#include "expression.h"
#include "json.h"

typedef int bison_fn(const uint8_t *input, size_t n, uint16_t *list, size_t *listed);
bison_fn a_run, expression_run, json_run, empty_run;

static struct grammar {
    const char *name;
    const uint16_t *table;
    size_t table_len;
    const uint8_t *input;
    size_t input_len;
    bison_fn *bison;
} grammars[] = {
#define GRAMMAR(g) {#g, g##_table, sizeof g##_table / 2, g##_input, sizeof g##_input, g##_run},
    GRAMMAR(a) GRAMMAR(expression) GRAMMAR(json) GRAMMAR(empty)
};

enum { BISON, ARCHIVE, PLAIN, TUNED, ALL };
static const char *const names[ALL] = {"Bison", "archive", "plain C", "tuned C"};
static parse_fn *const readers[ALL] = {NULL, sidumza_parse, plain_parse, tuned_parse};

/* The sentences need few places, and the second area is zeroed in each call: no more are lent. */
enum { STACK = 1000, LIST = 1000000 };
static uint16_t stack[STACK], second[STACK], list[ALL][LIST];
static uint64_t out[7];

static double now(void)
{
    struct timespec s;
    clock_gettime(CLOCK_MONOTONIC, &s);
    return s.tv_sec * 1e9 + s.tv_nsec;
}

static size_t run(int who, const struct grammar *g)
{
    size_t listed;
    if (who == BISON) {
        out[0] = g->bison(g->input, g->input_len, list[who], &listed);
    } else {
        readers[who](g->table, g->table_len, g->input, g->input_len, stack, STACK, list[who], LIST, second, STACK,
                     UINT64_MAX, out);
        listed = out[3];
    }
    if (out[0] != 0) {
        printf("%s does not accept its sentence of %s\n", names[who], g->name);
        exit(1);
    }
    return listed;
}

/* ns for a parse of the empty input: little but the check of the table. */
static double check(int who, const uint16_t *table, size_t len, int rounds)
{
    double best = 1e18;
    for (int k = 0; k < rounds; k++) {
        double s = now();
        for (int i = 0; i < 16; i++)
            readers[who](table, len, NULL, 0, stack, STACK, list[who], LIST, second, STACK, 1, out);
        double e = (now() - s) / 16;
        best = e < best ? e : best;
    }
    return best;
}

int main(void)
{
    const char *r = getenv("ROUNDS");
    int rounds = r ? atoi(r) : 200;
    printf("ns per terminal, least of %d rounds; C by gcc -O2\n%-12s %10s %10s", rounds, "grammar", "terminals", "steps");
    for (int who = 0; who < ALL; who++)
        printf(" %9s", names[who]);
    printf("  archive/Bison archive/plain archive/tuned\n");
    for (size_t i = 0; i < sizeof grammars / sizeof *grammars; i++) {
        const struct grammar *g = &grammars[i];
        double best[ALL];
        size_t listed[ALL];
        for (int who = 0; who < ALL; who++)
            best[who] = 1e18;
        for (int k = 0; k < rounds; k++)
            for (int who = 0; who < ALL; who++) {
                double s = now();
                listed[who] = run(who, g);
                double e = (now() - s) / g->input_len;
                best[who] = e < best[who] ? e : best[who];
            }
        for (int who = 1; who < ALL; who++)
            if (listed[who] != listed[0] || memcmp(list[who], list[0], 2 * listed[0]) != 0) {
                printf("%s lists other productions than Bison for %s\n", names[who], g->name);
                return 1;
            }
        printf("%-12s %10zu %10llu", g->name, g->input_len, (unsigned long long)out[1]);
        for (int who = 0; who < ALL; who++)
            printf(" %9.2f", best[who]);
        printf("  %13.2f %13.2f %13.2f\n", best[ARCHIVE] / best[BISON], best[ARCHIVE] / best[PLAIN],
               best[ARCHIVE] / best[TUNED]);
    }

    static uint16_t large[LARGEST];
    largest_table(large, FULL);
    printf("\nns per table cell, a parse of the empty input\n%-12s %10s %9s %9s  archive/plain\n", "table", "cells",
           names[ARCHIVE], names[PLAIN]);
    for (size_t i = 0; i <= sizeof grammars / sizeof *grammars; i++) {
        int last = i == sizeof grammars / sizeof *grammars;
        const uint16_t *t = last ? large : grammars[i].table;
        size_t len = last ? LARGEST : grammars[i].table_len, cells = len - 4 - 2 * t[3] - t[0];
        double archive = check(ARCHIVE, t, len, rounds) / cells, plain = check(PLAIN, t, len, rounds) / cells;
        if (out[SIDUMZA_DEPTH] == 0) {
            printf("a table is refused with %llu\n", (unsigned long long)out[0]);
            return 1;
        }
        printf("%-12s %10zu %9.3f %9.3f  %13.2f\n", last ? "largest" : grammars[i].name, cells, archive, plain,
               archive / plain);
    }
    return 0;
}
