/* What it costs to find what can follow: offers ROUNDS LENGTH..
 *
 * Inputs of about so many terminals that end in 31, by the grammars of this folder: a wrong terminal at the end, the
 * input's end as the fault, and one terminal all over as far as it nests; at up to PLACES places each. Times, the least of
 * ROUNDS rounds, in turn:
 * - the archive's reading with its expected set;
 * - the same call with a step less, so that it ends in 32 after all steps but the last: the same reading without a set;
 * - a parser made by Bison with `parse.lac full` and `parse.error detailed` (with BISON).
 * The sets are compared with all that Bison expects (`parse.error custom`).
 *
 * Prints ns a terminal, the means over the places, and the largest ratios over them; at the end the largest ratios of
 * inputs from LONG terminals on, with the goals for them. Those of the grammar apart, where each terminal that can follow
 * has a reduction of its own, are given by themselves. Exit status 0: the sets are the same; 1: one is not; 2: trouble. */
#include <stdio.h>
#include <stdlib.h>
#include <string.h>
#include <time.h>

#include "sidumza.h"

#include "a.h"
#include "apart.h"
#include "empty.h"
#include "expression.h"
#include "json.h"

typedef int bison_fn(const uint8_t *input, size_t n, uint16_t *list, size_t *listed);
typedef uint64_t expected_fn(void);

struct grammar {
    const char *name;
    const uint16_t *table;
    size_t table_len;
    const uint8_t *sentence;
    size_t sentence_len;
    bison_fn *lac, *all;
    expected_fn *expected;
};

#ifdef BISON
bison_fn a_lac_run, a_all_run, apart_lac_run, apart_all_run, empty_lac_run, empty_all_run, expression_lac_run,
    expression_all_run, json_lac_run, json_all_run;
expected_fn a_all_expected, apart_all_expected, empty_all_expected, expression_all_expected, json_all_expected;
#define PARSERS(g) g##_lac_run, g##_all_run, g##_all_expected
#else
#define PARSERS(g) NULL, NULL, NULL
#endif
static const struct grammar grammars[] = {
#define GRAMMAR(g) {#g, g##_table, sizeof g##_table / 2, g##_input, sizeof g##_input, PARSERS(g)},
    GRAMMAR(a) GRAMMAR(expression) GRAMMAR(json) GRAMMAR(empty) GRAMMAR(apart)
};

enum { MOST = 65535, SPARE = 1000, LIST = 1000000, PLACES = 8, NEAR = 300, LONG = 1000 };

static uint16_t stack[MOST + SPARE], second[MOST + SPARE], list[LIST];
static uint8_t input[MOST];
static uint64_t out[SIDUMZA_OUT];

static double now(void)
{
    struct timespec s;
    clock_gettime(CLOCK_MONOTONIC, &s);
    return s.tv_sec * 1e9 + s.tv_nsec;
}

/* Reads the first n terminals of `input`, with areas that are a little longer. */
static void parse(const struct grammar *g, size_t n, uint64_t limit)
{
    sidumza_parse(g->table, g->table_len, input, n, stack, n + SPARE, list, LIST, second, n + SPARE, limit, out);
}

static int wrong_at(const struct grammar *g, size_t n, size_t position)
{
    parse(g, n, UINT64_MAX);
    return out[SIDUMZA_NUMBER] == SIDUMZA_NO_ACTION && out[SIDUMZA_POSITION] == position;
}

enum kind { WRONG, END, NESTED, KINDS };
static const char *const kinds[KINDS] = {"wrong", "end", "nested"};

/* Puts an input of n terminals of a kind into `input`: 1 if there is one. */
static int make(const struct grammar *g, enum kind kind, size_t n)
{
    unsigned terminals = g->table[1];
    if (n == 0 || n > MOST || n > g->sentence_len)
        return 0;
    memcpy(input, g->sentence, n);
    if (kind == END)
        return wrong_at(g, n, n);
    for (unsigned m = 1; m < terminals; m++) {
        if (kind == NESTED)
            memset(input, m, n);
        input[n - 1] = m;
        if (wrong_at(g, n, kind == WRONG ? n - 1 : n) && (kind == WRONG || out[SIDUMZA_DEPTH] > n))
            return 1;
    }
    return 0;
}

/* Sums over the places, and the largest ratios. */
struct times {
    size_t places, terminals, set;
    double with, without, bison, by_without, by_bison;
};

static double least(double a, double b)
{
    return a < b ? a : b;
}

static double most(double a, double b)
{
    return a > b ? a : b;
}

/* Whether Bison expects what the archive does; so also where there is no Bison. */
static int same(const struct grammar *g, size_t n)
{
    size_t listed;
    if (!g->all)
        return 1;
    uint64_t expected = out[SIDUMZA_EXPECTED], productions = out[SIDUMZA_LISTED];
    if (g->all(input, n, list, &listed) == 1 && g->expected() == expected)
        return 1;
    printf("%s, %zu terminals: expected %llx after %llu productions, by Bison %llx\n", g->name, n,
           (unsigned long long)expected, (unsigned long long)productions, (unsigned long long)g->expected());
    return 0;
}

/* Times the input of n terminals: 0 where something is wrong with it. */
static int measure(const struct grammar *g, size_t n, int rounds, struct times *t)
{
    double with = 1e18, without = 1e18, bison = 1e18;
    parse(g, n, UINT64_MAX);
    uint64_t steps = out[SIDUMZA_STEPS];
    size_t listed, set = out[SIDUMZA_EXPECTED_COUNT];
    if (!same(g, n))
        return 0;
    for (int k = 0; k < rounds; k++) {
        double start = now();
        parse(g, n, UINT64_MAX);
        double first = now();
        parse(g, n, steps - 1);
        double then = now();
        if (out[SIDUMZA_NUMBER] != SIDUMZA_STEP_LIMIT || out[SIDUMZA_STEPS] != steps - 1)
            return 0;
        if (g->lac && g->lac(input, n, list, &listed) != 1)
            return 0;
        bison = least(bison, now() - then);
        without = least(without, then - first);
        with = least(with, first - start);
    }
    t->places++, t->terminals += n, t->set += set;
    t->with += with, t->without += without, t->bison += bison;
    t->by_without = most(t->by_without, with / without);
    t->by_bison = most(t->by_bison, with / bison);
    return 1;
}

/* A line of the table: the inputs of a kind, of about n terminals. Ends the program where something is wrong with one. */
static struct times row(const struct grammar *g, enum kind kind, size_t n, int rounds)
{
    struct times t = {0};
    for (size_t less = 0; less < n && less < NEAR && t.places < PLACES; less++) {
        if (kind == NESTED && less > 0)
            break;
        if (make(g, kind, n - less) && !measure(g, n - less, rounds, &t)) {
            printf("%s, %zu terminals: FAILED\n", g->name, n - less);
            exit(1);
        }
    }
    if (t.places == 0)
        return t;
    printf("%-11s %-7s %9zu %6zu %6.1f %9.2f %9.2f %6.2f", g->name, kinds[kind], n, t.places, (double)t.set / t.places,
           t.with / t.terminals, t.without / t.terminals, t.by_without);
    if (g->lac)
        printf(" %9.2f %6.2f", t.bison / t.terminals, t.by_bison);
    puts("");
    fflush(stdout);
    return t;
}

static void summary(const char *what, double without, double bison)
{
    if (without == 0)
        return;
    printf("largest ratios from %d terminals on, %s: %.2f of the reading without a set (goal 2.2)", LONG, what, without);
    if (bison > 0)
        printf(", %.2f of Bison (goal 0.8)", bison);
    puts("");
}

int main(int argc, char **argv)
{
    int rounds = argc > 2 ? atoi(argv[1]) : 0;
    double largest[2][2] = {{0}};
    if (rounds < 1) {
        fputs("offers ROUNDS LENGTH..\n", stderr);
        return 2;
    }
    printf("ns a terminal, least of %d rounds; with: 31 with its set, without: 32 a step before\n", rounds);
    printf("%-11s %-7s %9s %6s %6s %9s %9s %6s %9s %6s\n", "grammar", "fault", "terminals", "places", "set", "with",
           "without", "ratio", "Bison", "ratio");
    for (size_t i = 0; i < sizeof grammars / sizeof *grammars; i++)
        for (enum kind kind = WRONG; kind < KINDS; kind++)
            for (int k = 2; k < argc; k++) {
                size_t n = strtoul(argv[k], NULL, 10);
                struct times t = row(&grammars[i], kind, n, rounds);
                double *l = largest[strcmp(grammars[i].name, "apart") == 0];
                if (n >= LONG) {
                    l[0] = most(l[0], t.by_without);
                    l[1] = most(l[1], grammars[i].lac ? t.by_bison : 0);
                }
            }
    summary("but for apart", largest[0][0], largest[0][1]);
    summary("apart", largest[1][0], largest[1][1]);
    return 0;
}
