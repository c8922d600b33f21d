/* Times two readers over the same long sentences of the same grammars, in turn in one process: turns [ROUNDS]
 * For each grammar the least of ROUNDS rounds (200), in ns a terminal, by each of them. turns.sh links them as first_parse
 * and second_parse; the limit fits 32 bits, so either may take it in 32 or in 64 bits. With FIRST_WITHOUT or
 * SECOND_WITHOUT it is one whose call has no second area. */
#include <stdint.h>
#include <stdio.h>
#include <stdlib.h>
#include <time.h>

#include "loop.h"

#include "a.h"
#include "empty.h"
#include "expression.h"
#include "json.h"

/* The sentences need few places, and the second area is zeroed in each call: no more are lent. */
enum { STACK = 1000, LIST = 1000000 };
static uint16_t stack[STACK], second[STACK], list[LIST];

#define WITHOUT(parse) \
    old_parse_fn parse; \
    static void parse##_now(const uint16_t *t, size_t t_len, const uint8_t *in, size_t in_len, uint64_t out[7]) \
    { \
        parse(t, t_len, in, in_len, stack, STACK, list, LIST, UINT32_MAX, out); \
    }
#define WITH(parse) \
    parse_fn parse; \
    static void parse##_now(const uint16_t *t, size_t t_len, const uint8_t *in, size_t in_len, uint64_t out[7]) \
    { \
        parse(t, t_len, in, in_len, stack, STACK, list, LIST, second, STACK, UINT32_MAX, out); \
    }
#ifdef FIRST_WITHOUT
WITHOUT(first_parse)
#else
WITH(first_parse)
#endif
#ifdef SECOND_WITHOUT
WITHOUT(second_parse)
#else
WITH(second_parse)
#endif

static double now(void)
{
    struct timespec s;
    clock_gettime(CLOCK_MONOTONIC, &s);
    return s.tv_sec * 1e9 + s.tv_nsec;
}

static void turns(const char *name, const uint16_t *table, size_t table_len, const uint8_t *input, size_t input_len,
                  int rounds)
{
    double best[2] = {1e18, 1e18};
    uint64_t out[7];
    for (int k = 0; k < 2 * rounds; k++) {
        double s = now();
        (k % 2 ? second_parse_now : first_parse_now)(table, table_len, input, input_len, out);
        double e = (now() - s) / input_len;
        best[k % 2] = e < best[k % 2] ? e : best[k % 2];
        if (out[0] != 0) {
            printf("%s: a sentence is not accepted\n", name);
            exit(1);
        }
    }
    printf("%s %.3f %.3f\n", name, best[0], best[1]);
}

int main(int argc, char **argv)
{
    int rounds = argc > 1 ? atoi(argv[1]) : 200;
#define GRAMMAR(g) turns(#g, g##_table, sizeof g##_table / 2, g##_input, sizeof g##_input, rounds);
    GRAMMAR(a) GRAMMAR(expression) GRAMMAR(json) GRAMMAR(empty)
    return 0;
}
