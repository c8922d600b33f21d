/* What a call costs beside its steps: calls TABLE INPUT..
 * The check of the table alone (step limit 0, an input of no terminals), then a whole call with the input, for the table
 * of a file and for one of the largest sizes. The least of 200 rounds. */
#include <stdio.h>
#include <stdlib.h>
#include <time.h>

#include "largest.h"
#include "sidumza.h"
#include "sidumza_table.h"

enum { AREA = 1000 };

static uint16_t table[SIDUMZA_TABLE_MOST], largest[SIDUMZA_TABLE_MOST], stack[AREA], list[AREA],
    second[AREA];
static uint64_t out[SIDUMZA_OUT];

static double now(void)
{
    struct timespec s;
    clock_gettime(CLOCK_MONOTONIC, &s);
    return s.tv_sec * 1e9 + s.tv_nsec;
}

static double call(const uint16_t *t, size_t len, const uint8_t *input, size_t input_len, uint64_t limit)
{
    double least = 1e18;
    for (int round = 0; round < 200; round++) {
        double start = now();
        for (int i = 0; i < 20; i++)
            sidumza_parse(t, len, input, input_len, stack, AREA, list, AREA, second, AREA, limit, out);
        double took = (now() - start) / 20;
        if (took < least)
            least = took;
    }
    return least;
}

int main(int argc, char **argv)
{
    static char text[1 << 20];
    uint8_t input[256];
    struct sidumza_fault fault;
    FILE *f = argc > 2 && argc < 258 ? fopen(argv[1], "rb") : NULL;
    size_t n = f ? fread(text, 1, sizeof text, f) : 0;
    size_t len = sidumza_read_table(text, n, table, SIDUMZA_TABLE_MOST, &fault);
    if (len == 0) {
        printf("calls TABLE INPUT..: line %zu, column %zu: %s\n", fault.line, fault.column, fault.what);
        return 2;
    }
    for (int i = 2; i < argc; i++)
        input[i - 2] = (uint8_t)atoi(argv[i]);
    double check = call(table, len, NULL, 0, 0);
    double whole = call(table, len, input, (size_t)argc - 2, 1000000);
    printf("%s: %zu numbers, check %.0f ns; input of %d terminals: answer %llu, %llu steps, %.0f ns with the check\n", argv[1],
           len, check, argc - 2, (unsigned long long)out[0], (unsigned long long)out[1], whole);
    largest_table(largest, FULL);
    check = call(largest, SIDUMZA_TABLE_MOST, NULL, 0, 0);
    printf("the largest table: %d numbers, answer %llu, check %.0f ns\n", SIDUMZA_TABLE_MOST, (unsigned long long)out[0], check);
    return out[0] != SIDUMZA_STEP_LIMIT;
}
