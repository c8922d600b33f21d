/* What a call with a short input costs, which is mostly the check of the table: checks TABLE..
 * For each table of a file as maketable prints it, then for one of 256 rows of few cells and for three of the largest
 * sizes: name, numbers, cells, and the least nanoseconds of a call with no terminal and of one with one terminal.
 * The archive may be one whose tables have no entering symbols: then they are taken out of each table first. With
 * WITHOUT_SECOND it is one whose call has no second area. */
#include <stdio.h>
#include <stdlib.h>
#include <string.h>
#include <time.h>

#include "largest.h"
#include "loop.h"
#include "sidumza.h"
#include "sidumza_table.h"

enum { ROUNDS = 200, CALLS = 20, AREA = 1000 };

static uint16_t table[SIDUMZA_TABLE_MOST], stack[AREA], list[AREA];
static uint64_t out[SIDUMZA_OUT];

#ifdef WITHOUT_SECOND
old_parse_fn old_parse __asm__("sidumza_parse");
#else
static uint16_t second[AREA];
#endif

static double now(void)
{
    struct timespec s;
    clock_gettime(CLOCK_MONOTONIC, &s);
    return s.tv_sec * 1e9 + s.tv_nsec;
}

static uint64_t parse(const uint16_t *t, size_t len, const uint8_t *input, size_t input_len)
{
#ifdef WITHOUT_SECOND
    old_parse(t, len, input, input_len, stack, AREA, list, AREA, AREA, out);
#else
    sidumza_parse(t, len, input, input_len, stack, AREA, list, AREA, second, AREA, AREA, out);
#endif
    return out[SIDUMZA_NUMBER];
}

static double least(size_t len, const uint8_t *input, size_t input_len)
{
    double best = 1e18;
    for (int round = 0; round < ROUNDS; round++) {
        double start = now();
        for (int i = 0; i < CALLS; i++)
            parse(table, len, input, input_len);
        double took = (now() - start) / CALLS;
        best = took < best ? took : best;
    }
    return best;
}

/* Takes the entering symbols out of a table; its length then. */
static size_t without(uint16_t *t, size_t len)
{
    size_t first = 4 + 2 * (size_t)t[3], states = t[0];
    memmove(t + first, t + first + states, (len - first - states) * sizeof *t);
    return len - states;
}

/* Whether the archive reads A's table so: two productions for the input 2 1. */
static int reads(const uint16_t *a, size_t len)
{
    const uint8_t input[] = {2, 1};
    return parse(a, len, input, 2) == SIDUMZA_ACCEPTED && out[SIDUMZA_LISTED] == 2;
}

/* Whether the tables of the archive have entering symbols. */
static int has_entered(void)
{
    uint16_t a[] = {4, 3, 1, 2, 3, 3, 2, 1, 0, 2, 3, 1, 0, 0, 1, 2, 1025, 1025, 0, 0, 4096, 3, 0, 0, 1024, 1024, 0, 0};
    size_t len = sizeof a / sizeof *a;
    if (reads(a, len))
        return 1;
    if (reads(a, without(a, len)))
        return 0;
    puts("the archive takes neither form of a table");
    exit(2);
}

/* Measures what stands in `table` now. */
static void measure(const char *name, size_t len, int entered)
{
    const uint8_t first[] = {1};
    size_t cells = (size_t)table[0] * ((size_t)table[1] + table[2]);
    if (!entered)
        len = without(table, len);
    double none = least(len, NULL, 0), one = least(len, first, 1);
    if (out[SIDUMZA_DEPTH] == 0) {
        printf("%s is refused with %llu\n", name, (unsigned long long)out[0]);
        exit(2);
    }
    printf("%s %zu %zu %.1f %.1f\n", name, len, cells, none, one);
}

static size_t load(const char *path)
{
    static char text[1 << 20];
    struct sidumza_fault fault;
    FILE *f = fopen(path, "rb");
    size_t n = f ? fread(text, 1, sizeof text, f) : 0;
    size_t len = sidumza_read_table(text, n, table, SIDUMZA_TABLE_MOST, &fault);
    if (f)
        fclose(f);
    if (len == 0) {
        printf("%s: line %zu, column %zu: %s\n", path, fault.line, fault.column, fault.what);
        exit(2);
    }
    return len;
}

/* The table of one production of 254 terminals. */
static size_t narrow(void)
{
    static const uint16_t sizes[] = {256, 2, 1, 1, 2, 254};
    uint16_t *entered = table + 6, *cells = entered + 256;
    memcpy(table, sizes, sizeof sizes);
    memset(cells, 0, 256 * 3 * sizeof *cells);
    for (int q = 0; q < 256; q++)
        entered[q] = q == 0 ? 0 : q == 2 ? 2 : 1;
    for (int q = 3; q < 255; q++)
        cells[3 * q + 1] = (uint16_t)(q + 1);
    cells[1] = 1, cells[2] = 2, cells[3 + 1] = 3, cells[2 * 3] = 4096, cells[255 * 3] = 1024;
    return 6 + 256 + 256 * 3;
}

int main(int argc, char **argv)
{
    static const char *const names[] = {"largest,full", "largest,blank", "largest,mixed"};
    int entered = has_entered();
    if (argc < 2) {
        puts("checks TABLE..");
        return 2;
    }
    for (int i = 1; i < argc; i++) {
        const char *slash = strrchr(argv[i], '/');
        measure(slash ? slash + 1 : argv[i], load(argv[i]), entered);
    }
    measure("256-rows-of-3", narrow(), entered);
    for (enum kind kind = FULL; kind <= MIXED; kind++) {
        largest_table(table, kind);
        measure(names[kind], LARGEST, entered);
    }
    return 0;
}
