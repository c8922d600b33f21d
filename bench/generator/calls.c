/* Calls the generator for each card of a file (lines `grammar NAME` and `card NUMBERS`) and prints
   the name, the answer, the number of states and the least time of a call in nanoseconds.

       calls ROUNDS FILE

   A card gets fewer rounds when they take longer than half a second. Under callgrind with
   --toggle-collect=sidumza_generate it is called once, and its instructions are dumped under its name. */
#include <stdio.h>
#include <stdlib.h>
#include <string.h>
#include <time.h>
#include <valgrind/callgrind.h>

#include "sidumza_generator.h"

enum { TABLE = SIDUMZA_TABLE, WORK = SIDUMZA_WORDS, WORK2 = SIDUMZA_HALVES, CARD = 772 };
static uint16_t card[CARD], table[TABLE];
static uint64_t work[WORK], out[5];
static uint32_t work2[WORK2];
static size_t card_len;

static double now(void)
{
    struct timespec s;
    clock_gettime(CLOCK_MONOTONIC, &s);
    return s.tv_sec * 1e9 + s.tv_nsec;
}

static double least(int rounds)
{
    double best = 1e18, begun = now();
    for (int k = 0; k < rounds && now() - begun < 5e8; k++) {
        double s = now();
        sidumza_generate(card, card_len, table, TABLE, work, WORK, work2, WORK2, out);
        double e = now() - s;
        best = e < best ? e : best;
    }
    return best;
}

int main(int argc, char **argv)
{
    static char line[1 << 16], name[256];
    FILE *file = argc == 3 ? fopen(argv[2], "r") : NULL;
    if (!file) {
        fprintf(stderr, "calls ROUNDS FILE\n");
        return 2;
    }
    int rounds = RUNNING_ON_VALGRIND ? 1 : atoi(argv[1]);
    while (fgets(line, sizeof line, file)) {
        if (sscanf(line, "grammar %255s", name) == 1 || strncmp(line, "card ", 5) != 0)
            continue;
        char *at = line + 5, *end;
        for (card_len = 0; card_len < CARD; card_len++, at = end) {
            card[card_len] = (uint16_t)strtoul(at, &end, 10);
            if (end == at)
                break;
        }
        double ns = least(rounds);
        CALLGRIND_DUMP_STATS_AT(name);
        printf("%s %llu %llu %llu %llu %llu %u %.0f\n", name, (unsigned long long)out[0], (unsigned long long)out[1],
               (unsigned long long)out[2], (unsigned long long)out[3], (unsigned long long)out[4], table[0], ns);
    }
    fclose(file);
    return 0;
}
