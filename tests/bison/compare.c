/* Compares the stored answers of Bison with those of the generator, cell for cell, and
   the entering symbol of each state with Bison's transitions to it.

       compare FILE..                                                        */

#include <stdio.h>
#include <stdlib.h>
#include <string.h>

#include "sidumza_generator.h"

enum { TABLE = 32260, WORK = 8192, WORK2 = 16384, CARD = 772 };

static uint16_t card[CARD], want[TABLE], table[TABLE];
static uint64_t work[WORK];
static uint32_t work2[WORK2];
static size_t card_len, columns;
static uint64_t answer[5];
static char name[256];
static int open_block;
static unsigned long blocks, tables, failures;

static void fail(const char *what) {
    printf("%s: %s\n", name, what);
    failures++;
}

static void malformed(const char *line) {
    fprintf(stderr, "malformed data behind %s: %s\n", name, line);
    exit(2);
}

/* Reads decimal numbers up to the line's end. */
static size_t numbers(const char *from, uint64_t *into, size_t most) {
    size_t count = 0;
    char *end;
    for (;;) {
        unsigned long long number = strtoull(from, &end, 10);
        if (end == from)
            break;
        if (count == most)
            malformed(from);
        into[count++] = number;
        from = end;
    }
    if (*end != '\n' && *end != 0)
        malformed(end);
    return count;
}

/* The generator's answer for the block read so far. */
static void finish(void) {
    uint64_t out[5] = {99, 99, 99, 99, 99};
    if (!open_block)
        return;
    open_block = 0;
    memset(table, 0xa5, sizeof table);
    memset(work, 0xa5, sizeof work);
    memset(work2, 0xa5, sizeof work2);
    sidumza_generate(card, card_len, table, TABLE, work, WORK, work2, WORK2, out);
    blocks++;
    if (answer[0] == 0)
        tables++;
    if (memcmp(out, answer, sizeof out) != 0) {
        printf("%s: answer %llu %llu %llu %llu %llu, expected %llu %llu %llu %llu %llu\n", name,
               (unsigned long long)out[0], (unsigned long long)out[1], (unsigned long long)out[2],
               (unsigned long long)out[3], (unsigned long long)out[4],
               (unsigned long long)answer[0], (unsigned long long)answer[1],
               (unsigned long long)answer[2], (unsigned long long)answer[3],
               (unsigned long long)answer[4]);
        failures++;
        return;
    }
    if (memcmp(table, want, sizeof table) != 0)
        fail("the table area differs");
    for (size_t i = 0; i < WORK; i++)
        if (work[i] != 0) {
            fail("the first work area is not cleared");
            break;
        }
    for (size_t i = 0; i < WORK2; i++)
        if (work2[i] != 0) {
            fail("the second work area is not cleared");
            break;
        }
}

/* Keeps the symbol of a transition to a state; all transitions to it are on one symbol. */
static void enter(uint16_t *entered, unsigned long state, unsigned long symbol) {
    if (state == 0 || symbol == 0 || (entered[state] != 0 && entered[state] != symbol))
        malformed("a transition to state 0, on the end marker, or on a second symbol");
    entered[state] = (uint16_t)symbol;
}

/* `row STATE : CELLS`, a cell being column:value or first-last:value; a value below the number of
   states is a transition. */
static void row(const char *line) {
    char *at;
    unsigned long state = strtoul(line, &at, 10);
    if (strncmp(at, " :", 2) != 0 || state >= want[0])
        malformed(line);
    uint16_t *entered = want + 4 + 2 * (size_t)want[3];
    uint16_t *cells = entered + want[0] + state * columns;
    for (at += 2; *at == ' '; ) {
        unsigned long first = strtoul(at, &at, 10), last = first;
        if (*at == '-')
            last = strtoul(at + 1, &at, 10);
        if (*at != ':' || last >= columns)
            malformed(at);
        unsigned long value = strtoul(at + 1, &at, 10);
        for (; first <= last; first++) {
            cells[first] = (uint16_t)value;
            if (value < want[0])
                enter(entered, value, first);
        }
    }
    if (*at != '\n')
        malformed(at);
}

static void read_line(const char *line) {
    uint64_t values[CARD];
    if (strncmp(line, "grammar ", 8) == 0) {
        finish();
        snprintf(name, sizeof name, "%.255s", line + 8);
        name[strcspn(name, "\n")] = 0;
        memset(want, 0, sizeof want);
        memset(answer, 0, sizeof answer);
    } else if (strncmp(line, "card ", 5) == 0) {
        card_len = numbers(line + 5, values, CARD);
        for (size_t i = 0; i < card_len; i++)
            card[i] = (uint16_t)values[i];
        columns = (size_t)card[0] + card[1];
    } else if (strncmp(line, "table ", 6) == 0) {
        want[0] = (uint16_t)strtoul(line + 6, NULL, 10);
        memcpy(want + 1, card, 3 * sizeof *card);
        memcpy(want + 4, card + 4, 2 * (size_t)card[2] * sizeof *card);
        open_block = 1;
    } else if (strncmp(line, "row ", 4) == 0) {
        row(line + 4);
    } else if (strncmp(line, "refused ", 8) == 0) {
        numbers(line + 8, answer, 5);
        open_block = 1;
    } else {
        malformed(line);
    }
}

int main(int argc, char **argv) {
    static char line[1 << 16];
    for (int i = 1; i < argc; i++) {
        FILE *file = fopen(argv[i], "r");
        if (!file) {
            perror(argv[i]);
            return 2;
        }
        while (fgets(line, sizeof line, file))
            read_line(line);
        finish();
        fclose(file);
    }
    printf("%lu grammars, %lu tables, %lu failures\n", blocks, tables, failures);
    return failures != 0 || blocks == 0;
}
