/* Runs the cases of a data table through the generator and the parser.

       cases FILE

   A case begins with `make NAME` or `parse NAME`. Numbers are decimal; K*V
   stands for K times V, a comma for nothing. Lines of a `make` case:

       card NUMBERS
       areas TABLE WORK WORK2      lengths; without it the least ones
       answer NUMBER VALUES        0 for a table, rest 0
       states Q                    of a table: its states,
       entered NUMBERS             the entering symbols of its states,
       row STATE : NUMBERS         a whole row,
       cell STATE COLUMN VALUE     a cell,
       table NUMBERS               all of it

   Header, cleared places and areas that must not change are looked at in every
   case. Lines of a `parse` case:

       made                        the table made last, or
       table NUMBERS
       input NUMBERS
       stack LENGTH, list LENGTH, second LENGTH, limit STEPS
                                   without it the second area is as long as
                                   the stack
       closed WORD                 the choir's call with this word; without it
                                   the publisher's
       answer NUMBERS              number, steps, depth, listed, position,
                                   expected word, expected count; rest 0
       stacked NUMBERS, listed NUMBERS   the first places afterwards; places
                                   behind them are as they were

   The second area is looked at in every case.                               */

#include <errno.h>
#include <stdio.h>
#include <stdlib.h>
#include <string.h>

#include "sidumza.h"
#include "sidumza_generator.h"

enum {
    TABLE = 32260, WORK = 8192, WORK2 = 16384,
    LONGER = 100, FENCE = 16, MANY = 70000, NUMBERS = 51
};

static uint64_t values[MANY];
static size_t count;

static uint16_t card[MANY], table[TABLE + LONGER + FENCE], made[TABLE];
static uint64_t work[WORK + LONGER + FENCE];
static uint32_t work2[WORK2 + LONGER + FENCE];
static uint16_t given[MANY];
static uint8_t input[MANY];
static uint16_t stack[MANY], list[MANY], second[MANY];
static size_t card_len, given_len, input_len, stack_len, list_len, second_len, areas[3];
static uint64_t limit, closed;
static uint64_t out[7];
static int answered, second_given, closed_given;
static char name[300], kind;
static unsigned long makes, parses, failures, line_number;
static unsigned long seen[NUMBERS];

/* Old contents, different from place to place and never 0. */
static uint64_t old(size_t place) {
    return (place * 0x9e3779b97f4a7c15u >> 7) | 1;
}

static void fail(const char *what, uint64_t at) {
    printf("line %lu, %s: %s (%llu)\n", line_number, name, what, (unsigned long long)at);
    failures++;
}

static void malformed(void) {
    fprintf(stderr, "line %lu is malformed\n", line_number);
    exit(2);
}

/* The number at *from, up to 2^64 - 1; steps over it. */
static uint64_t number(const char **from) {
    char *end;
    if (**from < '0' || **from > '9')
        malformed();
    errno = 0;
    uint64_t value = strtoull(*from, &end, 10);
    if (errno)
        malformed();
    *from = end;
    return value;
}

/* The numbers of a line. */
static void numbers(const char *from) {
    count = 0;
    while (*from) {
        if (*from == ' ' || *from == ',' || *from == ':') {
            from++;
            continue;
        }
        uint64_t value = number(&from), times = 1;
        if (*from == '*') {
            from++;
            times = value;
            value = number(&from);
        }
        for (; times > 0; times--) {
            if (count == MANY)
                malformed();
            values[count++] = value;
        }
    }
}

static void numbers16(uint16_t *into, size_t *length) {
    for (size_t i = 0; i < count; i++)
        into[i] = (uint16_t)values[i];
    *length = count;
}

static void begin(char what, const char *title) {
    kind = what;
    snprintf(name, sizeof name, "%.299s", title);
    answered = second_given = closed_given = 0;
    areas[0] = TABLE, areas[1] = WORK, areas[2] = WORK2;
    card_len = input_len = 0;
    stack_len = list_len = 100;
    limit = 1000;
}

static void compare_answer(size_t length) {
    for (size_t i = 0; i < length; i++) {
        uint64_t want = i < count ? values[i] : 0;
        if (out[i] != want) {
            fail("answer differs at place", i);
            printf("    answer");
            for (size_t k = 0; k < length; k++)
                printf(" %llu", (unsigned long long)out[k]);
            printf("\n");
            return;
        }
    }
}

/* The first place of the entering symbols, and of the rows. */
static size_t entered_place(void) {
    return 4 + 2 * (size_t)table[3];
}

static size_t row_place(uint64_t state) {
    return entered_place() + table[0] + (size_t)state * ((size_t)table[1] + table[2]);
}

static size_t table_length(void) {
    return row_place(table[0]);
}

static void run_make(void) {
    for (size_t i = 0; i < TABLE + LONGER + FENCE; i++)
        table[i] = (uint16_t)old(i);
    for (size_t i = 0; i < WORK + LONGER + FENCE; i++)
        work[i] = old(i);
    for (size_t i = 0; i < WORK2 + LONGER + FENCE; i++)
        work2[i] = (uint32_t)old(i);
    for (size_t i = 0; i < 7; i++)
        out[i] = 99;
    sidumza_generate(card, card_len, table, areas[0], work, areas[1], work2, areas[2], out);
    makes++;
    if (out[0] < NUMBERS)
        seen[out[0]]++;
    compare_answer(5);
    int cleared = out[0] == 0 || out[0] > 10;
    size_t end = 0;
    if (out[0] == 0) {
        end = table_length();
        if (end > TABLE || memcmp(table + 1, card, 3 * sizeof *card) != 0 ||
            memcmp(table + 4, card + 4, 2 * (size_t)card[2] * sizeof *card) != 0) {
            fail("header", 0);
            return;
        }
    }
    memcpy(made, table, sizeof made);
    for (size_t i = end; i < TABLE + LONGER + FENCE; i++)
        if (table[i] != (cleared && i < TABLE ? 0 : (uint16_t)old(i))) {
            fail("table area, place", i);
            break;
        }
    for (size_t i = 0; i < WORK + LONGER + FENCE; i++)
        if (work[i] != (cleared && i < WORK ? 0 : old(i))) {
            fail("first work area, place", i);
            break;
        }
    for (size_t i = 0; i < WORK2 + LONGER + FENCE; i++)
        if (work2[i] != (cleared && i < WORK2 ? 0 : (uint32_t)old(i))) {
            fail("second work area, place", i);
            break;
        }
}

/* After an end the second area is zero over its length; else no area is changed. */
static void look_at_areas(void) {
    int refused = out[SIDUMZA_DEPTH] == 0;
    for (size_t i = 0; i < MANY; i++) {
        if (refused && (stack[i] != (uint16_t)old(i) || list[i] != (uint16_t)old(i))) {
            fail("an area changed at place", i);
            return;
        }
        if (second[i] != (!refused && i < second_len ? 0 : (uint16_t)old(i))) {
            fail("second area, place", i);
            return;
        }
    }
}

static void run_parse(void) {
    for (size_t i = 0; i < MANY; i++)
        stack[i] = list[i] = second[i] = (uint16_t)old(i);
    for (size_t i = 0; i < 7; i++)
        out[i] = 99;
    if (!second_given)
        second_len = stack_len;
    if (closed_given)
        sidumza_parse_restricted(given, given_len, input, input_len, closed, stack, stack_len, list, list_len, second,
                                 second_len, limit, out);
    else
        sidumza_parse(given, given_len, input, input_len, stack, stack_len, list, list_len, second, second_len, limit, out);
    parses++;
    if (out[0] < NUMBERS)
        seen[out[0]]++;
    compare_answer(7);
    look_at_areas();
}

/* The area begins with the numbers of the line and is as it was behind them. */
static void compare_area(const char *which, const uint16_t *area) {
    for (size_t i = 0; i < MANY; i++)
        if (area[i] != (i < count ? values[i] : (uint16_t)old(i))) {
            fail(which, i);
            return;
        }
}

static int is(const char *line, const char *word) {
    size_t length = strlen(word);
    return strncmp(line, word, length) == 0 && (line[length] == ' ' || line[length] == 0);
}

static void compare_entered(void) {
    if (count != table[0])
        malformed();
    for (size_t i = 0; i < count; i++)
        if (table[entered_place() + i] != values[i])
            fail("entering symbol of state", i);
}

static void compare_row(void) {
    size_t columns = (size_t)table[1] + table[2];
    if (count != columns + 1)
        malformed();
    const uint16_t *row = table + row_place(values[0]);
    for (size_t i = 0; i < columns; i++)
        if (row[i] != values[i + 1])
            fail("row differs at column", i);
}

static void compare_table(void) {
    if (count != table_length())
        malformed();
    for (size_t i = 0; i < count; i++)
        if (table[i] != values[i])
            fail("table differs at place", i);
}

/* A line of a `make` case behind its answer: what the table must have. */
static void made_line(const char *line) {
    if (is(line, "states") && count == 1) {
        if (table[0] != values[0])
            fail("number of states", table[0]);
    } else if (is(line, "entered")) {
        compare_entered();
    } else if (is(line, "row")) {
        compare_row();
    } else if (is(line, "cell") && count == 3) {
        uint16_t cell = table[row_place(values[0]) + values[1]];
        if (cell != values[2])
            fail("cell", cell);
    } else if (is(line, "table")) {
        compare_table();
    } else {
        malformed();
    }
}

static void make_line(const char *line) {
    if (is(line, "card")) {
        numbers16(card, &card_len);
    } else if (is(line, "areas") && count == 3) {
        for (size_t i = 0; i < 3; i++)
            areas[i] = (size_t)values[i];
        if (areas[0] > TABLE + LONGER || areas[1] > WORK + LONGER || areas[2] > WORK2 + LONGER)
            malformed();
    } else if (answered) {
        made_line(line);
    } else {
        malformed();
    }
}

/* One number for the call. */
static void set_number(const char *line) {
    if (is(line, "stack")) {
        stack_len = (size_t)values[0];
    } else if (is(line, "list")) {
        list_len = (size_t)values[0];
    } else if (is(line, "second")) {
        second_len = (size_t)values[0];
        second_given = 1;
    } else if (is(line, "limit")) {
        limit = values[0];
    } else if (is(line, "closed")) {
        closed = values[0];
        closed_given = 1;
    } else {
        malformed();
    }
}

static void parse_line(const char *line) {
    if (is(line, "table")) {
        numbers16(given, &given_len);
    } else if (is(line, "input")) {
        for (size_t i = 0; i < count; i++)
            input[i] = (uint8_t)values[i];
        input_len = count;
    } else if (answered && is(line, "stacked")) {
        compare_area("stack", stack);
    } else if (answered && is(line, "listed")) {
        compare_area("list", list);
    } else if (count == 1) {
        set_number(line);
    } else {
        malformed();
    }
}

static void read_line(const char *line) {
    const char *rest = strchr(line, ' ');
    if (is(line, "make") || is(line, "parse")) {
        begin(line[0], rest ? rest + 1 : "");
        return;
    }
    if (is(line, "made")) {
        memcpy(given, made, sizeof made);
        given_len = TABLE;
        return;
    }
    numbers(rest ? rest : "");
    if (is(line, "answer")) {
        answered = 1;
        if (kind == 'm')
            run_make();
        else
            run_parse();
    } else if (kind == 'm') {
        make_line(line);
    } else if (kind == 'p') {
        parse_line(line);
    } else {
        malformed();
    }
}

int main(int argc, char **argv) {
    static char line[1 << 16];
    FILE *file = argc == 2 ? fopen(argv[1], "r") : NULL;
    if (!file) {
        fprintf(stderr, "usage: cases FILE\n");
        return 2;
    }
    while (fgets(line, sizeof line, file)) {
        line_number++;
        line[strcspn(line, "\n")] = 0;
        if (line[0] != 0 && line[0] != '#')
            read_line(line);
    }
    fclose(file);
    for (unsigned long number = 0; number < NUMBERS; number++) {
        int wanted = number < 14 || (number > 20 && number < 28) || (number > 30 && number < 36) ||
                     (number > 43 && number < 47) || number == 50;
        if (wanted && seen[number] == 0) {
            printf("answer %lu was not seen\n", number);
            failures++;
        }
    }
    printf("%lu generator cases, %lu parser cases, %lu failures\n", makes, parses, failures);
    return failures != 0;
}
