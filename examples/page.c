/* A page program: parses each line of standard input by the table of a file.
 *
 *   page [--closed TERMINALS] TABLE [STEP_LIMIT [STACK [LIST [SECOND]]]]
 *
 * TABLE is a table as maketable prints it. A line is terminals in decimal; an empty line is the empty
 * input. Each line gets one line of answer. That of a wrong line names the symbols that the terminals before
 * the place were read as, those under which the states on the stack were entered, and the terminals that can follow there.
 *
 * TERMINALS, numbers up to 63 with commas between, are closed: the lines are read as a choir's, in which such a terminal
 * is wrong (the answer begins with `closed` in place of `wrong`) and is never expected. The end marker 0, and what is no
 * terminal of the table, cannot be closed (50): a message, and status 2. Without `--closed` the lines are a publisher's.
 *
 * STEP_LIMIT: up to 18446744073709551615; 1000000 where none is given. STACK, LIST and SECOND, in places: up to 16777216
 * each; 65536, 1000000 and STACK + 1 where none is given. Where no production is empty, 65536 and 65537 places of stack and
 * second area are enough for every line. With no stack (27) and with SECOND shorter than STACK (45) no line is read: a
 * message, and status 2, as for a bad table.
 *
 * So no line makes more than 16842752 steps here: each but the acceptance passes a terminal or takes a place of LIST. The
 * fresh readings that find what can follow have no list: only STEP_LIMIT bounds the time that they take. Where one of them
 * is cut short (32, 33 or 35), the answer has `expected unknown (46)`: allow more steps or a longer second area.
 */
#include <ctype.h>
#include <errno.h>
#include <stdarg.h>
#include <stdio.h>
#include <stdlib.h>
#include <string.h>

#include "sidumza.h"
#include "sidumza_table.h"

static const char *const refusals[] = {
    "table too short", "bad sizes in the table", "bad production in the table", "bad cell in the table",
    "input too long",  "no such terminal",       "no stack area",
};

static const char *refusal(uint64_t number)
{
    return number == SIDUMZA_BAD_ENTERED    ? "bad entering symbol in the table"
           : number == SIDUMZA_SECOND_SHORT ? "second stack area too short"
           : number == SIDUMZA_BAD_CLOSED   ? "bad word of closed terminals"
                                            : refusals[number - SIDUMZA_TABLE_SHORT];
}

static void fail(const char *form, ...)
{
    va_list a;
    va_start(a, form);
    fputs("page: ", stderr);
    vfprintf(stderr, form, a);
    fputc('\n', stderr);
    va_end(a);
    exit(2);
}

static int blank(char c)
{
    return c && strchr(" \t\r\n\f", c) != NULL;
}

static void *room(void *old, size_t n)
{
    void *p = realloc(old, n ? n : 1);
    if (!p)
        fail("out of memory");
    return p;
}

/* Reads a decimal number up to max at *s and steps over it: 1 if there is one. */
static int number(char **s, uint64_t max, uint64_t *v)
{
    char *end;
    if (!isdigit((unsigned char)**s))
        return 0;
    errno = 0;
    unsigned long long value = strtoull(*s, &end, 10);
    if (errno || value > max || (*end && !blank(*end)))
        return 0;
    *v = value;
    *s = end;
    return 1;
}

static void blanks(char **s)
{
    while (blank(**s))
        ++*s;
}

/* Reads the table of a file and returns how many numbers it has. */
static size_t load(const char *path, uint16_t *table, size_t table_len)
{
    struct sidumza_fault fault;
    FILE *f = fopen(path, "rb");
    if (!f)
        fail("%s: %s", path, strerror(errno));
    char *text = NULL;
    size_t len = 0, n;
    do {
        text = room(text, len + 65536);
        n = fread(text + len, 1, 65536, f);
        len += n;
    } while (n > 0);
    if (ferror(f))
        fail("%s: cannot be read", path);
    fclose(f);
    n = sidumza_read_table(text, len, table, table_len, &fault);
    if (n == 0)
        fail("%s: line %zu, column %zu: %s", path, fault.line, fault.column, fault.what);
    free(text);
    return n;
}

/* STEP_LIMIT, STACK, LIST and SECOND. */
enum { LIMIT, STACK, LIST, SECOND, LIMITS };

/* What a page lends to the parser. */
struct page {
    uint64_t limits[LIMITS], closed;
    const char *list_of_closed; /* TERMINALS; NULL for a publisher */
    uint16_t table[SIDUMZA_TABLE_MOST], *stack, *list, *second;
    size_t table_len;
};

static void parse(struct page *p, const uint8_t *input, size_t n, uint64_t step_limit, uint64_t *out)
{
    if (p->list_of_closed)
        sidumza_parse_restricted(p->table, p->table_len, input, n, p->closed, p->stack, p->limits[STACK], p->list,
                                 p->limits[LIST], p->second, p->limits[SECOND], step_limit, out);
    else
        sidumza_parse(p->table, p->table_len, input, n, p->stack, p->limits[STACK], p->list, p->limits[LIST], p->second,
                      p->limits[SECOND], step_limit, out);
}

/* A wrong line: its position, where a closed terminal may stand, what the terminals before it were read as, and what can
 * follow there. */
static void show_wrong(const struct page *p, const uint8_t *input, size_t n, const uint64_t *out)
{
    uint8_t terminals[64];
    size_t many = sidumza_terminals(out[SIDUMZA_EXPECTED], terminals);
    uint64_t at = out[SIDUMZA_POSITION];
    int closed = p->list_of_closed && at < n && (p->closed >> input[at] & 1);
    printf("%s at %llu: steps %llu", closed ? "closed" : "wrong", (unsigned long long)at,
           (unsigned long long)out[SIDUMZA_STEPS]);
    for (uint64_t i = 1; i < out[SIDUMZA_DEPTH]; i++)
        printf("%s %u", i == 1 ? ", after" : "", sidumza_entered(p->table, p->table_len, p->stack[i]));
    printf(", expected");
    for (size_t i = 0; i < many; i++)
        printf(" %u", terminals[i]);
    if (out[SIDUMZA_NUMBER] == SIDUMZA_EXPECTED_UNKNOWN)
        printf(" unknown (46)");
    else if (many == 0)
        printf(" nothing");
}

static void show(const struct page *p, const uint8_t *input, size_t n_input, const uint64_t *out)
{
    uint64_t n = out[SIDUMZA_NUMBER];
    unsigned long long steps = out[SIDUMZA_STEPS];
    if (n == SIDUMZA_ACCEPTED) {
        printf("accepted: steps %llu, productions", steps);
        for (uint64_t i = 0; i < out[SIDUMZA_LISTED]; i++)
            printf(" %u", p->list[i]);
    } else if (n == SIDUMZA_NO_ACTION || n == SIDUMZA_EXPECTED_UNKNOWN) {
        show_wrong(p, input, n_input, out);
    } else if (out[SIDUMZA_DEPTH] == 0) {
        printf("refused %llu: %s", (unsigned long long)n, refusal(n));
    } else {
        printf("stopped %llu: steps %llu, stack %llu, listed %llu", (unsigned long long)n, steps,
               (unsigned long long)out[SIDUMZA_DEPTH], (unsigned long long)out[SIDUMZA_LISTED]);
    }
    putchar('\n');
}

/* The word of closed terminals: a bit for each of them. */
static uint64_t closed_word(const char *list)
{
    uint64_t word = 0;
    const char *s = list;
    do {
        char *end;
        unsigned long m = isdigit((unsigned char)*s) ? strtoul(s, &end, 10) : 64;
        if (m > 63 || (*end && *end != ','))
            fail("--closed %s: not numbers up to 63 with commas between", list);
        word |= (uint64_t)1 << m;
        s = end;
    } while (*s++);
    return word;
}

/* The step limit and the lengths of the areas, where arguments give them. */
static void arguments(int argc, char **argv, uint64_t limits[LIMITS])
{
    static const uint64_t most[LIMITS] = {UINT64_MAX, 1 << 24, 1 << 24, 1 << 24};
    int usable = argc >= 2 && argc <= 2 + LIMITS;
    for (int i = 1; i < argc; i++)
        usable &= strncmp(argv[i], "--", 2) != 0;
    if (!usable)
        fail("usage: page [--closed TERMINALS] TABLE [STEP_LIMIT [STACK [LIST [SECOND]]]]");
    for (int i = 2; i < argc; i++) {
        char *s = argv[i];
        if (!number(&s, most[i - 2], &limits[i - 2]) || *s)
            fail("%s: not a number up to %llu", argv[i], (unsigned long long)most[i - 2]);
    }
    if (argc < 2 + LIMITS)
        limits[SECOND] = limits[STACK] + 1;
}

/* Loads the table and makes the areas; ends the program where one of them is refused. */
static void open_page(struct page *p, const char *path)
{
    uint64_t out[SIDUMZA_OUT];
    p->table_len = load(path, p->table, SIDUMZA_TABLE_MOST);
    p->stack = room(NULL, p->limits[STACK] * sizeof *p->stack);
    p->list = room(NULL, p->limits[LIST] * sizeof *p->list);
    p->second = room(NULL, p->limits[SECOND] * sizeof *p->second);
    parse(p, NULL, 0, 0, out);
    uint64_t n = out[SIDUMZA_NUMBER];
    if (n == SIDUMZA_BAD_CLOSED && p->table[1] == 1)
        fail("--closed %s: refused 50: nothing can be closed", p->list_of_closed);
    if (n == SIDUMZA_BAD_CLOSED)
        fail("--closed %s: refused 50: only 1 to %d can be closed", p->list_of_closed, p->table[1] - 1);
    if (out[SIDUMZA_DEPTH] == 0)
        fail("%s: refused %d: %s",
             n == SIDUMZA_NO_STACK       ? "STACK"
             : n == SIDUMZA_SECOND_SHORT ? "SECOND"
                                         : path,
             (int)n, refusal(n));
}

int main(int argc, char **argv)
{
    static struct page page = {.limits = {1000000, 65536, 1000000}};
    uint64_t out[SIDUMZA_OUT];
    if (argc > 2 && strcmp(argv[1], "--closed") == 0) {
        page.list_of_closed = argv[2];
        page.closed = closed_word(argv[2]);
        argc -= 2, argv += 2;
    }
    arguments(argc, argv, page.limits);
    open_page(&page, argv[1]);

    char *line = NULL;
    uint8_t *input = NULL;
    size_t size = 0;
    ssize_t got;
    for (unsigned long k = 1; (got = getline(&line, &size, stdin)) >= 0; k++) {
        size_t n = 0;
        uint64_t v;
        char *s = line;
        input = room(input, got);
        for (blanks(&s); number(&s, 255, &v); blanks(&s))
            input[n++] = v;
        if (s != line + got)
            fail("line %lu: not a line of terminals", k);
        parse(&page, input, n, page.limits[LIMIT], out);
        show(&page, input, n, out);
    }
    if (ferror(stdin) || fflush(stdout) != 0 || ferror(stdout))
        fail("cannot read or write");
    free(line);
    free(input);
    free(page.stack);
    free(page.list);
    free(page.second);
    return 0;
}
