#include "sidumza_table.h"

#include <stdio.h>
#include <string.h>

/* A place in the text, and the word there. */
struct place {
    const char *at, *end;
    size_t line, column;
    const char *word;
    size_t len;
    struct sidumza_fault *fault;
};

static int blank(char c)
{
    return c == ' ' || c == '\t' || c == '\r' || c == '\n';
}

/* Steps over the word there and the blanks behind it, and finds the next word; at the end it is empty. */
static void next(struct place *p)
{
    p->at += p->len;
    p->column += p->len;
    for (; p->at < p->end && blank(*p->at); p->at++) {
        p->column++;
        if (*p->at == '\n') {
            p->line++;
            p->column = 1;
        }
    }
    p->word = p->at;
    p->len = 0;
    while (p->at + p->len < p->end && !blank(p->at[p->len]))
        p->len++;
}

/* Says what was expected at the place. At most 16 bytes of what stands there are shown. */
static int wrong(struct place *p, const char *expected)
{
    char found[20] = "the end";
    if (p->len > 0) {
        size_t n = p->len < 16 ? p->len : 16;
        found[0] = '`';
        for (size_t i = 0; i < n; i++)
            found[i + 1] = p->word[i] > ' ' && p->word[i] < 127 ? p->word[i] : '?';
        found[n + 1] = '`';
        found[n + 2] = 0;
    }
    p->fault->line = p->line;
    p->fault->column = p->column;
    snprintf(p->fault->what, sizeof p->fault->what, "expected %s, found %s", expected, found);
    return 0;
}

/* Takes a fixed word. */
static int word(struct place *p, const char *w)
{
    char quoted[16];
    if (p->len == strlen(w) && memcmp(p->word, w, p->len) == 0) {
        next(p);
        return 1;
    }
    snprintf(quoted, sizeof quoted, "`%s`", w);
    return wrong(p, quoted);
}

/* Takes a number from low to high. */
static int number(struct place *p, const char *what, unsigned low, unsigned high, uint16_t *v)
{
    char range[48];
    unsigned long x = 0;
    size_t i = 0;
    for (; i < p->len && p->word[i] >= '0' && p->word[i] <= '9' && x <= 65535; i++)
        x = 10 * x + (unsigned)(p->word[i] - '0');
    if (p->len > 0 && i == p->len && x >= low && x <= high) {
        *v = (uint16_t)x;
        next(p);
        return 1;
    }
    if (low == high)
        snprintf(range, sizeof range, "%s %u", what, low);
    else
        snprintf(range, sizeof range, "%s, %u to %u", what, low, high);
    return wrong(p, range);
}

static int numbers(struct place *p, const char *what, size_t n, uint16_t **to)
{
    for (; n > 0; n--)
        if (!number(p, what, 0, 65535, (*to)++))
            return 0;
    return 1;
}

size_t sidumza_read_table(const char *text, size_t text_len, uint16_t *table, size_t table_len,
                          struct sidumza_fault *fault)
{
    struct place p = {text, text + text_len, 1, 1, text, 0, fault};
    uint16_t size[4], state, *to = table;
    size_t productions, width, all;
    next(&p);
    if (!word(&p, "table") || !number(&p, "the number of states", 1, 256, &size[0]) ||
        !number(&p, "the number of terminals", 1, 64, &size[1]) ||
        !number(&p, "the number of nonterminals", 1, 60, &size[2]) ||
        !number(&p, "the number of productions", 1, 128, &size[3]))
        return 0;
    productions = size[3];
    width = (size_t)size[1] + size[2];
    all = 4 + 2 * productions + size[0] + size[0] * width;
    if (all > table_len) {
        fault->line = p.line;
        fault->column = p.column;
        snprintf(fault->what, sizeof fault->what, "the table has %lu numbers, the area only %lu", (unsigned long)all,
                 (unsigned long)table_len);
        return 0;
    }
    memcpy(to, size, sizeof size);
    to += 4;
    if (!word(&p, "left") || !numbers(&p, "a left side", productions, &to) || !word(&p, "length") ||
        !numbers(&p, "a length", productions, &to) || !word(&p, "entered") ||
        !numbers(&p, "an entering symbol", size[0], &to))
        return 0;
    for (unsigned q = 0; q < size[0]; q++)
        if (!word(&p, "row") || !number(&p, "state", q, q, &state) || !word(&p, ":") ||
            !numbers(&p, "a cell", width, &to))
            return 0;
    if (p.len > 0) {
        wrong(&p, "the end");
        return 0;
    }
    return all;
}

uint16_t sidumza_entered(const uint16_t *table, size_t table_len, size_t state)
{
    size_t first;
    if (table_len < 4 || state >= table[0])
        return 0;
    first = 4 + 2 * (size_t)table[3];
    return first + table[0] <= table_len ? table[first + state] : 0;
}
