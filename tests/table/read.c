/* Reads texts from standard input, each behind a line with its length, and prints a line for each: the numbers of its
 * table, the entering symbols of its states and of one more, and the least length of the table that has them; or the fault.
 * The area is so long as READ_AREA says. */
#include <stdio.h>
#include <stdlib.h>

#include "sidumza_table.h"

#ifndef READ_AREA
#define READ_AREA SIDUMZA_TABLE_MOST
#endif

/* The entering symbols of a table, and the least length with which the last of them is not 0, the table's where none is. */
static void entered(const uint16_t *table, size_t n)
{
    size_t states = table[0], least = 0;
    printf(", entered");
    for (size_t q = 0; q <= states; q++)
        printf(" %u", sidumza_entered(table, n, q));
    while (least < n && sidumza_entered(table, least, states - 1) == 0)
        least++;
    printf(" by %zu", least);
}

int main(void)
{
    static uint16_t table[READ_AREA];
    struct sidumza_fault fault;
    unsigned long len;
    while (scanf("%lu", &len) == 1 && getchar() == '\n') {
        /* exactly as long as the text, so that a tool sees a read behind it */
        char *text = malloc(len ? len : 1);
        if (!text || fread(text, 1, len, stdin) != len)
            return 2;
        size_t n = sidumza_read_table(text, len, table, READ_AREA, &fault);
        if (n == 0)
            printf("line %zu, column %zu: %s", fault.line, fault.column, fault.what);
        for (size_t i = 0; i < n; i++)
            printf("%s%u", i ? " " : "", table[i]);
        if (n > 0)
            entered(table, n);
        putchar('\n');
        free(text);
    }
    return ferror(stdin) || fflush(stdout) != 0;
}
