/* Reads a table back from the text that the program maketable prints, for sidumza_parse (sidumza.h), and names the
 * symbol under which a state was entered.
 *
 * Compile sidumza_table.c beside your program. It is plain C99, allocates nothing and is no part of the archives: it is
 * tested, not proved, and sidumza_parse checks every table that it is given.
 */
#ifndef SIDUMZA_TABLE_H
#define SIDUMZA_TABLE_H

#include <stddef.h>
#include <stdint.h>

#ifdef __cplusplus
extern "C" {
#endif

/* The most numbers that a table has: 256 states, 64 terminals, 60 nonterminals, 128 productions. */
enum { SIDUMZA_TABLE_MOST = 32260 };

/* Where a text is no table. Lines and columns count from 1, a column for each byte. */
struct sidumza_fault {
    size_t line, column;
    char what[96]; /* as: expected `left`, found `lift` */
};

/* Reads the text of a table into `table` and returns how many numbers it has, or 0 where the text is no table: then
 * `fault` says why, and what stands in `table` is of no use.
 *
 * text, text_len     the whole text, as maketable prints it. Between words and numbers may stand any number of blanks,
 *                    tabs and line ends (also those with a carriage return), and numbers may have leading zeros.
 * table, table_len   the area for the numbers. One of SIDUMZA_TABLE_MOST is always long enough; where it is too short,
 *                    the fault's place is that behind the sizes.
 * fault              must not be NULL. It is written where 0 is returned.
 *
 * Sizes outside their limits are faults here, and so is a text without `entered`, as it was printed before tables had
 * entering symbols. A left side, length, cell or entering symbol with a wrong value is refused by sidumza_parse
 * (23, 24, 44).
 */
size_t sidumza_read_table(const char *text, size_t text_len, uint16_t *table, size_t table_len,
                          struct sidumza_fault *fault);

/* The symbol under which a state of a table is entered: below T a terminal, from T on a nonterminal; 0 for state 0,
 * which nothing enters. Those of the states above state 0 on the stack area after an end, from the bottom up, are the
 * symbols that the input was read as so far. Also 0 where the table has no such state, or ends before its entering
 * symbols do.
 */
uint16_t sidumza_entered(const uint16_t *table, size_t table_len, size_t state);

#ifdef __cplusplus
}
#endif

#endif
