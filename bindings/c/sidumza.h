/* The LR parser: runs a parse table over an input of terminals.
 *
 * Link with the archive libparser_c.a (x86-64 Linux; of the C library it needs at most memset, memcpy
 * and memmove).
 */
#ifndef SIDUMZA_H
#define SIDUMZA_H

#include <stddef.h>
#include <stdint.h>

#ifdef __cplusplus
extern "C" {
#endif

/* The places of `out`. */
enum {
    SIDUMZA_NUMBER,         /* the answer's number, below */
    SIDUMZA_STEPS,          /* shifts, reductions and accepts made */
    SIDUMZA_DEPTH,          /* stack places in use */
    SIDUMZA_LISTED,         /* productions listed */
    SIDUMZA_POSITION,       /* 31 and 46: the position, from 0; at the end it is the input's length */
    SIDUMZA_EXPECTED,       /* 31: a word with a bit for each terminal that can follow and is not closed, bit 0 for the end */
    SIDUMZA_EXPECTED_COUNT, /* 31: how many terminals are expected */
    SIDUMZA_OUT             /* the number of places */
};

/* The answer's number. A place of `out` that an answer does not have is 0: a refusal has the number alone; every end has
 * number, steps, depth and listed. Besides these 31 has position, expected set and its size; 46 has the position, and 0
 * for the expected set and its size. */
enum {
    SIDUMZA_ACCEPTED = 0,

    /* Refusals, tested in the order 21 (under 4 numbers), 22, 21, 23, 24, 44, 25, 26, 27, 45, 50.
     * They change no area, and have no stack place in use (SIDUMZA_DEPTH is 0; every end has one at least). */
    SIDUMZA_TABLE_SHORT = 21,    /* the table has under 4 numbers, or fewer than its sizes say */
    SIDUMZA_BAD_SIZES = 22,      /* a size of the table is 0 or above its limit */
    SIDUMZA_BAD_PRODUCTION = 23, /* a left side that is no nonterminal, or a length above 512 */
    SIDUMZA_BAD_CELL = 24,       /* a cell with a value that its column does not have */
    SIDUMZA_INPUT_LONG = 25,     /* the input is longer than 65535 */
    SIDUMZA_BAD_TERMINAL = 26,   /* an input byte that is 0 or no terminal of the table */
    SIDUMZA_NO_STACK = 27,       /* the stack area is empty */
    SIDUMZA_BAD_ENTERED = 44,    /* an entering symbol that is at least T + N, or not 0 for state 0, or other than the
                                    column of a cell that names the state */
    SIDUMZA_SECOND_SHORT = 45,   /* the second area is shorter than the stack area */
    SIDUMZA_BAD_CLOSED = 50,     /* sidumza_parse_restricted alone: the word has bit 0 or a bit from T on */

    /* Ends, tested in the order 31, 32, 34, 35, 33 before each step. 46 comes in place of 31. */
    SIDUMZA_NO_ACTION = 31,  /* no action for the next terminal: the input is no sentence; or that terminal is closed */
    SIDUMZA_STEP_LIMIT = 32, /* as many steps made as allowed */
    SIDUMZA_STACK_FULL = 33, /* a push with no place left */
    SIDUMZA_LIST_FULL = 34,  /* a reduction with the list full */
    SIDUMZA_BAD_GOTO = 35,   /* a reduction that would pop state 0, or whose next state is 0 */
    SIDUMZA_EXPECTED_UNKNOWN = 46 /* as 31, but what can follow is not known: a fresh reading stopped on 32, 33 or 35 */
};

/* Parses `input` by `table` and writes the answer to `out`.
 *
 * Callers of an older call: see "To callers of .." below.
 *
 * table, table_len   the parse table in 16-bit numbers: the sizes Q (states, 1 to 256),
 *                    T (terminals, 1 to 64), N (nonterminals, 1 to 60), P (productions, 1 to 128);
 *                    P left sides; P lengths; Q entering symbols: the symbol under which each state is
 *                    entered, 0 for state 0; Q rows of T + N cells. In a terminal's column 0 is
 *                    no action, 1 to Q-1 shifts, 1024 + r reduces by production r, and 4096 accepts
 *                    (terminal 0 only); in a nonterminal's column stands the next state, or 0.
 *                    Numbers behind the last row are ignored. A table without entering symbols is not recognised: it
 *                    is read by this form all the same.
 * input, input_len   one byte for each terminal, 1 to T-1; the end marker 0 is not in it.
 * stack, stack_len   the stack area. After an end the first `depth` places hold states, place 0 state 0;
 *                    places used and popped are 0; places never used are unchanged. The symbol under which one of
 *                    these states was entered: sidumza_entered of sidumza_table.h.
 * list, list_len     the list area. After an end the first `listed` places hold the productions
 *                    in the order of the reductions (backwards they are a rightmost derivation);
 *                    the others are unchanged.
 * second, second_len the second stack area, for the fresh readings. After every end it is zero over its whole length,
 *                    also where none was made.
 * step_limit         how many steps may be made, 0 to 2^64 - 1.
 * out                the answer, seven numbers; all are written.
 *
 * What can follow (31): the terminals m for which the input before the position, followed by m, begins a sentence, and 0
 * where that input is a sentence. By a table that is not the maker's: those that a fresh reading shifts, or for 0 accepts.
 * A fresh reading starts anew over the input before the position and m, and is over once it shifts m; for 0 it reads that
 * input alone to its end. It may make step_limit steps, which are not counted, has no list, and uses the second area, all
 * of it. Where one of them stops on 32, 33 or 35 the answer is 46. Stack and list are as after 31. The input is wrong at
 * the position all the same; which terminals can follow is found by a call with more steps and a longer second area,
 * unless the table is at fault (35), which never comes with the maker's.
 *
 * What to lend: there is at most a shift for each terminal, a place of the list for each reduction, and one acceptance.
 * - So input_len + list_len + 1 steps are always enough for the input: with that step limit 32 never comes. The sum always
 *   fits the step limit: lengths of areas in memory are below 2^63 on x86-64. With UINT64_MAX 32 never comes.
 * - They are enough for a fresh reading, too, where it reduces no more often than the list has places.
 * - An input of more than 2^32 steps needs a list of nearly as many places, 8.6 GB; with a shorter one 34 comes.
 * - A stack of input_len + list_len + 1 places is always enough, and one of input_len + 1 where no production is empty
 *   (only a shift and an empty production's reduction push more than they pop).
 * - The second area must be as long as the stack, or longer: else 45. One of input_len + 2 places is enough where no
 *   production is empty, and one of step_limit + 1 places always: no step pushes more than one state. One of
 *   input_len + list_len + 2 places is enough where no fresh reading reduces more often than the list has places.
 * - How many reductions an input takes is the grammar's: 34 tells that the list is too short. By JSON's table (examples/)
 *   an input of 9 terminals takes 10.
 * - The step limit bounds the time of a call: there are T fresh readings at most. The list bounds the time of the reading
 *   itself, but not of the fresh ones. By a table that is not the maker's one of these may have no end but the limit's; by
 *   the maker's each has one, but where empty productions double it may be far away (bench/reader/long.c). So lend a
 *   step limit that you would wait for; UINT64_MAX is for tables that you know.
 * - The second area is zeroed in every call that is not refused, so a long one costs time, too: lend no more than is needed.
 * What a call costs: it checks the whole table first, each time: 0.34 microseconds for the 530 numbers of JSON's table,
 * 1.4 for 256 rows of few cells, 7 to 26 for the largest table, of 32260 numbers (7 where no cell names a state, 21 where
 * all but those of column 0 do, 26 where half of them do by chance); then some 3 nanoseconds a step
 * in short inputs (bench/reader/checks.sh and calls.c), 3.5 to 6.5 in long ones (turns.sh), on an AMD EPYC. For an
 * input of 9 terminals and 20 steps by JSON's table the check is six sevenths of the time. Zeroing the second area takes
 * 0.02 microseconds for 1000 places.
 * What finding what can follow (31, 46) costs: terminals that ask for the same reductions at the position are one way, and
 * all terminals of a way are tried together. By most grammars there is one way, and the call takes little more than the
 * reading itself.
 * - The first way reads again what was read since the last checkpoint. The reader keeps one as it goes, every 512 steps or
 *   so, or as many as the stack is deep where that is more. Where the last one lies behind the last terminal before the
 *   position, as it may where many reductions come before the wrong terminal is found, and for each further way, the whole
 *   input before the position is read again.
 * - Each way makes its reductions apart, all of them, also those that the input has still open: by right recursion
 *   (A -> x A | x) as many as there are terminals before the position.
 * - All these steps take 5 to 14 nanoseconds each (docs/changes/05-true-offers.md, bench/reader/offers.sh). By S -> Ai i,
 *   Ai -> x Ai | x with 42 such i, so 42 ways, an input of 60000 x takes 27 milliseconds, some 200 times its reading.
 *
 * To callers of the call without a second area:
 * - Choose a step limit that you would wait for: the list's length no longer bounds the time of a call. This goes for all
 *   who passed UINT64_MAX or trusted the list, also with the maker's tables: by a card whose empty productions double a
 *   fresh reading may take longer than anyone would wait.
 * - Lend a second area, behind the list, of input_len + 2 places, or as many as the stack has where that is more: so many
 *   are enough where no production is empty (else: "What to lend"). Beside a stack of input_len + 1 places one as long as
 *   the stack may be too short: then an input that is wrong at its end gets 46, without an expected set.
 * - Compile again, with this header, every file that calls it, and link with the archive that belongs to this header. The
 *   name is the same, so the linker does not notice: an object of the old header hands over its step limit as the second
 *   area, an old archive takes second_len for the place of the answer, and either way the program writes to memory that is
 *   not its own. Declarations by hand, also in other languages, must have the two parameters between list_len and
 *   step_limit.
 * - What changes in the answers is SIDUMZA_EXPECTED and its count, and that 46 may come in place of 31. Stack, list and all
 *   other numbers are the same for every input, and so is every end other than 31. What changes besides is the time.
 * - Code that knows a wrong input by 31 must know it by 46, too, without an expected set. A step limit that an input just
 *   uses up may be too small for the fresh readings; where 31 came with step limit 0, 46 comes now.
 *
 * To callers of the call whose step_limit was a uint32_t:
 * - Compile again, with this header, every file that calls it, and link with the archive that belongs to this header.
 *   The name is the same, so the linker does not notice. An object of the old header leaves the upper half of the
 *   parameter's place open, so that its limit may grow by any multiple of 2^32; what is open is mostly 0, so a test
 *   may not show it. The old archive takes the lower half of the limit alone: a call with limit 2^32 that answers 32
 *   with 0 steps has reached the old archive.
 * - Declarations and types of function pointers that are written by hand, also in other languages, must be widened.
 * - Otherwise no source has to be changed where an unsigned number of 32 bits is passed: it means what it meant, with the
 *   same end and the same counts. UINT32_MAX is still that number, and no longer the largest: whoever means no limit
 *   passes UINT64_MAX. What was negative or above UINT32_MAX was taken modulo 2^32, and is now taken modulo 2^64.
 * - A place that keeps out[SIDUMZA_STEPS] in 32 bits must be widened, unless the limits stay below 2^32: no count passes
 *   its limit. (-Wconversion finds such places, -Wall and -Wextra do not.)
 *
 * Every content of the table and the input, and every length, is answered: nothing is asked of them.
 * To the caller is left:
 * - each pointer is aligned and valid for its length: table and input for reading, stack, list and second for
 *   reading and writing, out for writing. A pointer whose length is 0 may be NULL.
 * - none of stack, list, second and out overlaps another of the six; table and input may overlap each other.
 * - nobody else writes any of the six during the call.
 * The function keeps no pointer and has no state of its own: calls from several threads are independent.
 */
void sidumza_parse(const uint16_t *table, size_t table_len, const uint8_t *input, size_t input_len, uint16_t *stack,
                   size_t stack_len, uint16_t *list, size_t list_len, uint16_t *second, size_t second_len,
                   uint64_t step_limit, uint64_t out[7]);

/* As sidumza_parse, for a reader to whom some terminals are closed: the choir's reading, beside the publisher's above.
 *
 * closed             a word with bit m set for each closed terminal m. The end marker is never closed: a word with bit 0 is
 *                    refused (50), and so is one with a bit from T on. With T = 64 bit 0 alone can be at fault.
 * all others         as for sidumza_parse, and with the same duties.
 *
 * What it does: before each step, where the next terminal is closed, the end is 31, ahead of 32 and of all others, so that
 * no reduction is made under a closed terminal; the position is the terminal's. The expected set of 31, here and at any
 * other position, has no closed terminal: no fresh reading is made for one, so none makes 46 of 31. The fresh readings for
 * the others are those of sidumza_parse, and 46 comes where one of them stops on 32, 33 or 35. The set may be empty: then
 * nothing that is open can stand there, nor can the input end there.
 *
 * A closed terminal ended the input where the number is 31 or 46, out[SIDUMZA_POSITION] is less than input_len and
 * closed >> input[out[SIDUMZA_POSITION]] & 1 is 1; whether the grammar would allow it there is not looked at. Make the word
 * of UINT64_C(1) << m, not of 1 << m.
 *
 * Beside sidumza_parse on the same areas and step limit:
 * - With word 0 it answers the same, and leaves the same in every area.
 * - An input without closed terminals ends in the same way. Only the expected set is without the closed terminals, and 31
 *   comes for a 46 that only their fresh readings caused.
 * - Any other input ends at its first closed terminal, with 31 or 46, unless sidumza_parse stops before that: then it ends
 *   there as with sidumza_parse, but for the expected set and 46, as above. It is never accepted.
 * - So by the maker's table, where steps, stack and list suffice, an input is accepted just where it is a sentence without
 *   closed terminals. What can follow are the open terminals with which the input before the position begins a sentence,
 *   and 0 where that input is one. Any sentence counts: it may be that only closed terminals complete it.
 *
 * What to lend and what a call costs: as for sidumza_parse. The first closed terminal is looked for once, before the first
 * step: too little to be told from the reading, some 0.1 nanoseconds a terminal at most, where no terminal of the input lies
 * between the lowest and the highest closed one, else 0.2 to 0.5; and with any word but 0 some 5 to 10 nanoseconds a call
 * (bench/reader/closed.sh).
 */
void sidumza_parse_restricted(const uint16_t *table, size_t table_len, const uint8_t *input, size_t input_len,
                              uint64_t closed, uint16_t *stack, size_t stack_len, uint16_t *list, size_t list_len,
                              uint16_t *second, size_t second_len, uint64_t step_limit, uint64_t out[7]);

/* The lowest terminal of an expected set, 64 where the set is empty. */
uint32_t sidumza_lowest(uint64_t expected);

/* Lists the terminals of an expected set in `out`, ascending, with zeros after them: all 64 places are
 * written. Returns how many there are. */
size_t sidumza_terminals(uint64_t expected, uint8_t out[64]);

#ifdef __cplusplus
}
#endif

#endif
