/* Tables of the largest sizes: 256 states, 64 terminals, 60 nonterminals, 128 productions. */
#include <stdint.h>

enum { LARGEST = 4 + 2 * 128 + 256 + 256 * 124 };

/* Every cell a shift, a next state or, in column 0, the acceptance; every cell 0; or now 0, now a reduction, now a
   state, as branches are hardest to guess. No short input takes more than two steps. */
enum kind { FULL, BLANK, MIXED };

static inline void largest_table(uint16_t *table, enum kind kind)
{
    uint16_t *entered = table + 4 + 2 * 128, *cell = entered + 256;
    uint64_t chance = 88172645463325252;
    table[0] = 256, table[1] = 64, table[2] = 60, table[3] = 128;
    for (int p = 0; p < 128; p++)
        table[4 + p] = 64, table[4 + 128 + p] = 1;
    for (int q = 0; q < 256; q++)
        entered[q] = q == 0 ? 0 : 1 + (q - 1) % 123;
    for (int q = 0; q < 256; q++)
        for (int x = 0; x < 124; x++) {
            /* two states at least are entered under each symbol but 0 */
            int state = x + 123 * (q % 2);
            chance ^= chance << 13, chance ^= chance >> 7, chance ^= chance << 17;
            int what = kind == FULL ? 1 : kind == BLANK ? 0 : (int)((chance >> 20) % 3);
            *cell++ = what == 0 ? 0 : x == 0 ? 4096 : what == 2 && x < 64 ? 1024 + q % 128 : state;
        }
}
