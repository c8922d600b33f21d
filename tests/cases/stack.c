/* How much stack a call of the generator uses: stack FILE..
 * Each card of the files is made on a stack that was painted before; the deepest place that is no longer painted tells.
 * The walk over the nonterminal transitions calls itself once for each of them, 2048 at most. */
#include <pthread.h>
#include <stdio.h>
#include <stdlib.h>
#include <string.h>

#include "sidumza_generator.h"

enum { STACK = 4 << 20, ALLOWED = 640 << 10, PAINT = 0xa5 };

static uint16_t card[1024], table[SIDUMZA_TABLE];
static size_t card_len;
static uint64_t words[SIDUMZA_WORDS], out[5];
static uint32_t halves[SIDUMZA_HALVES];

static void *call(void *unused)
{
    sidumza_generate(card, card_len, table, SIDUMZA_TABLE, words, SIDUMZA_WORDS, halves, SIDUMZA_HALVES, out);
    return unused;
}

static size_t used(unsigned char *stack)
{
    pthread_attr_t attributes;
    pthread_t thread;
    size_t i = 0;
    memset(stack, PAINT, STACK);
    if (pthread_attr_init(&attributes) || pthread_attr_setstack(&attributes, stack, STACK) ||
        pthread_create(&thread, &attributes, call, NULL) || pthread_join(thread, NULL)) {
        puts("no thread");
        exit(2);
    }
    while (stack[i] == PAINT)
        i++;
    return STACK - i;
}

int main(int argc, char **argv)
{
    static char line[1 << 16], name[256], deepest[256];
    void *stack;
    size_t most = 0;
    unsigned cards = 0;
    if (posix_memalign(&stack, 4096, STACK))
        return 2;
    for (int i = 1; i < argc; i++) {
        FILE *f = fopen(argv[i], "r");
        if (!f) {
            perror(argv[i]);
            return 2;
        }
        while (fgets(line, sizeof line, f)) {
            if (sscanf(line, "grammar %255s", name) == 1 || strncmp(line, "card ", 5) != 0)
                continue;
            char *at = line + 5, *end;
            for (card_len = 0; card_len < 1024; card_len++, at = end) {
                card[card_len] = strtoul(at, &end, 10);
                if (end == at)
                    break;
            }
            size_t n = used(stack);
            cards++;
            if (n > most) {
                most = n;
                strcpy(deepest, name);
            }
        }
        fclose(f);
    }
    printf("%u cards, at most %zu bytes of stack (%s)\n", cards, most, deepest);
    return cards == 0 || most > ALLOWED;
}
