/* Two C readers with the duties of sidumza_parse: the checks in order, limits, popped places zeroed,
   counts, and behind 31 a fresh reading for each terminal. No index is tested that the checks have settled. */
#include <string.h>

#include "loop.h"

static unsigned check(const uint16_t *t, size_t t_len, const uint8_t *in, size_t in_len, size_t stack_len, size_t second_len)
{
    if (t_len < 4)
        return 21;
    unsigned Q = t[0], T = t[1], N = t[2], P = t[3], W = T + N;
    if (Q < 1 || Q > 256 || T < 1 || T > 64 || N < 1 || N > 60 || P < 1 || P > 128)
        return 22;
    if (t_len < 4 + 2 * P + Q + Q * W)
        return 21;
    for (unsigned r = 0; r < P; r++)
        if (t[4 + r] < T || t[4 + r] >= W || t[4 + P + r] > 512)
            return 23;
    const uint16_t *entered = t + 4 + 2 * P, *row = entered + Q;
    unsigned other = entered[0] != 0;
    for (unsigned q = 0; q < Q; q++, row += W) {
        other |= entered[q] >= W;
        if (row[0] != 0 && row[0] != 4096 && row[0] - 1024u >= P)
            return 24;
        for (unsigned x = 1; x < T; x++) {
            if (row[x] >= Q && row[x] - 1024u >= P)
                return 24;
            other |= row[x] != 0 && row[x] < Q && entered[row[x]] != x;
        }
        for (unsigned x = T; x < W; x++) {
            if (row[x] >= Q)
                return 24;
            other |= row[x] != 0 && entered[row[x]] != x;
        }
    }
    if (other)
        return 44;
    if (in_len > 65535)
        return 25;
    for (size_t i = 0; i < in_len; i++)
        if (in[i] == 0 || in[i] >= T)
            return 26;
    return stack_len == 0 ? 27 : second_len < stack_len ? 45 : 0;
}

/* A reduction in a fresh reading: 0, or the end before it. */
static unsigned reduce(const uint16_t *t, const uint16_t *cells, unsigned r, uint16_t *second, size_t second_len,
                       size_t *depth)
{
    size_t n = t[4 + t[3] + r], d = *depth - n;
    if (n >= *depth)
        return 35;
    unsigned q = cells[second[d - 1] * (t[1] + t[2]) + t[4 + r]];
    if (q == 0)
        return 35;
    if (d == second_len)
        return 33;
    second[d] = q;
    *depth = d + 1;
    return 0;
}

/* A fresh reading over the first terminals of the input and m: 0 once that is shifted or, as end marker, accepted; else
   the end. */
static unsigned fresh(const uint16_t *t, const uint8_t *in, size_t before, unsigned m, uint16_t *second,
                      size_t second_len, uint64_t limit)
{
    const uint16_t *cells = t + 4 + 2 * t[3] + t[0];
    size_t depth = 1, pos = 0;
    second[0] = 0;
    for (uint64_t steps = 0;; steps++) {
        unsigned a = cells[second[depth - 1] * (t[1] + t[2]) + (pos < before ? in[pos] : m)];
        if (a == 0)
            return 31;
        if (steps == limit)
            return 32;
        if (a == 4096)
            return 0;
        if (a < 1024) {
            if (depth == second_len)
                return 33;
            second[depth++] = a;
            if (pos++ == before)
                return 0;
        } else {
            unsigned end = reduce(t, cells, a - 1024, second, second_len, &depth);
            if (end)
                return end;
        }
    }
}

/* Where a reading ended. */
struct spot {
    uint64_t steps;
    size_t depth, listed, pos;
};

static void answer(const uint16_t *t, const uint8_t *in, unsigned end, const struct spot *s, uint16_t *second,
                   size_t second_len, uint64_t limit, uint64_t out[7])
{
    out[0] = end, out[1] = s->steps, out[2] = s->depth, out[3] = s->listed;
    if (end == 31)
        out[4] = s->pos;
    for (unsigned m = 0; m < t[1] && out[0] == 31; m++) {
        unsigned found = fresh(t, in, s->pos, m, second, second_len, limit);
        if (found == 0)
            out[5] |= (uint64_t)1 << m, out[6]++;
        else if (found != 31)
            out[0] = 46, out[5] = out[6] = 0;
    }
    memset(second, 0, second_len * sizeof *second);
}

#define STOP(n) \
    { \
        end = n; \
        break; \
    }

void plain_parse(const uint16_t *t, size_t t_len, const uint8_t *in, size_t in_len, uint16_t *stack, size_t stack_len,
                 uint16_t *list, size_t list_len, uint16_t *second, size_t second_len, uint64_t limit, uint64_t out[7])
{
    for (int i = 0; i < 7; i++)
        out[i] = 0;
    out[0] = check(t, t_len, in, in_len, stack_len, second_len);
    if (out[0])
        return;
    unsigned W = t[1] + t[2], top = 0, end;
    const uint16_t *left = t + 4, *length = left + t[3], *cells = length + t[3] + t[0];
    size_t depth = 1, listed = 0, pos = 0;
    uint64_t steps = 0;
    stack[0] = 0;
    for (;;) {
        unsigned a = cells[top * W + (pos < in_len ? in[pos] : 0)];
        if (a == 0)
            STOP(31)
        if (steps == limit)
            STOP(32)
        if (a < 1024) {
            if (depth == stack_len)
                STOP(33)
            top = a;
            stack[depth++] = top;
            pos++;
        } else if (a == 4096) {
            steps++;
            STOP(0)
        } else {
            unsigned r = a - 1024, n = length[r];
            if (listed == list_len)
                STOP(34)
            if (n >= depth)
                STOP(35)
            size_t d = depth - n;
            unsigned q = cells[stack[d - 1] * W + left[r]];
            if (q == 0)
                STOP(35)
            if (d == stack_len)
                STOP(33)
            while (depth > d)
                stack[--depth] = 0;
            top = q;
            stack[depth++] = top;
            list[listed++] = r;
        }
        steps++;
    }
    answer(t, in, end, &(struct spot){steps, depth, listed, pos}, second, second_len, limit, out);
}

/* A reduction of n symbols; n is a constant but in the last arm. */
#define REDUCE(n) \
    { \
        if (listed == list_len) \
            STOP(34) \
        if (n >= depth) \
            STOP(35) \
        const uint16_t *row = cells + stack[depth - n - 1] * W; \
        size_t q = row[left[a - 1024]]; \
        if (q == 0) \
            STOP(35) \
        if (n == 0 && depth == stack_len) \
            STOP(33) \
        stack[depth - n] = q; \
        for (size_t i = 2; i <= n; i++) \
            stack[depth - n + i - 1] = 0; \
        depth = depth - n + 1; \
        top = q; \
        list[listed++] = a - 1024; \
    }

void tuned_parse(const uint16_t *t, size_t t_len, const uint8_t *in, size_t in_len, uint16_t *stack, size_t stack_len,
                 uint16_t *list, size_t list_len, uint16_t *second, size_t second_len, uint64_t limit, uint64_t out[7])
{
    for (int i = 0; i < 7; i++)
        out[i] = 0;
    out[0] = check(t, t_len, in, in_len, stack_len, second_len);
    if (out[0])
        return;
    size_t W = t[1] + t[2], top = 0;
    unsigned end;
    const uint16_t *left = t + 4, *length = left + t[3], *cells = length + t[3] + t[0];
    size_t depth = 1, listed = 0, pos = 0;
    uint64_t steps = 0;
    const uint16_t *column = cells + (in_len > 0 ? in[0] : 0);
    stack[0] = 0;
    for (;;) {
        size_t a = column[top * W];
        if (a == 0)
            STOP(31)
        if (steps == limit)
            STOP(32)
        if (a < 1024) {
            if (depth == stack_len)
                STOP(33)
            top = a;
            stack[depth++] = top;
            pos++;
            column = cells + (pos < in_len ? in[pos] : 0);
        } else if (a == 4096) {
            steps++;
            STOP(0)
        } else {
            size_t n = length[a - 1024];
            if (n == 0)
                REDUCE(0)
            else if (n == 1)
                REDUCE(1)
            else if (n == 2)
                REDUCE(2)
            else if (n == 3)
                REDUCE(3)
            else
                REDUCE(n)
        }
        steps++;
    }
    answer(t, in, end, &(struct spot){steps, depth, listed, pos}, second, second_len, limit, out);
}
