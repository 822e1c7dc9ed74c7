#include "grids.h"

#include <string.h>

void grid_load(grid *g, const uint8_t *from)
{
    for (int i = 0; i < SECOND_COUNTERS; i++, from += 8)
        g->at[i] = load_word(from) | (uint64_t)load_word(from + 4) << 32;
}

void grid_store(const grid *g, uint8_t *to)
{
    for (int i = 0; i < SECOND_COUNTERS; i++, to += 8) {
        store_word(to, (uint32_t)g->at[i]);
        store_word(to + 4, (uint32_t)(g->at[i] >> 32));
    }
}

grid_total total_of(const grid *g)
{
    grid_total t = { 0, 0 };
    for (int i = 0; i < SECOND_COUNTERS; i++) {
        t.low += g->at[i];
        t.high += t.low < g->at[i];
    }
    return t;
}

static uint64_t *some_counter(source *random, grid *g)
{
    return &g->at[below(random, SECOND_COUNTERS)];
}

/* The total in one counter, or in pieces of any size. */
static void spread(source *random, grid *g, uint64_t total)
{
    uint32_t pieces = once_in(random, 3) ? 0 : below(random, 60);
    while (pieces-- > 0) {
        uint64_t piece = next_number(random) % (total + 1);
        *some_counter(random, g) += piece;
        total -= piece;
    }
    *some_counter(random, g) += total;
}

/* With the rows 2^63 - 1 mostly, or the next number; else some near them. */
static void near_limit(source *random, uint64_t rows, grid *g)
{
    static const uint64_t beside[] = { 0, 0, 1, 1, 2, UINT64_MAX };
    uint64_t more = beside[below(random, 6)];
    if (once_in(random, 6)) /* the limit is met before the rows are added */
        more = rows + below(random, 2);
    spread(random, g, TOTAL_LIMIT - rows + more);
}

/* Far above the limit, but small if the sum is cut to 64 bits. */
static void wrapping(source *random, grid *g)
{
    uint64_t *one = some_counter(random, g), *other = some_counter(random, g);
    if (once_in(random, 2)) {
        *one = UINT64_C(1) << 63;
        *other += UINT64_C(1) << 63; /* 0 if the two are one */
        *some_counter(random, g) += below(random, 1000);
        return;
    }
    for (int i = 0; i < SECOND_COUNTERS; i++)
        g->at[i] = next_number(random);
    *one -= total_of(g).low - below(random, 1000);
}

/* Counters at whole bytes' ends, where rows carry into the next. */
static void about_to_carry(source *random, grid *g)
{
    for (int i = 0; i < SECOND_COUNTERS; i++) {
        uint32_t bits = once_in(random, 2) ? 32 : 8 * (1 + below(random, 6));
        g->at[i] = (UINT64_C(1) << bits) - 1 - below(random, 3);
    }
}

/* Any counters whose total is below the limit, some of them 0. */
static void any_counters(source *random, grid *g)
{
    for (int i = 0; i < SECOND_COUNTERS; i++)
        if (!once_in(random, 3))
            g->at[i] = next_number(random) >> (9 + below(random, 55));
}

void some_grid(differ *d, uint64_t rows, grid *g)
{
    source *random = &d->random;
    uint32_t style = below(random, 9);
    static const char *const names[] = { "fresh", "any", "any", "carrying",
                                         "full", "wrapping", "near the limit" };
    memset(g, 0, sizeof *g);
    note(d, "; a grid %s", names[style < 6 ? style : 6]);
    switch (style) {
    case 0:
        break;
    case 1:
    case 2:
        any_counters(random, g);
        break;
    case 3:
        about_to_carry(random, g);
        break;
    case 4:
        memset(g, 0xff, sizeof *g);
        break;
    case 5:
        wrapping(random, g);
        break;
    default:
        near_limit(random, rows, g);
    }
}

size_t fixed_length(source *random, size_t right)
{
    switch (below(random, 150)) {
    case 0:
        return 0;
    case 1:
        return right - 1;
    case 2:
        return right + 1;
    case 3:
        return right / 2;
    case 4:
        return 2 * right;
    case 5:
        return right - 8 + 16 * below(random, 2);
    default:
        return right;
    }
}
