/* Where all choices come from: one printed seed gives one run.  The generator
 * is splitmix64, not the one under test. */
#ifndef DIFFER_RANDOM_H
#define DIFFER_RANDOM_H

#include "../second/word.h"

typedef struct {
    uint64_t state;
} source;

static inline uint64_t next_number(source *s)
{
    uint64_t z = s->state += UINT64_C(0x9e3779b97f4a7c15);
    z = (z ^ z >> 30) * UINT64_C(0xbf58476d1ce4e5b9);
    z = (z ^ z >> 27) * UINT64_C(0x94d049bb133111eb);
    return z ^ z >> 31;
}

static inline uint32_t below(source *s, uint32_t bound)
{
    return (uint32_t)((next_number(s) >> 32) * bound >> 32);
}

static inline bool once_in(source *s, uint32_t times)
{
    return below(s, times) == 0;
}

/* A word below p: small, near an edge of the memory or of p, or any. */
static inline uint32_t some_word(source *s, uint32_t cells)
{
    switch (below(s, 8)) {
    case 0:
        return below(s, 3);
    case 1:
        return P - 1 - below(s, 3);
    case 2:
        return cells - 1 - below(s, 6);
    case 3:
        return cells + below(s, 3);
    case 4:
    case 5:
        return below(s, cells);
    default:
        return below(s, P);
    }
}

#endif
