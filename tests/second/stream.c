/* Streams from one seed: a jump over any number of draws, and a host's start. */
#include "parts.h"

#define HOSTS (UINT64_C(1) << 24)

/* Some number of draws as one: the state becomes times * state + plus. */
typedef struct {
    uint64_t times, plus;
} leap;

static const leap one_draw = { 6364136223846793005u, 1442695040888963407u };

/* 2^40 draws: one_draw doubled forty times. */
static const leap host_apart = { 0x7753640000000001u, 0x575b050000000000u };

/* So many leaps, by the bits of their number: where a bit is 0 the state stays,
 * 1 * state + 0, so that no branch is taken which cannot be foreseen.  A leap
 * and itself behind it are the leap doubled. */
static uint64_t leaps(uint64_t state, uint64_t number, leap l)
{
    for (; number != 0; number >>= 1) {
        uint64_t taken = 0 - (number & 1);
        uint64_t times = (taken & (l.times - 1)) + 1, plus = taken & l.plus;
        state = state * times + plus;
        l.plus *= l.times + 1;
        l.times *= l.times;
    }
    return state;
}

uint64_t second_jump(uint64_t state, uint64_t draws)
{
    return leaps(state, draws, one_draw);
}

second_answer second_host(uint64_t seed, uint64_t host, uint64_t *next)
{
    *next = seed;
    if (host >= HOSTS)
        return answer(HOST, 0, 0, 0);
    *next = leaps(seed, host, host_apart);
    return answer(ACCEPTED, 0, 0, 0);
}
