#include "seeds.h"

#define STEP UINT64_C(6364136223846793005)
#define STEP_INVERSE UINT64_C(13877824140714322085) /* modulo 2^64 */
#define MORE UINT64_C(1442695040888963407)
#define BOUND UINT32_C(4261412866)

enum { CELLS = 32 };

/* Found as the points of a lattice in a box: of all seeds 271 have such a run,
 * and only the last has one of nine draws. */
static const uint64_t runs[RUNS] = {
    UINT64_C(0x00ffdb37cb0c5f43), UINT64_C(0x7ec17cc095a397d9),
    UINT64_C(0x7f5b8ef8d4e2e7dd), UINT64_C(0xf145d301722dd9a0)
};

static const uint32_t edges[EDGES] = { BOUND - 1, BOUND, BOUND + 1, UINT32_MAX,
                                       0 };

static uint32_t draw(uint64_t *state)
{
    *state = *state * STEP + MORE;
    return (uint32_t)(*state >> 32);
}

static uint64_t draws_back(uint64_t state, uint32_t draws)
{
    while (draws-- > 0)
        state = (state - MORE) * STEP_INVERSE;
    return state;
}

uint64_t seed_before_run(uint32_t run, uint32_t draws)
{
    return draws_back(runs[run], draws);
}

uint64_t seed_within_run(uint32_t run, uint32_t draws)
{
    uint64_t state = runs[run];
    while (draws-- > 0)
        draw(&state);
    return state;
}

uint64_t seed_before_edge(uint32_t edge, uint32_t low, uint32_t draws)
{
    uint64_t drawn = (uint64_t)edges[edge] << 32 | low;
    return draws_back(drawn, draws + 1);
}

uint64_t some_seed(source *random)
{
    switch (below(random, 12)) {
    case 0:
        return UINT64_MAX - below(random, 2);
    case 1:
        return below(random, 3);
    case 2:
        return seed_before_run(below(random, RUNS), below(random, CELLS + 9));
    case 3:
        return seed_within_run(below(random, RUNS), 1 + below(random, 8));
    case 4:
        return seed_before_edge(below(random, EDGES), below(random, UINT32_MAX),
                                below(random, CELLS + 9));
    default:
        return next_number(random);
    }
}

/* One cell's draws, of which the last is taken; gives how many are not. */
static uint32_t count_cell(version_tally *t, uint64_t *state, uint32_t version)
{
    uint32_t number = draw(state), thrown = 0;
    if (version == 1)
        t->cases[LARGE_VERSION_1] += number >= BOUND;
    while (version == 2 && number >= BOUND && thrown < LAST_THROWN) {
        t->cases[AT_BOUND] += number == BOUND;
        number = draw(state);
        thrown++;
    }
    t->cases[BELOW_BOUND] += version == 2 && number == BOUND - 1;
    t->cases[NINTH_LARGE] += version == 2 && number >= BOUND;
    return thrown;
}

void count_draws(version_tally *t, second_recipe r)
{
    uint64_t state = r.seed;
    uint32_t all = 0;
    for (uint32_t i = 0; i < CELLS; i++) {
        uint32_t thrown = count_cell(t, &state, r.version);
        all += thrown;
        t->thrown[thrown] += r.version == 2;
        t->cases[EIGHT_FIRST] += i == 0 && thrown == LAST_THROWN;
        t->cases[EIGHT_LAST] += i == CELLS - 1 && thrown == LAST_THROWN;
    }
    t->cases[NONE_THROWN] += r.version == 2 && all == 0;
    for (uint32_t i = 0; i < 3 * r.n; i++)
        t->cases[LARGE_INSTRUCTION] += draw(&state) >= BOUND && r.version == 2;
}
