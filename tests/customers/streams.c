/* What a driver reads of uisnabar_jump and uisnabar_host, byte for byte: states by single advances from document 01,
 * and by the sums that document 02 asks for; buffers of every length. Each fault is a line; the last has the counts. */
#include <inttypes.h>
#include <stdio.h>
#include <string.h>

#include "uisnabar.h"

enum { UNTOUCHED = 0xa5, SMALL = 40, STEPS = 3000, APART = 40 };

typedef uint32_t called(uint64_t state, uint64_t number, uint8_t *next, size_t next_len, uint8_t *answer, size_t answer_len);

static const uint64_t seeds[] = {0, 1, UINT64_C(0x12fffffff), UINT64_C(0x0123456789abcdef), UINT64_C(1) << 63, UINT64_MAX};
enum { SEEDS = sizeof seeds / sizeof seeds[0] };
static unsigned tried, faults;

static void check(const char *name, uint64_t seed, uint64_t number, int holds)
{
    tried++;
    if (!holds && ++faults)
        printf("%s, %016" PRIx64 ", %" PRIu64 "\n", name, seed, number);
}

static void put(uint8_t *at, uint64_t number, int bytes)
{
    for (int i = 0; i < bytes; i++)
        at[i] = (uint8_t)(number >> 8 * i);
}

static uint64_t got(const uint8_t *at)
{
    uint64_t number = 0;
    for (int i = UISNABAR_NEXT_BYTES; i-- > 0;)
        number = number << 8 | at[i];
    return number;
}

static uint64_t advanced(uint64_t state) { return UINT64_C(6364136223846793005) * state + UINT64_C(1442695040888963407); }

/* a state by the library's jump alone, for the laws between jumps */
static uint64_t jumped(uint64_t state, uint64_t draws)
{
    uint8_t next[UISNABAR_NEXT_BYTES] = {0}, answer[UISNABAR_ANSWER_BYTES];
    uint32_t verdict = uisnabar_jump(state, draws, next, sizeof next, answer, sizeof answer);
    check("a jump's verdict", state, draws, verdict == UISNABAR_ACCEPTED);
    return got(next);
}

/* the verdict, the answer and the state, and every byte beside them, at no alignment */
static void asked(const char *name, called *call, uint64_t seed, uint64_t number, uint32_t verdict, uint64_t state)
{
    uint8_t next[SMALL], answer[SMALL], next_to_be[SMALL], answer_to_be[SMALL];
    memset(next, UNTOUCHED, SMALL), memset(answer, UNTOUCHED, SMALL);
    memset(next_to_be, UNTOUCHED, SMALL), memset(answer_to_be, UNTOUCHED, SMALL);
    put(next_to_be + 1, state, UISNABAR_NEXT_BYTES);
    memset(answer_to_be + 1, 0, UISNABAR_ANSWER_BYTES);
    put(answer_to_be + 1, verdict, 4);
    uint32_t returned = call(seed, number, next + 1, UISNABAR_NEXT_BYTES, answer + 1, UISNABAR_ANSWER_BYTES);
    check(name, seed, number, returned == verdict && memcmp(next, next_to_be, SMALL) == 0 && memcmp(answer, answer_to_be, SMALL) == 0);
}

/* each length of the two buffers: all but one are ANSWER, before HOST too, and nothing is written */
static void lengths(const char *name, called *call, uint64_t number)
{
    uint8_t held[2 * SMALL], kept[2 * SMALL];
    memset(kept, UNTOUCHED, sizeof kept);
    for (size_t next = 0; next <= SMALL; next++)
        for (size_t answer = 0; answer <= SMALL; answer++) {
            memset(held, UNTOUCHED, sizeof held);
            uint32_t verdict = call(7, number, held, next, held + SMALL, answer);
            int fit = next == UISNABAR_NEXT_BYTES && answer == UISNABAR_ANSWER_BYTES;
            check(name, number, 100 * next + answer,
                  fit ? verdict != UISNABAR_ANSWER : verdict == UISNABAR_ANSWER && memcmp(held, kept, sizeof held) == 0);
        }
}

/* single advances; each power of two is twice the one before, and twice the last is none; all 2^64 - 1 and one more */
static void jumps(uint64_t seed)
{
    uint64_t state = seed;
    for (uint64_t draws = 0; draws < STEPS; draws++, state = advanced(state))
        asked("jump", uisnabar_jump, seed, draws, UISNABAR_ACCEPTED, state);
    for (int bit = 0; bit < 63; bit++) {
        uint64_t half = UINT64_C(1) << bit;
        asked("a jump doubled", uisnabar_jump, seed, 2 * half, UISNABAR_ACCEPTED, jumped(jumped(seed, half), half));
        asked("a jump and one draw", uisnabar_jump, seed, half + 1, UISNABAR_ACCEPTED, advanced(jumped(seed, half)));
    }
    check("2^63 draws twice", seed, 0, jumped(jumped(seed, UINT64_C(1) << 63), UINT64_C(1) << 63) == seed);
    check("2^64 - 1 draws and one", seed, UINT64_MAX, advanced(jumped(seed, UINT64_MAX)) == seed);
}

static void hosts(uint64_t seed)
{
    static const uint64_t known[] = {0, 1, 2, 255, 256, 65536, UISNABAR_HOSTS / 2, UISNABAR_HOSTS - 2, UISNABAR_HOSTS - 1};
    static const uint64_t unknown[] = {UISNABAR_HOSTS,          UISNABAR_HOSTS + 1, UINT64_C(1) << 31, UINT64_C(1) << 32,
                                       (UINT64_C(1) << 32) + 5, UINT64_C(1) << 40,  UINT64_C(1) << 63, UINT64_MAX};
    for (size_t i = 0; i < sizeof known / sizeof known[0]; i++)
        asked("host", uisnabar_host, seed, known[i], UISNABAR_ACCEPTED, jumped(seed, known[i] << APART));
    for (size_t i = 0; i < sizeof unknown / sizeof unknown[0]; i++)
        asked("no host", uisnabar_host, seed, unknown[i], UISNABAR_HOST, seed);
    asked("host 0", uisnabar_host, seed, 0, UISNABAR_ACCEPTED, seed);
}

int main(void)
{
    for (int i = 0; i < SEEDS; i++)
        jumps(seeds[i]), hosts(seeds[i]);
    lengths("jump", uisnabar_jump, 5), lengths("host", uisnabar_host, 5), lengths("no host", uisnabar_host, UISNABAR_HOSTS);
    /* by hand: document 01's first draws from seeds 0, 1 and 2^32 are upper halves */
    check("seed 0", 0, 1, jumped(0, 1) >> 32 == 335903614);
    check("seed 1", 1, 1, jumped(1, 1) >> 32 == 1817669548);
    check("seed 2^32", UINT64_C(1) << 32, 1, jumped(UINT64_C(1) << 32, 1) >> 32 == 1620769451);
    printf("%u tried, %u faults\n", tried, faults);
    return faults > 0;
}
