/* Pairs of lengths that are a cut memory's and that are not, and which part's
 * fault is told. */
#define _DEFAULT_SOURCE
#include "splits.h"

#include <stdio.h>
#include <sys/mman.h>

enum { SMALL = 256 };

/* Every cut of a memory by words: 3 + 253 among them, nothing and all. */
static void by_words(differ *d, const world *w)
{
    for (size_t first = 0; first <= SMALL; first++)
        call_split(d, w, 4 * first, 4 * (SMALL - first));
    call_split(d, w, 0, 0);
}

/* 2^k words beside what 2^j of them would leave of 2^m, from m 7 on. */
static void by_powers(differ *d, const world *w)
{
    for (uint32_t m = LEAST_M - 1; m <= LEAST_M + 2; m++)
        for (uint32_t i = 0; i < (m + 1) * (m + 1); i++)
            call_split(d, w, (size_t)4 << i / (m + 1), ((size_t)4 << m) - ((size_t)4 << i % (m + 1)));
}

/* A word or a byte more or less in either, or both; and the two exchanged. */
static void by_bytes(differ *d, const world *w)
{
    static const int steps[] = { -4, -1, 0, 1, 4 };
    for (uint32_t k = 0; k < LEAST_M; k++) {
        size_t first = (size_t)4 << k, rest = 4 * SMALL - first;
        for (int i = 0; i < 5 * 5; i++)
            call_split(d, w, first + (size_t)steps[i / 5], rest + (size_t)steps[i % 5]);
        call_split(d, w, rest, first);
    }
}

/* Another fault beside good and bad lengths. */
static void by_part(differ *d, const world *right, world *other)
{
    static const size_t pairs[][2] = { { 32, 4 * SMALL - 32 }, { 4 * SMALL, 0 }, { 0, 4 * SMALL },
                                       { 12, 4 * 253 }, { 32, 4 * SMALL - 31 } };
    for (uint32_t i = 0; i < 5 * 16; i++) {
        world_copy(other, right);
        other->len[PROGRAM] -= i & 1;
        other->len[EXECUTION] -= i >> 1 & 1;
        other->len[EXTENSIONS] += i >> 2 & 1;
        if ((i >> 3 & 1) != 0)
            put(other, PROGRAM, 0, 0, P);
        call_split(d, other, pairs[i / 16][0], pairs[i / 16][1]);
    }
}

/* ---- lengths without bytes ---- */

/* The execution table's length is bad too, so that no byte of the memory need be
 * there for any judge: part 3 says that both lengths were taken. */
static void without_bytes(differ *d, const world *w, uint8_t *nothing, size_t first, size_t rest)
{
    attempt t = split_of(d, w, 0, 0);
    t.lent[S_PUBLIC] = (buffer){ nothing, first, true };
    t.lent[S_REST] = (buffer){ nothing, rest, true };
    t.lent[S_EXECUTION].len--;
    t.lent[S_ANSWER].len = ANSWER_BYTES;
    compare_split(d, &t);
}

/* Lengths that are good where 64 bits are cut to 32 or their sum is. */
static void too_long(differ *d, const world *w, uint8_t *nothing)
{
    static const size_t high = (size_t)1 << 32;
    const size_t pairs[][2] = {
        { 4, high + 1020 }, { high + 4, 1020 }, { high + 4, high + 1020 }, { high, high },
        { high - 4, 4 }, { high / 2, high / 2 }, { high, 1024 - high }, { high << 2, 1024 - (high << 2) },
        { high << 31, 1024 - (high << 31) }, { 4, SIZE_MAX - 3 }, { SIZE_MAX - 3, 1028 },
        { SIZE_MAX, SIZE_MAX }, { SIZE_MAX, 1025 }, { 512, SIZE_MAX - 511 }
    };
    for (size_t i = 0; i < sizeof pairs / sizeof *pairs; i++)
        without_bytes(d, w, nothing, pairs[i][0], pairs[i][1]);
}

/* Every cut of every memory, and of those one too small and one too large. */
static void every_cut(differ *d, const world *w, uint8_t *nothing)
{
    for (uint32_t m = LEAST_M - 1; m <= MOST_M + 1; m++)
        for (uint32_t k = 0; k <= m; k++)
            without_bytes(d, w, nothing, (size_t)4 << k, ((size_t)4 << m) - ((size_t)4 << k));
}

/* A read of these bytes faults. */
static void by_lengths_alone(differ *d, const world *w)
{
    uint8_t *nothing = mmap(NULL, 1, PROT_NONE, MAP_PRIVATE | MAP_ANONYMOUS, -1, 0);
    if (nothing == MAP_FAILED) {
        printf("skipped: lengths without bytes, for want of a page\n");
        return;
    }
    every_cut(d, w, nothing);
    too_long(d, w, nothing);
    munmap(nothing, 1);
}

void try_split_lengths(differ *d, world *right, world *other)
{
    build_halted(d, right, LEAST_M);
    note(d, ", lengths");
    by_words(d, right);
    by_powers(d, right);
    by_bytes(d, right);
    by_part(d, right, other);
    by_lengths_alone(d, right);
}
