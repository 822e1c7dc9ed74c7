/* Tables of nothing but range checks, each of which shares a row with the next. */
#include "ranges.h"

#include <inttypes.h>
#include <stdio.h>
#include <stdlib.h>
#include <string.h>

#include "library.h"
#include "tries.h"

enum { LARGE_LOG = 18, LARGE_MEMORY = 24 };

/* Cell k's value; of the first few, two that follow one another make a bound of
 * 1, 2, M + 1, 2M - 1, M and M - 1. */
static uint32_t chain_value(source *random, uint32_t k, uint32_t cells)
{
    const uint32_t first[] = { 0, 0, 1, cells - 1, cells - 1, 0, cells - 2 };
    return k < sizeof first / sizeof first[0] ? first[k] : below(random, cells);
}

static void put_words(world *w, uint32_t at, const uint32_t form[FORM_WORDS])
{
    for (uint32_t i = 0; i < FORM_WORDS; i++)
        put(w, PROGRAM, at, i, form[i]);
}

/* Instruction 2k is a DEREF of cell k, and 2k + 1 adds it to the next. */
void build_chain(source *random, world *w, uint32_t m, uint32_t rows)
{
    uint32_t cells = (uint32_t)1 << m;
    const uint32_t halt[FORM_WORDS] = { [OP_A] = 1, [OP_B] = rows - 1, [F_A] = 1, [F_B] = 1,
                                        [FP_C] = 1, [W_JUMP] = 1 };
    w->len[PROGRAM] = unit_of(PROGRAM) * rows;
    w->len[MEMORY] = unit_of(MEMORY) << m;
    w->len[EXECUTION] = unit_of(EXECUTION) * rows;
    w->len[EXTENSIONS] = unit_of(EXTENSIONS) * 256;
    w->pc = w->fp = 0;
    for (uint32_t k = 0; k < cells; k++)
        put(w, MEMORY, k, 0, k < rows / 2 ? chain_value(random, k, cells) : k % 1000);
    for (uint32_t at = 0; at + 1 < rows; at++) {
        uint32_t k = at / 2, value = get(w, MEMORY, k, 0);
        uint32_t deref[FORM_WORDS] = { [OP_A] = k, [OP_C] = get(w, MEMORY, value, 0), [F_B] = 1,
                                       [F_C] = 1, [W_AUX] = 2 };
        uint32_t add[FORM_WORDS] = { [OP_A] = k, [OP_C] = k + 1, [F_B] = 1, [W_AUX] = 1 };
        add[OP_B] = value + get(w, MEMORY, k + 1, 0);
        put_words(w, at, at % 2 == 0 ? deref : add);
    }
    put_words(w, rows - 1, halt);
}

/* What both leave in so much room. */
static bool ranges_both(const world *w, size_t room, uint32_t verdict, uint8_t *first, uint8_t *second)
{
    uint8_t told[ANSWER_BYTES], want[ANSWER_BYTES], found[FOUND_BYTES];
    uint64_t number;
    memset(first, 0xa5, room + FIND_BYTES);
    memset(second, 0xa5, room + FIND_BYTES);
    uint32_t got = uisnabar_ranges(w->bytes[0], w->len[0], w->bytes[1], w->len[1], w->pc, w->fp,
                                   w->bytes[2], w->len[2], w->bytes[3], w->len[3], first, room,
                                   found, sizeof found, told, sizeof told);
    second_answer a = second_ranges(w->bytes[0], w->len[0], w->bytes[1], w->len[1], w->pc, w->fp,
                                    w->bytes[2], w->len[2], w->bytes[3], w->len[3], second, room,
                                    &number);
    store_answer(want, a);
    bool good = got == verdict && a.verdict == verdict && memcmp(told, want, sizeof told) == 0
        && load_word(found) == number && load_word(found + 4) == 0
        && memcmp(first, second, room + FIND_BYTES) == 0;
    printf("large, ranges in %zu bytes: verdict %" PRIu32 ", second %" PRIu32 " place %" PRIu32
           " found %" PRIu64 "%s\n", room, got, a.verdict, a.place, number, good ? "" : ": DIFFERENCE");
    return good;
}

/* Whether the finds are those that the table was made of. */
static bool is_chain(const world *w, const uint8_t *finds, uint32_t number)
{
    for (uint32_t k = 0; k < number; k++)
        if (load_word(finds + FIND_BYTES * k) != 2 * k
            || load_word(finds + FIND_BYTES * k + 4)
                   != get(w, MEMORY, k, 0) + get(w, MEMORY, k + 1, 0) + 1)
            return false;
    return true;
}

/* Rows and bounds that need three and four bytes. */
bool try_large_ranges(void)
{
    const uint32_t rows = 1u << LARGE_LOG, most = rows / 2 - 1;
    const size_t room = FIND_BYTES * (size_t)most;
    const size_t lengths[PARTS] = { unit_of(PROGRAM) * rows, unit_of(MEMORY) << LARGE_MEMORY,
                                    unit_of(EXECUTION) * rows, unit_of(EXTENSIONS) * 256 };
    uint8_t *first = malloc(room + FIND_BYTES), *second = malloc(room + FIND_BYTES);
    source random = { .state = LARGE_LOG };
    world w = { .pc = 0 };
    bool good = first != NULL && second != NULL;
    for (int i = 0; i < PARTS; i++) {
        w.bytes[i] = calloc(1, lengths[i]);
        good = good && w.bytes[i] != NULL;
    }
    if (good) {
        build_chain(&random, &w, LARGE_MEMORY, rows);
        good = second_tables(&w).verdict == ACCEPTED;
        good &= ranges_both(&w, room - 1, LIST, first, second);
        good &= ranges_both(&w, room, ACCEPTED, first, second) && is_chain(&w, first, most);
    }
    for (int i = 0; i < PARTS; i++)
        free(w.bytes[i]);
    free(first);
    free(second);
    printf("large: ranges, H 2^%d, m %d%s\n", LARGE_LOG, LARGE_MEMORY, good ? "" : ": DIFFERENCE");
    return good;
}
