/* Groups with five cells on both sides of a seam, and every verdict from there. */
#include "splits.h"

#include <inttypes.h>
#include <string.h>

enum { OPERANDS = 3, RESULT = 2, LONGEST_GROUP = 3 };

static bool apart(uint32_t a, uint32_t a_cells, uint32_t b, uint32_t b_cells)
{
    return a + a_cells <= b || b + b_cells <= a;
}

/* Where A, B and the result stand: the one named at an index, the others by
 * chance, but that nothing is read where the result is written. */
static void place_operands(source *random, uint32_t cells, const uint32_t lengths[OPERANDS],
                           uint32_t named, uint32_t at[OPERANDS])
{
    uint32_t index = at[named];
    do {
        for (uint32_t i = 0; i < OPERANDS; i++)
            at[i] = i == named ? index : below(random, cells - lengths[i] + 1);
    } while (!apart(at[0], lengths[0], at[RESULT], lengths[RESULT])
             || !apart(at[1], lengths[1], at[RESULT], lengths[RESULT]));
}

/* A group and a halt, over the words of the halted world. */
static void build_group(differ *d, world *w, uint32_t m, uint32_t named, uint32_t index)
{
    const uint32_t modes[OPERANDS] = { IMMEDIATE, IMMEDIATE, IMMEDIATE };
    const uint32_t halt[OPERANDS] = { IMMEDIATE, IMMEDIATE, FRAME };
    builder b = { .random = &d->random, .to = w, .cells = (uint32_t)1 << m };
    uint32_t n = 1 + below(b.random, LONGEST_GROUP), at[OPERANDS];
    bool be = once_in(b.random, 2);
    const uint32_t lengths[OPERANDS] = { be ? n + 4 : FIVE * n, FIVE * n, FIVE };
    build_halted(d, w, m);
    at[named] = index;
    place_operands(b.random, b.cells, lengths, named, at);
    put_group_at(&b, n, be, at, at[RESULT], modes);
    put_jump_in(&b, halt, true, b.count, 0);
    w->len[PROGRAM] = unit_of(PROGRAM) * b.count;
    note(d, ", group of %" PRIu32 " from %" PRIu32 " and %" PRIu32 " to %" PRIu32, n, at[0],
         at[1], at[RESULT]);
    if (second_tables(w).verdict != ACCEPTED)
        differs(d, "the second has no tables of a group");
}

/* ---- each verdict, from a group's accepted tables ---- */

static void short_program(source *random, world *w)
{
    w->len[PROGRAM] -= 1 + below(random, 3);
}

static void short_execution(source *random, world *w)
{
    w->len[EXECUTION] -= 1 + below(random, 3);
}

static void short_extensions(source *random, world *w)
{
    w->len[EXTENSIONS] -= 1 + below(random, 3);
}

static void large_word(source *random, world *w)
{
    put(w, MEMORY, below(random, count_of(w, MEMORY)), 0, too_large(random, 0));
}

static void malform(source *random, world *w)
{
    put(w, PROGRAM, below(random, 2), F_A, 2);
}

static void move_start(source *random, world *w)
{
    w->fp = 1 + below(random, P);
}

/* The start's low 32 bits are right. */
static void widen_start(source *random, world *w)
{
    *(once_in(random, 2) ? &w->pc : &w->fp) += UINT64_C(1) << 32;
}

static void leave_frame(source *random, world *w)
{
    put(w, EXECUTION, 1 + below(random, 255), FP, 1);
}

static void start_twice(source *random, world *w)
{
    put(w, EXTENSIONS, 1 + below(random, 255), X_START, 2);
}

/* Padding in the place of all rows: nothing is pulled. */
static void unpull(source *random, world *w)
{
    (void)random;
    for (uint32_t row = 0; row < 255; row++)
        memcpy(word_at(w, EXTENSIONS, row, 0), word_at(w, EXTENSIONS, 255, 0), unit_of(EXTENSIONS));
}

/* The run begins at its halt: nothing is pushed. */
static void unpush(source *random, world *w)
{
    (void)random;
    for (uint32_t row = 0; row < 255; row++)
        memcpy(word_at(w, EXECUTION, row, 0), word_at(w, EXECUTION, 255, 0), unit_of(EXECUTION));
    w->pc = 1;
}

static const struct {
    void (*spoil)(source *, world *);
    uint32_t verdict, part;
} spoils[] = {
    { short_program, SIZE, 1 }, { short_execution, SIZE, 3 }, { short_extensions, SIZE, 4 },
    { large_word, WORD, 2 },    { malform, INSTRUCTION, 1 },  { move_start, START, 0 },
    { widen_start, START, 0 },  { leave_frame, EXEC, 3 },     { start_twice, EXTENSION, 4 },
    { unpull, BUS, 3 },         { unpush, BUS, 4 },
};

static void each_verdict(differ *d, const world *right, world *other, uint32_t k)
{
    for (size_t i = 0; i < sizeof spoils / sizeof *spoils; i++) {
        size_t mark = d->what_len;
        world_copy(other, right);
        spoils[i].spoil(&d->random, other);
        note(d, "; for verdict %" PRIu32 " part %" PRIu32, spoils[i].verdict, spoils[i].part);
        second_answer a = call_cut(d, other, k);
        if (a.verdict != spoils[i].verdict || a.part != spoils[i].part)
            differs(d, "the second has another verdict for it");
        note_back(d, mark);
    }
}

void try_split_groups(differ *d, world *right, world *other, uint32_t m, uint32_t k)
{
    uint32_t seam = (uint32_t)1 << k;
    for (uint32_t named = 0; named < OPERANDS; named++)
        for (uint32_t before = 1; before < FIVE && before <= seam; before++) {
            build_group(d, right, m, named, seam - before);
            if (call_cut(d, right, k).verdict != ACCEPTED)
                differs(d, "the second refuses a group's tables");
        }
    each_verdict(d, right, other, k);
}
