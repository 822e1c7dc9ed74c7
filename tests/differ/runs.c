#include "runs.h"

#include <inttypes.h>
#include <string.h>

#include "seeds.h"

/* By either version all of its first instructions are extensions with N 2. */
#define FULL UINT64_C(0x3982ecce0872b501)

enum { LEAST = 256, FULL_LENGTH = 16, MOST_LENGTH = 124, LENGTHS = 5 };

static const uint32_t lengths[LENGTHS] = { 1, 2, 62, MOST_LENGTH - 1,
                                           MOST_LENGTH };

/* ---- the law ---- */

/* False, and a difference, unless both accept: that they refuse alike is one
 * too. */
static bool accepted(differ *d, const attempt *t, const char *otherwise)
{
    uint32_t second = compare(d, t).verdict;
    uint32_t library = load_word(d->slots[answer_slot(t->function)].lent);
    if (second == ACCEPTED && library == ACCEPTED)
        return true;
    note(d, "; the library says %" PRIu32 ", the second %" PRIu32, library,
         second);
    differs(d, otherwise);
    return false;
}

/* A part as the library left it; the slots have the numbers of the parts. */
static void take(differ *d, world *w, int part)
{
    memcpy(w->bytes[part], d->slots[part].lent, w->len[part]);
}

static bool make(differ *d, world *w)
{
    attempt t = { .function = MAKER, .recipe = w->recipe, .extra = true };
    t.lent[PROGRAM].len = w->len[PROGRAM];
    t.lent[MEMORY].len = w->len[MEMORY];
    t.lent[answer_slot(MAKER)].len = ANSWER_BYTES;
    if (!accepted(d, &t, "a recipe is not made"))
        return false;
    take(d, w, PROGRAM);
    take(d, w, MEMORY);
    return true;
}

static bool table_and_judge(differ *d, world *w)
{
    attempt t = attempt_on(d, TABLER, w);
    t.lent[EXECUTION].bytes = t.lent[EXTENSIONS].bytes = NULL;
    t.lent[PARTS].len = ANSWER_BYTES;
    t.extra = true;
    if (!accepted(d, &t, "a recipe's run has no tables"))
        return false;
    take(d, w, EXECUTION);
    take(d, w, EXTENSIONS);
    t = attempt_on(d, JUDGE, w);
    t.lent[PARTS].len = ANSWER_BYTES;
    t.extra = true;
    return accepted(d, &t, "the tables of a recipe's run are refused");
}

/* Row r is at instruction r, or at the last once there, in frame 0. */
static bool has_its_states(const world *w)
{
    for (uint32_t row = 0; row < count_of(w, EXECUTION); row++) {
        uint32_t pc = row < w->recipe.n ? row : w->recipe.n;
        if (get(w, EXECUTION, row, PC) != pc || get(w, EXECUTION, row, FP) != 0)
            return false;
    }
    return true;
}

/* Rows with an operation. */
static uint32_t active_rows(const world *w)
{
    uint32_t rows = 0;
    for (uint32_t row = 0; row < count_of(w, EXTENSIONS); row++)
        rows += (get(w, EXTENSIONS, row, X_ADD) | get(w, EXTENSIONS, row, X_MUL)
                 | get(w, EXTENSIONS, row, X_PEQ)) != 0;
    return rows;
}

/* The extension instructions' N together; DATA of any other is 0. */
static uint32_t rows_needed(const world *w)
{
    uint32_t rows = 0;
    for (uint32_t i = 0; i < w->recipe.n; i++)
        rows += get(w, PROGRAM, i, W_DATA) / 32;
    return rows;
}

static void count_run(run_tally *t, const world *w, uint32_t rows)
{
    uint32_t height = count_of(w, EXECUTION), room = count_of(w, EXTENSIONS);
    t->cases[MADE_VERSION_1] += w->recipe.version == 1;
    t->cases[MADE_VERSION_2] += w->recipe.version == 2;
    t->cases[MADE_SHORTEST] += w->recipe.n == 1;
    t->cases[MADE_LONGEST] += w->recipe.n == MOST_LENGTH;
    t->cases[MADE_LARGER_MEMORY] += w->recipe.m > 10;
    t->cases[MADE_LEAST_TABLES] += height == LEAST && room == LEAST;
    t->cases[MADE_LARGER_H] += height > LEAST;
    t->cases[MADE_LARGER_K] += room > LEAST;
    t->cases[MADE_NO_GROUP] += rows == 0;
    t->cases[MADE_ALL_GROUPS] += rows == 2 * w->recipe.n;
}

void try_run(differ *d, world *w)
{
    size_t mark = d->what_len;
    if (make(d, w) && table_and_judge(d, w)) {
        uint32_t rows = active_rows(w);
        if (!has_its_states(w))
            differs(d, "a recipe's run has other states");
        if (rows != rows_needed(w))
            differs(d, "a recipe's run has other rows than its groups");
        if (rows > 2 * w->recipe.n || rows + 1 > LEAST)
            differs(d, "a recipe's run has above 2n rows, or none to spare");
    }
    count_run(&d->reached.runs, w, rows_needed(w));
    note_back(d, mark);
}

/* ---- every end ---- */

static world made;

bool runs_open(void)
{
    return world_open(&made);
}

static void try_made(differ *d, second_recipe r, uint32_t height, uint32_t room)
{
    note_back(d, 0);
    made.len[EXECUTION] = unit_of(EXECUTION) * height;
    made.len[EXTENSIONS] = unit_of(EXTENSIONS) * room;
    world_by_recipe(d, &made, r);
    note(d, ", H %" PRIu32 " K %" PRIu32, height, room);
    try_run(d, &made);
}

/* Any seed with more memory and larger tables; in the least ones also seeds
 * that throw away most draws, and both ends of the range. */
static void try_length(differ *d, uint32_t version, uint32_t n)
{
    source *random = &d->random;
    second_recipe r = { next_number(random), 10, n, version };
    try_made(d, r, LEAST, LEAST);
    for (r.m = 10; r.m <= 12; r.m++) {
        try_made(d, r, LEAST << 1, LEAST);
        try_made(d, r, LEAST, LEAST << 1);
    }
    try_made(d, (second_recipe){ some_seed(random), 10, n, version }, MAX_ROWS,
             MAX_ROWS);
    for (uint32_t run = 0; run < RUNS; run++)
        try_made(d, (second_recipe){ seed_before_run(run, 0), 10, n, version },
                 LEAST, LEAST);
    try_made(d, (second_recipe){ 0, 10, n, version }, LEAST, LEAST);
    try_made(d, (second_recipe){ UINT64_MAX, 10, n, version }, LEAST, LEAST);
}

void try_runs(differ *d)
{
    for (uint32_t version = 1; version <= VERSIONS; version++) {
        for (int i = 0; i < LENGTHS; i++)
            try_length(d, version, lengths[i]);
        for (uint32_t n = 1; n <= FULL_LENGTH; n++)
            try_made(d, (second_recipe){ FULL, 10, n, version }, LEAST, LEAST);
    }
}
