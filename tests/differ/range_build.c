/* Worlds of range checks and of what nearly is one: alone, in chains and loops,
 * jumped into and at both ends of the table. */
#include "ranges.h"

#include <inttypes.h>
#include <string.h>

enum { MOST_TURNS = 4, KEPT_FREE = 48 };

static enum range_way next_way; /* all in turn */

/* Room for anything that is put at once, at the table's end too. */
static bool roomy(const builder *b, uint32_t rows)
{
    uint32_t free_cells = 0;
    for (uint32_t i = 0; i < b->cells; i++)
        free_cells += !b->pinned[i];
    return b->steps + KEPT_FREE < rows && b->count + KEPT_FREE < MAX_FORMS
        && free_cells > b->cells / 2;
}

/* A legal step that nothing which is put here can be a part of. */
static void put_between(builder *b)
{
    switch (below(b->random, 6)) {
    case 0:
        put_arithmetic(b, true);
        break;
    case 1:
        put_jump(b, false, 0, 0);
        break;
    case 2:
        put_group(b, 1, false);
        break;
    default:
        break;
    }
}

/* Cells of which each two that follow one another are checked, the second of
 * one find being the first of the next. */
static void put_overlaps(builder *b, uint32_t finds)
{
    uint32_t form[FORM_WORDS] = { [F_B] = 1, [W_AUX] = 1 }, before = 0, at;
    for (uint32_t i = 0; i <= finds; i++) {
        uint32_t value = below(b->random, b->cells);
        uint32_t deref[FORM_WORDS] = { [F_B] = 1, [W_AUX] = 2 };
        if (!find_free(b, 1, &at))
            return;
        set_cells(b, at, &value, 1);
        form[OP_A] = word_sub(before, b->fp);
        form[OP_C] = deref[OP_A] = word_sub(at, b->fp);
        form[OP_B] = word_add(cell_at(b, before), value);
        if (i > 0)
            put_form(b, form);
        pin(b, value, 1);
        give_operand(b, deref, OP_C, below(b->random, FORM_MODES), cell_at(b, value));
        put_form(b, deref);
        before = at;
    }
}

/* Runs of cells, one for each turn of a loop whose frame moves on by 1. */
enum { RUN_X, RUN_J, RUN_TO_X, RUN_TO_J, RUN_C_X, RUN_C_J, RUN_GOES_ON, LOOP_RUNS };

static bool find_runs(builder *b, uint32_t cells, uint32_t runs[LOOP_RUNS])
{
    for (int i = 0; i < LOOP_RUNS; i++) {
        if (!find_free(b, cells, &runs[i]))
            return false;
        pin(b, runs[i], cells);
    }
    return true;
}

/* The cells that x leads to rise from turn to turn, and those that j leads to
 * fall, so that the sum is the same in all. */
static void fill_turn(builder *b, const uint32_t runs[LOOP_RUNS], uint32_t turn, uint32_t last,
                      const uint32_t modes[2])
{
    const uint32_t to[2] = { runs[RUN_TO_X] + turn, runs[RUN_TO_J] + last - turn };
    uint32_t goes_on = turn < last;
    set_cells(b, runs[RUN_X] + turn, &to[0], 1);
    set_cells(b, runs[RUN_J] + turn, &to[1], 1);
    set_cells(b, runs[RUN_GOES_ON] + turn, &goes_on, 1);
    for (uint32_t k = 0; k < 2; k++) {
        uint32_t word = modes[k] == IMMEDIATE ? 7 : modes[k] == FRAME ? word_add(b->fp, turn + 7)
                                                                     : below(b->random, P);
        set_cells(b, to[k], &word, 1);
        set_cells(b, runs[RUN_C_X + k] + turn, &word, 1);
    }
}

static void put_loop_deref(builder *b, uint32_t at, uint32_t mode, uint32_t c_at)
{
    uint32_t form[FORM_WORDS] = { [OP_A] = word_sub(at, b->fp), [F_B] = 1, [W_AUX] = 2 };
    form[OP_C] = mode == CELL ? word_sub(c_at, b->fp) : 7;
    form[F_C] = mode == IMMEDIATE;
    form[FP_C] = mode == FRAME;
    put_form(b, form);
}

/* A find that is made again in each turn, of other cells. */
static void put_range_loop(builder *b)
{
    uint32_t last = 1 + below(b->random, MOST_TURNS), top = b->count, runs[LOOP_RUNS];
    const uint32_t modes[2] = { below(b->random, FORM_MODES), below(b->random, FORM_MODES) };
    if (!find_runs(b, last + 1, runs))
        return;
    for (uint32_t turn = 0; turn <= last; turn++)
        fill_turn(b, runs, turn, last, modes);
    uint32_t add[FORM_WORDS] = { [OP_A] = word_sub(runs[RUN_X], b->fp), [F_B] = 1, [W_AUX] = 1,
                                 [OP_B] = word_add(cell_at(b, runs[RUN_X]), cell_at(b, runs[RUN_J])),
                                 [OP_C] = word_sub(runs[RUN_J], b->fp) };
    uint32_t back[FORM_WORDS] = { [OP_A] = word_sub(runs[RUN_GOES_ON], b->fp), [OP_B] = top, [OP_C] = 1,
                                  [F_B] = 1, [FP_C] = 1, [W_JUMP] = 1 };
    put_loop_deref(b, runs[RUN_X], modes[0], runs[RUN_C_X]);
    put_form(b, add);
    put_loop_deref(b, runs[RUN_J], modes[1], runs[RUN_C_J]);
    put_form(b, back);
    b->steps += 4 * last;
    b->fp = word_add(b->fp, last);
}

/* A find that is jumped to in some frame, or into behind its first, second or
 * third. */
static void put_entered(builder *b, uint32_t left_out)
{
    uint32_t frame = some_frame(b);
    put_jump(b, true, b->count + 1 + left_out, frame);
    b->fp = frame;
    put_find(b, below(b->random, FORM_MODES), below(b->random, FORM_MODES));
    b->steps -= left_out;
}

static void put_piece(differ *d, builder *b, uint32_t zeros)
{
    switch (below(b->random, 8)) {
    case 0:
        note(d, ", %s", "overlaps");
        put_overlaps(b, 1 + below(b->random, 4));
        break;
    case 1:
        note(d, ", %s", "loop");
        put_range_loop(b);
        break;
    case 2:
        note(d, ", %s", "entered");
        put_entered(b, below(b->random, 4));
        break;
    default:
        note(d, ", %s", range_ways[next_way]);
        put_triple(b, zeros, next_way);
        next_way = (next_way + 1) % RANGE_WAYS;
    }
}

/* The last rows: a find to row H - 2, or what the last row cuts. */
static void put_last_rows(differ *d, builder *b, uint32_t rows)
{
    uint32_t steps = 1 + below(b->random, 3);
    while (b->steps < rows - 1 - steps && b->count + KEPT_FREE / 4 < MAX_FORMS)
        put_arithmetic(b, true);
    note(d, ", %" PRIu32 " at the end", steps);
    if (steps == 3)
        put_find(b, below(b->random, FORM_MODES), below(b->random, FORM_MODES));
    else
        put_start(b, steps);
}

void build_ranges(differ *d, world *w, enum range_way first)
{
    builder b = { .random = &d->random, .to = w };
    uint32_t m = 8 + below(b.random, 5), pieces = 1 + below(b.random, 16), zeros;
    const uint32_t five[5] = { 0 };
    const uint32_t rows = 256;
    b.cells = (uint32_t)1 << m;
    w->len[MEMORY] = unit_of(MEMORY) << m;
    w->len[EXECUTION] = unit_of(EXECUTION) * rows;
    w->len[EXTENSIONS] = unit_of(EXTENSIONS) * 256;
    w->shuffled = false;
    w->recipe.n = 0;
    fill_memory(&b);
    find_free(&b, 5, &zeros);
    set_cells(&b, zeros, five, 5);
    b.fp = some_frame(&b);
    for (uint32_t dead = below(b.random, 3); dead > 0; dead--)
        put_dead_form(&b);
    w->pc = b.count;
    w->fp = b.fp;
    note(d, "ranges, m %" PRIu32 " pc %" PRIu64 " fp %" PRIu64 ": %s", m, w->pc, w->fp, range_ways[first]);
    put_triple(&b, zeros, first);
    for (; pieces > 0 && roomy(&b, rows); pieces--) {
        put_between(&b);
        put_piece(d, &b, zeros);
    }
    if (once_in(b.random, 3))
        put_last_rows(d, &b, rows);
    put_jump(&b, true, b.count, b.fp);
    w->len[PROGRAM] = unit_of(PROGRAM) * b.count;
}
