/* Execution tables with something else in them.  A damage that leaves some
 * rules whole is what reaches the later ones. */
#include "lookups.h"

#include <inttypes.h>
#include <string.h>

void follow_exec(world *w, uint32_t row)
{
    for (uint32_t k = ADDR_A; k <= ADDR_C; k++) {
        uint32_t at = get(w, EXECUTION, row, k);
        if (at < count_of(w, MEMORY))
            put(w, EXECUTION, row, k + 3, get(w, MEMORY, at, 0));
    }
}

static void copy_row(world *w, uint32_t to, uint32_t from)
{
    memmove(word_at(w, EXECUTION, to, 0), word_at(w, EXECUTION, from, 0),
            unit_of(EXECUTION));
}

/* The rows before the run stays. */
static uint32_t busy_rows(const world *w)
{
    uint32_t rows = count_of(w, EXECUTION), last = rows - 1;
    while (rows > 0
           && memcmp(word_at(w, EXECUTION, rows - 1, 0),
                     word_at(w, EXECUTION, last, 0), unit_of(EXECUTION)) == 0)
        rows--;
    return rows;
}

/* Mostly a row of the run, sometimes one of the rest. */
static uint32_t some_row(differ *d, const world *w)
{
    uint32_t rows = count_of(w, EXECUTION), busy = busy_rows(w);
    switch (below(&d->random, 6)) {
    case 0:
        return below(&d->random, rows);
    case 1:
        return rows - 1 - below(&d->random, 2);
    default:
        return below(&d->random, busy + 2 < rows ? busy + 2 : rows);
    }
}

static void change_word(differ *d, world *w)
{
    uint32_t row = some_row(d, w), column = below(&d->random, EXEC_WORDS);
    put(w, EXECUTION, row, column, other_word(d, w, EXECUTION, row, column));
    note(d, "; exec row %" PRIu32 " column %" PRIu32 " is %" PRIu32, row, column,
         get(w, EXECUTION, row, column));
}

/* Another address with its right value: refused only where it is used. */
static void move_lookup(differ *d, world *w)
{
    uint32_t row = some_row(d, w), column = ADDR_A + below(&d->random, 3);
    put(w, EXECUTION, row, column, below(&d->random, count_of(w, MEMORY)));
    follow_exec(w, row);
    note(d, "; exec row %" PRIu32 " looks up %" PRIu32 " at %" PRIu32, row,
         column, get(w, EXECUTION, row, column));
}

static void change_lookup(differ *d, world *w)
{
    damage_lookup(d, w, EXECUTION, some_row(d, w));
}

static void swap_rows(differ *d, world *w)
{
    uint32_t one = some_row(d, w), other = some_row(d, w);
    for (uint32_t k = 0; k < EXEC_WORDS; k++) {
        uint32_t word = get(w, EXECUTION, one, k);
        put(w, EXECUTION, one, k, get(w, EXECUTION, other, k));
        put(w, EXECUTION, other, k, word);
    }
    note(d, "; exec rows %" PRIu32 " and %" PRIu32 " swapped", one, other);
}

static void drop_row(differ *d, world *w)
{
    uint32_t row = some_row(d, w);
    note(d, "; exec row %" PRIu32 " left out", row);
    for (; row + 1 < count_of(w, EXECUTION); row++)
        copy_row(w, row, row + 1);
}

static void repeat_row(differ *d, world *w)
{
    uint32_t row = some_row(d, w);
    note(d, "; exec row %" PRIu32 " twice", row);
    for (uint32_t i = count_of(w, EXECUTION) - 1; i > row; i--)
        copy_row(w, i, i - 1);
}

/* Row 0 and the start agree on a pc that is not the program's, or on another
 * frame or instruction. */
static void move_start(differ *d, world *w)
{
    uint32_t forms = count_of(w, PROGRAM);
    if (once_in(&d->random, 2))
        w->pc = forms - 1 + below(&d->random, 3);
    else
        w->fp = some_word(&d->random, count_of(w, MEMORY));
    put(w, EXECUTION, 0, PC, (uint32_t)w->pc);
    put(w, EXECUTION, 0, FP, (uint32_t)w->fp);
    note(d, "; start and row 0 at %" PRIu64 " %" PRIu64, w->pc, w->fp);
}

/* Another word in a cell that the run reads, with every lookup kept right, so
 * that what the values must satisfy is what fails. */
static void rewrite_cell(differ *d, world *w)
{
    uint32_t column = ADDR_A + below(&d->random, 3);
    uint32_t at = get(w, EXECUTION, some_row(d, w), column);
    if (at >= count_of(w, MEMORY) || once_in(&d->random, 3))
        at = below(&d->random, count_of(w, MEMORY));
    put(w, MEMORY, at, 0, other_word(d, w, MEMORY, at, 0));
    for (uint32_t i = 0; i < count_of(w, EXECUTION); i++)
        follow_exec(w, i);
    for (uint32_t i = 0; i < count_of(w, EXTENSIONS); i++)
        follow_ext(w, i);
    note(d, "; cell %" PRIu32 " is %" PRIu32 " throughout", at,
         get(w, MEMORY, at, 0));
}

/* Half the rows, or twice as many of which the second half stays. */
static void change_height(differ *d, world *w)
{
    uint32_t rows = count_of(w, EXECUTION);
    if (rows > 256 && once_in(&d->random, 2)) {
        w->len[EXECUTION] /= 2;
    } else if (rows < MAX_ROWS) {
        for (uint32_t i = rows; i < 2 * rows; i++)
            copy_row(w, i, rows - 1);
        w->len[EXECUTION] *= 2;
    }
    note(d, "; %" PRIu32 " exec rows", count_of(w, EXECUTION));
}

void damage_exec(differ *d, world *w)
{
    static void (*const damages[])(differ *, world *) = {
        change_word, change_word, change_word, move_lookup, move_lookup,
        change_lookup, swap_rows, drop_row, repeat_row, move_start, rewrite_cell,
        rewrite_cell, rewrite_cell, spoil_step, spoil_step, change_height
    };
    damages[below(&d->random, sizeof damages / sizeof *damages)](d, w);
}
