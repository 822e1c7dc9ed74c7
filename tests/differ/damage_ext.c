/* Extension tables with something else in them: single words and rows.  For
 * whole groups see damage_groups.c. */
#include "world.h"

#include <inttypes.h>

#include "groups.h"
#include "lookups.h"

static void follow_five(world *w, uint32_t row, uint32_t index, uint32_t to)
{
    uint32_t at = get(w, EXTENSIONS, row, index), cells = count_of(w, MEMORY);
    for (uint32_t i = 0; i < 5 && at < cells && i < cells - at; i++)
        put(w, EXTENSIONS, row, to + i, get(w, MEMORY, at + i, 0));
}

void follow_ext(world *w, uint32_t row)
{
    uint32_t at = get(w, EXTENSIONS, row, X_IDX_A);
    if (at < count_of(w, MEMORY))
        put(w, EXTENSIONS, row, X_BASE, get(w, MEMORY, at, 0));
    follow_five(w, row, X_IDX_A, X_VA);
    follow_five(w, row, X_IDX_B, X_VB);
    follow_five(w, row, X_IDX_R, X_RES);
}

uint32_t busy_groups(const world *w)
{
    uint32_t rows = count_of(w, EXTENSIONS);
    while (rows > 0 && get(w, EXTENSIONS, rows - 1, X_ADD) == 0
           && get(w, EXTENSIONS, rows - 1, X_MUL) == 0
           && get(w, EXTENSIONS, rows - 1, X_PEQ) == 0)
        rows--;
    return rows;
}

uint32_t some_ext_row(differ *d, const world *w)
{
    uint32_t rows = count_of(w, EXTENSIONS), busy = busy_groups(w);
    switch (below(&d->random, 8)) {
    case 0:
        return below(&d->random, rows);
    case 1:
        return rows - 1 - below(&d->random, 2);
    default:
        return below(&d->random, busy + 2 < rows ? busy + 2 : rows);
    }
}

static void change_word(differ *d, world *w)
{
    uint32_t row = some_ext_row(d, w);
    uint32_t column = below(&d->random, once_in(&d->random, 2) ? EXT_WORDS
                                                               : X_VA);
    put(w, EXTENSIONS, row, column, other_word(d, w, EXTENSIONS, row, column));
    note(d, "; ext row %" PRIu32 " column %" PRIu32 " is %" PRIu32, row, column,
         get(w, EXTENSIONS, row, column));
}

/* One of the four lookups gives what the memory does not hold, all the rest of
 * the row being right. */
static void change_value(differ *d, world *w)
{
    uint32_t row = some_ext_row(d, w);
    uint32_t column = X_BASE + below(&d->random, EXT_WORDS - X_BASE);
    uint32_t old = get(w, EXTENSIONS, row, column);
    put(w, EXTENSIONS, row, column, word_add(old, 1 + below(&d->random, P - 1)));
    note(d, "; ext row %" PRIu32 " column %" PRIu32 " off", row, column);
}

/* A flag that is another flag, or none. */
static void change_flag(differ *d, world *w)
{
    static const uint32_t flags[] = { X_START, X_ADD, X_MUL, X_PEQ, X_BE };
    uint32_t row = some_ext_row(d, w), column = flags[below(&d->random, 5)];
    uint32_t word = get(w, EXTENSIONS, row, column) ^ 1;
    if (once_in(&d->random, 2))
        word = 2 + below(&d->random, P - 2);
    put(w, EXTENSIONS, row, column, word);
    note(d, "; ext row %" PRIu32 " flag %" PRIu32 " is %" PRIu32, row, column,
         word);
}

/* Another index with its right values.  idxR is free after a first row. */
static void move_lookup(differ *d, world *w)
{
    uint32_t row = some_ext_row(d, w), column = X_IDX_A + below(&d->random, 3);
    uint32_t last = count_of(w, MEMORY) - 5;
    put(w, EXTENSIONS, row, column,
        once_in(&d->random, 8) ? last : below(&d->random, last + 1));
    follow_ext(w, row);
    note(d, "; ext row %" PRIu32 " looks up %" PRIu32 " at %" PRIu32, row, column,
         get(w, EXTENSIONS, row, column));
}

static void change_lookup(differ *d, world *w)
{
    damage_lookup(d, w, EXTENSIONS, some_ext_row(d, w));
}

static void swap_rows(differ *d, world *w)
{
    uint32_t one = some_ext_row(d, w), other = some_ext_row(d, w);
    for (uint32_t k = 0; k < EXT_WORDS; k++) {
        uint32_t word = get(w, EXTENSIONS, one, k);
        put(w, EXTENSIONS, one, k, get(w, EXTENSIONS, other, k));
        put(w, EXTENSIONS, other, k, word);
    }
    w->shuffled = true;
    note(d, "; ext rows %" PRIu32 " and %" PRIu32 " swapped", one, other);
}

/* A row after a group's end whose start is neither 0 nor 1, made so that the
 * row before it holds all its rules: only its own rule 2 refuses it. */
static void sly_start(differ *d, world *w)
{
    uint32_t row = 1 + below(&d->random, count_of(w, EXTENSIONS) - 1);
    if (once_in(&d->random, 2) && busy_groups(w) > 0
        && busy_groups(w) < count_of(w, EXTENSIONS))
        row = busy_groups(w);
    static const uint32_t same[] = { X_ADD, X_MUL, X_PEQ, X_BE, X_IDX_R };
    for (int i = 0; i < 5; i++)
        put(w, EXTENSIONS, row, same[i], get(w, EXTENSIONS, row - 1, same[i]));
    uint32_t stride = get(w, EXTENSIONS, row, X_BE) == 1 ? 1 : 5;
    put(w, EXTENSIONS, row, X_START, 2 + below(&d->random, P - 2));
    put(w, EXTENSIONS, row, X_LEN, 0);
    put(w, EXTENSIONS, row, X_IDX_A,
        word_add(get(w, EXTENSIONS, row - 1, X_IDX_A), stride));
    put(w, EXTENSIONS, row, X_IDX_B,
        word_add(get(w, EXTENSIONS, row - 1, X_IDX_B), 5));
    for (uint32_t i = 0; i < 5; i++)
        put(w, EXTENSIONS, row, X_COMP + i,
            i == 0 ? get(w, EXTENSIONS, row, X_PEQ) : 0);
    follow_ext(w, row);
    note(d, "; ext row %" PRIu32 " starts by %" PRIu32, row,
         get(w, EXTENSIONS, row, X_START));
}

/* The same inside a group, where the row before then breaks rule 17 alone: a
 * start of 2 makes its factor -1, so what it is to give changes sign. */
static void sly_tail(differ *d, world *w)
{
    uint32_t row = some_ext_row(d, w);
    if (get(w, EXTENSIONS, row, X_START) != 0)
        return;
    uint32_t peq = get(w, EXTENSIONS, row, X_PEQ);
    put(w, EXTENSIONS, row, X_START, 2);
    for (uint32_t i = 0; i < 5; i++) {
        uint32_t old = get(w, EXTENSIONS, row, X_COMP + i);
        put(w, EXTENSIONS, row, X_COMP + i,
            word_sub(i == 0 && peq == 1 ? 2 : 0, old));
    }
    note(d, "; ext row %" PRIu32 " of a tail starts by 2", row);
}

void damage_ext(differ *d, world *w)
{
    static void (*const damages[])(differ *, world *) = {
        change_word, change_word, change_word, change_value, change_flag,
        change_flag, move_lookup, move_lookup, change_lookup, swap_rows,
        sly_start, sly_tail, sly_tail,
        damage_groups, damage_groups, damage_groups, damage_groups,
        damage_groups, damage_groups
    };
    damages[below(&d->random, sizeof damages / sizeof *damages)](d, w);
}
