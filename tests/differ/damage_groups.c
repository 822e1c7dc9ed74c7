/* Extension tables whose groups stand elsewhere, or are more or fewer. */
#include "groups.h"

#include <inttypes.h>
#include <string.h>

/* The table as it was while it is written anew. */
static uint8_t before[2 * MAX_ROWS * 4 * EXT_WORDS];

static uint8_t *row_at(const world *w, uint32_t row)
{
    return word_at(w, EXTENSIONS, row, 0);
}

static void copy_rows(world *w, uint32_t to, uint32_t from, uint32_t count)
{
    memmove(row_at(w, to), row_at(w, from), unit_of(EXTENSIONS) * count);
}

/* The rows from `row` up to the next that starts a group. */
static uint32_t block_length(const world *w, uint32_t row)
{
    uint32_t end = row + 1;
    while (end < count_of(w, EXTENSIONS) && get(w, EXTENSIONS, end, X_START) != 1)
        end++;
    return end - row;
}

/* The first row of some group; false if there is none. */
static bool some_group(differ *d, const world *w, uint32_t *row)
{
    uint32_t busy = busy_groups(w);
    if (busy == 0)
        return false;
    *row = below(&d->random, busy);
    while (*row > 0 && get(w, EXTENSIONS, *row, X_START) != 1)
        --*row;
    return true;
}

/* Whole groups in another order, all padding among them or none.  A group of
 * one may come to stand last and is accepted there; a longer one is not. */
static void shuffle(differ *d, world *w)
{
    static uint32_t starts[2 * MAX_ROWS];
    bool padding_too = once_in(&d->random, 2);
    uint32_t rows = padding_too ? count_of(w, EXTENSIONS) : busy_groups(w);
    uint32_t blocks = 0, to = 0;
    for (uint32_t row = 0; row < rows; row += block_length(w, row))
        starts[blocks++] = row;
    for (uint32_t i = blocks; i > 1; i--) {
        uint32_t k = below(&d->random, i), start = starts[k];
        starts[k] = starts[i - 1];
        starts[i - 1] = start;
    }
    memcpy(before, w->bytes[EXTENSIONS], w->len[EXTENSIONS]);
    static uint32_t lengths[2 * MAX_ROWS];
    for (uint32_t i = 0; i < blocks; i++)
        lengths[i] = block_length(w, starts[i]);
    for (uint32_t i = 0; i < blocks; i++) {
        memcpy(row_at(w, to), before + unit_of(EXTENSIONS) * starts[i],
               unit_of(EXTENSIONS) * lengths[i]);
        to += lengths[i];
    }
    w->shuffled = true;
    note(d, "; %" PRIu32 " groups shuffled%s", blocks,
         padding_too ? " with the padding" : "");
}

/* The padding first, so that the last group ends on the last row. */
static void padding_first(differ *d, world *w)
{
    uint32_t rows = count_of(w, EXTENSIONS), busy = busy_groups(w);
    memcpy(before, w->bytes[EXTENSIONS], w->len[EXTENSIONS]);
    copy_rows(w, 0, busy, rows - busy);
    memcpy(row_at(w, rows - busy), before, unit_of(EXTENSIONS) * busy);
    note(d, "; padding first");
}

static void double_group(differ *d, world *w)
{
    uint32_t row, to = busy_groups(w);
    if (!some_group(d, w, &row))
        return;
    uint32_t length = block_length(w, row);
    if (to + length > count_of(w, EXTENSIONS))
        return;
    copy_rows(w, to, row, length);
    w->shuffled = true;
    note(d, "; group at ext row %" PRIu32 " twice", row);
}

/* The group's rows become copies of the last row. */
static void drop_group(differ *d, world *w)
{
    uint32_t row;
    if (!some_group(d, w, &row))
        return;
    note(d, "; group at ext row %" PRIu32 " left out", row);
    for (uint32_t left = block_length(w, row); left > 0; left--, row++)
        copy_rows(w, row, count_of(w, EXTENSIONS) - 1, 1);
    w->shuffled = true;
}

/* Rows of a group without its first at the table's top: they pull nothing. */
static void tail_on_top(differ *d, world *w)
{
    uint32_t row, rows = count_of(w, EXTENSIONS);
    if (!some_group(d, w, &row))
        return;
    uint32_t length = block_length(w, row);
    uint32_t skip = length > 1 ? 1 + below(&d->random, length - 1) : 0;
    uint32_t tail = length - skip;
    if (busy_groups(w) + tail >= rows)
        return;
    memcpy(before, row_at(w, row + skip), unit_of(EXTENSIONS) * tail);
    copy_rows(w, tail, 0, rows - tail);
    memcpy(row_at(w, 0), before, unit_of(EXTENSIONS) * tail);
    if (skip == 0) /* a group of one, made a tail */
        put(w, EXTENSIONS, 0, X_START, 0);
    note(d, "; tail of ext row %" PRIu32 " on top", row);
}

/* Another word after a group's first row, in what its rows must share or
 * count: lookups and sums of the rows before stay whole. */
static void break_tail(differ *d, world *w)
{
    static const uint32_t columns[] = { X_ADD, X_MUL, X_PEQ, X_LEN, X_IDX_A,
                                        X_IDX_B, X_BE, X_START };
    uint32_t row, column = columns[below(&d->random, 8)];
    for (int tries = 0; tries < 8; tries++) {
        if (!some_group(d, w, &row))
            return;
        uint32_t length = block_length(w, row);
        if (length < 2)
            continue;
        row += 1 + below(&d->random, length - 1);
        uint32_t old = get(w, EXTENSIONS, row, column);
        put(w, EXTENSIONS, row, column,
            once_in(&d->random, 2) ? old ^ 1 : word_add(old, 1));
        note(d, "; tail row %" PRIu32 " column %" PRIu32 " is %" PRIu32, row,
             column, get(w, EXTENSIONS, row, column));
        return;
    }
}

/* The first of five cells that hold first, 0, 0, 0, 0; false if none do. */
static bool find_five(const world *w, uint32_t first, uint32_t *at)
{
    uint32_t cells = count_of(w, MEMORY);
    for (*at = 0; *at + 5 <= cells; ++*at) {
        uint32_t k = 1;
        while (k < 5 && get(w, MEMORY, *at + k, 0) == 0)
            k++;
        if (k == 5 && get(w, MEMORY, *at, 0) == first)
            return true;
    }
    return false;
}

/* A row that nothing pushes: 0 + 0 = 0 * 0 = 0, and with 1 both product and
 * peq give the other factor; so two operations may stand on one row. */
static void invent_row(differ *d, world *w)
{
    uint32_t one = below(&d->random, 2), row = busy_groups(w), at;
    bool top = once_in(&d->random, 3);
    if (row >= count_of(w, EXTENSIONS) || !find_five(w, one, &at))
        return;
    if (top) {
        copy_rows(w, 1, 0, count_of(w, EXTENSIONS) - 1);
        row = 0;
    }
    uint32_t which = 1 + below(&d->random, 3);
    uint32_t factor = one ? below(&d->random, count_of(w, MEMORY) - 4) : at;
    const uint32_t words[X_BASE] = {
        [X_START] = !top, [X_LEN] = 1, [X_IDX_A] = at, [X_IDX_B] = factor,
        [X_IDX_R] = factor, [X_BE] = below(&d->random, 2),
        [X_ADD] = one ? 0 : which & 1, [X_MUL] = one ? which & 1 : which >> 1,
        [X_PEQ] = one ? which >> 1 : 0
    };
    for (uint32_t k = 0; k < X_BASE; k++)
        put(w, EXTENSIONS, row, k, words[k]);
    follow_ext(w, row);
    for (uint32_t i = 0; i < 5; i++)
        put(w, EXTENSIONS, row, X_COMP + i, get(w, EXTENSIONS, row, X_RES + i));
    w->shuffled = true;
    note(d, "; invented ext row %" PRIu32 ", operations %" PRIu32, row, which);
}

/* Half the rows, or twice as many of which the second half is padding. */
static void change_height(differ *d, world *w)
{
    uint32_t rows = count_of(w, EXTENSIONS);
    if (rows > 256 && once_in(&d->random, 2)) {
        w->len[EXTENSIONS] /= 2;
    } else if (rows < MAX_ROWS) {
        for (uint32_t i = rows; i < 2 * rows; i++)
            copy_rows(w, i, rows - 1, 1);
        w->len[EXTENSIONS] *= 2;
    }
    note(d, "; %" PRIu32 " ext rows", count_of(w, EXTENSIONS));
}

void damage_groups(differ *d, world *w)
{
    static void (*const damages[])(differ *, world *) = {
        shuffle, shuffle, padding_first, double_group, drop_group, tail_on_top,
        break_tail, break_tail, break_tail, break_tail, invent_row, invent_row,
        change_height
    };
    damages[below(&d->random, sizeof damages / sizeof *damages)](d, w);
}
