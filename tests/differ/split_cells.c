/* Lookups and words about the seam of two buffers and about their end. */
#include "splits.h"

#include <inttypes.h>

#include "lookups.h"

/* A world that is cut in one place, and the copy that is changed. */
typedef struct {
    differ *d;
    world *right, *other;
    uint32_t k, seam, cells;
} site;

/* Up to the seam, across it, from it on, up to the end, or anywhere. */
static uint32_t some_index(const site *s, uint32_t count)
{
    source *random = &s->d->random;
    uint32_t from = s->seam < count ? 0 : s->seam - count;
    switch (below(random, 4)) {
    case 0:
        return below(random, s->cells - count + 1);
    case 1:
        return s->cells - count;
    default:
        return from + below(random, s->seam - from + 1);
    }
}

/* A padding row holds rule 9 where comp is res. */
static void follow_padding(world *w, uint32_t row)
{
    follow_ext(w, row);
    for (uint32_t i = 0; i < FIVE; i++)
        put(w, EXTENSIONS, row, X_COMP + i, get(w, EXTENSIONS, row, X_RES + i));
}

/* Every row of both tables looks up such cells, and all that they hold. */
static void look_about(const site *s)
{
    for (uint32_t row = 0; row < count_of(s->right, EXECUTION); row++) {
        for (uint32_t k = ADDR_A; k <= ADDR_C; k++)
            put(s->right, EXECUTION, row, k, some_index(s, 1));
        follow_exec(s->right, row);
    }
    for (uint32_t row = 0; row < count_of(s->right, EXTENSIONS); row++) {
        for (uint32_t k = X_IDX_A; k <= X_IDX_R; k++)
            put(s->right, EXTENSIONS, row, k, some_index(s, FIVE));
        follow_padding(s->right, row);
    }
    note(s->d, ", lookups about the seam at %" PRIu32, s->seam);
    if (call_cut(s->d, s->right, s->k).verdict != ACCEPTED)
        differs(s->d, "the second refuses lookups of what the cells hold");
}

static void try_lookup_at(const site *s, const lookup *l, uint32_t index, uint32_t off)
{
    size_t mark = s->d->what_len;
    world_copy(s->other, s->right);
    put_lookup(s->d, s->other, l, below(&s->d->random, count_of(s->other, l->part)), index, off);
    call_cut(s->d, s->other, s->k);
    note_back(s->d, mark);
}

/* From each cell by turns; one where there is one. */
static void each_off(const site *s, const lookup *l, uint32_t index)
{
    for (uint32_t k = 0; k < l->count; k++)
        try_lookup_at(s, l, index, 1u << k);
}

/* Each place of the seam, and none of the cells on its one side or the other. */
static void try_seam(const site *s, const lookup *l)
{
    for (uint32_t before = 0; before <= l->count && before <= s->seam; before++)
        each_off(s, l, s->seam - before);
}

/* Up to the last cell, and across it, where those that are there are right. */
static void try_end(const site *s, const lookup *l)
{
    each_off(s, l, s->cells - l->count);
    for (uint32_t there = 0; there < l->count; there++)
        try_lookup_at(s, l, s->cells - there, 0);
    try_lookup_at(s, l, s->cells + 1 + below(&s->d->random, s->cells), 0);
    try_lookup_at(s, l, P - 1 - below(&s->d->random, 6), 0);
}

static void spoil_cell(const site *s, uint32_t index)
{
    uint32_t word = too_large(&s->d->random, get(s->other, MEMORY, index, 0));
    put(s->other, MEMORY, index, 0, word);
    note(s->d, "; cell %" PRIu32 " is %" PRIu32, index, word);
}

/* One of two words at or above p comes first. */
static void try_words(const site *s)
{
    const uint32_t places[] = { 0, s->seam - 1, s->seam, s->cells - 1 };
    for (uint32_t i = 0; i < 4 * 4; i++) {
        size_t mark = s->d->what_len;
        world_copy(s->other, s->right);
        spoil_cell(s, places[i / 4]);
        if (i % 4 != i / 4)
            spoil_cell(s, places[i % 4]);
        call_cut(s->d, s->other, s->k);
        note_back(s->d, mark);
    }
}

/* One in another part too, which comes before or behind. */
static void try_words_beside(const site *s)
{
    static const int beside[] = { PROGRAM, EXECUTION, EXTENSIONS };
    for (uint32_t i = 0; i < 3; i++) {
        size_t mark = s->d->what_len;
        world_copy(s->other, s->right);
        spoil_cell(s, s->seam);
        put(s->other, beside[i], 0, 0, P);
        note(s->d, "; part %d word 0 is p", beside[i] + 1);
        call_cut(s->d, s->other, s->k);
        note_back(s->d, mark);
    }
}

void try_split_cells(differ *d, world *right, world *other, uint32_t m, uint32_t k)
{
    const site s = { d, right, other, k, (uint32_t)1 << k, (uint32_t)1 << m };
    build_halted(d, right, m);
    look_about(&s);
    for (uint32_t at = 0; at < LOOKUPS; at++) {
        try_seam(&s, &lookups[at]);
        try_end(&s, &lookups[at]);
    }
    try_words(&s);
    try_words_beside(&s);
}
