#include "lookups.h"

#include <inttypes.h>

#include "tries.h"

const lookup lookups[LOOKUPS] = {
    { EXECUTION, ADDR_A, VALUE_A, 1 },   { EXECUTION, ADDR_B, VALUE_B, 1 },
    { EXECUTION, ADDR_C, VALUE_C, 1 },   { EXTENSIONS, X_IDX_A, X_BASE, 1 },
    { EXTENSIONS, X_IDX_A, X_VA, FIVE }, { EXTENSIONS, X_IDX_B, X_VB, FIVE },
    { EXTENSIONS, X_IDX_R, X_RES, FIVE },
};

/* ---- counting ---- */

/* A row's lookup beside the memory, by the bytes that were handed in. */
typedef struct {
    uint32_t index, cells, there; /* so many of its cells exist */
    uint32_t first, last;         /* of those that differ; FIVE if none does */
    uint32_t expected, found;     /* of the first */
} seen;

static seen look(const lookup *l, const attempt *t, uint32_t row)
{
    const uint8_t *at = t->lent[l->part].bytes + unit_of(l->part) * row;
    seen s = { load_word(at + 4 * l->index),
               (uint32_t)(t->lent[MEMORY].len / 4), 0, FIVE, FIVE, 0, 0 };
    while (s.there < l->count && s.index + s.there < s.cells) {
        uint32_t k = s.there++, found = load_word(at + 4 * (l->value + k));
        uint32_t word = load_word(t->lent[MEMORY].bytes
                                  + 4 * ((size_t)s.index + k));
        if (word == found)
            continue;
        if (s.first == FIVE) {
            s.first = k;
            s.expected = word;
            s.found = found;
        }
        s.last = k;
    }
    return s;
}

static void count_one(lookup_tally *l, uint32_t at, const seen *s,
                      enum function f)
{
    uint64_t *cases = l->cases[at];
    uint32_t end = s->index + lookups[at].count;
    bool told = s->there == lookups[at].count;
    cases[JUDGE_TOLD] += told && f == JUDGE;
    cases[COUNT_TOLD] += told && f == COUNT;
    cases[EXPECTED_0] += told && s->expected == 0;
    cases[FOUND_0] += told && s->found == 0;
    cases[TO_LAST_CELL] += end == s->cells;
    cases[ONE_PAST] += end == s->cells + 1;
    cases[FAR_OUT] += s->there == 0;
    if (at < FIRST_OF_FIVE)
        return;
    at -= FIRST_OF_FIVE;
    if (told) {
        l->first[at][s->first]++;
        l->later[at][s->first] += s->last != s->first;
    } else if (s->first != FIVE) {
        l->cut[at][s->first]++;
    } else {
        l->cut_equal[at] += s->there != 0;
    }
}

/* An answer with other words than these counts for nothing. */
static bool tells(const lookup *l, const seen *s, second_answer a)
{
    bool told = s->there == l->count;
    return a.expected == (told ? s->expected : 0)
        && a.found == (told ? s->found : 0);
}

void count_lookup(lookup_tally *l, const attempt *t, second_answer a)
{
    int part = a.verdict == EXEC ? EXECUTION : EXTENSIONS;
    if ((t->function != JUDGE && t->function != COUNT)
        || (a.verdict != EXEC && a.verdict != EXTENSION))
        return;
    for (uint32_t at = 0; at < LOOKUPS; at++)
        if (lookups[at].part == part && lookup_rules[at] == a.rule) {
            seen s = look(&lookups[at], t, a.place);
            if (tells(&lookups[at], &s, a))
                count_one(l, at, &s, t->function);
        }
}

/* ---- failing ---- */

void put_lookup(differ *d, world *w, const lookup *l, uint32_t row,
                uint32_t index, uint32_t off)
{
    uint32_t cells = count_of(w, MEMORY);
    put(w, l->part, row, l->index, index);
    if (l->value == X_VA && index < cells) /* rule 18 comes before rule 19 */
        put(w, EXTENSIONS, row, X_BASE, get(w, MEMORY, index, 0));
    for (uint32_t k = 0; k < l->count; k++) {
        bool there = index < cells && k < cells - index;
        uint32_t word = there ? get(w, MEMORY, index + k, 0) : 0;
        if ((off >> k & 1) != 0)
            word = once_in(&d->random, 2) ? word_add(word, 1)
                 : word_add(word, 1 + below(&d->random, P - 1));
        put(w, l->part, row, l->value + k, word);
    }
    note(d, "; part %d row %" PRIu32 " looks up %" PRIu32 " from %" PRIu32
         ", off %" PRIu32, l->part + 1, row, l->count, index, off);
}

static uint32_t some_index(differ *d, const world *w, const lookup *l,
                           uint32_t row)
{
    uint32_t cells = count_of(w, MEMORY);
    switch (below(&d->random, 8)) {
    case 0:
        return below(&d->random, cells);
    case 1:
        return cells - 6 + below(&d->random, 8);
    default:
        return get(w, l->part, row, l->index);
    }
}

void damage_lookup(differ *d, world *w, int part, uint32_t row)
{
    uint32_t at = part == EXECUTION ? below(&d->random, 3)
                                    : 3 + below(&d->random, LOOKUPS - 3);
    const lookup *l = &lookups[at];
    uint32_t index = some_index(d, w, l, row);
    put_lookup(d, w, l, row, index,
               1 + below(&d->random, (1u << l->count) - 1));
    if (once_in(&d->random, 8)) /* 0 is a word as any other */
        put(w, part, row, l->value + below(&d->random, l->count), 0);
}

/* ---- trying ---- */

/* Rows and cells that a recipe's run of so many instructions does not use. */
enum { RUN = 40, ROWS = 256, CELLS = 1024, FREE_ROW = 2 * RUN,
       FREE_CELL = 32 + 8 * RUN, FREE = CELLS - 5 - FREE_CELL };

static world right, other; /* a world and the copy that is changed */

bool lookups_open(void)
{
    return world_open(&right) && world_open(&other);
}

/* A recipe's world, with words of their own in the cells that are left. */
static void make_right(differ *d)
{
    second_recipe r = { next_number(&d->random), 10, RUN, 1 };
    right.len[PROGRAM] = unit_of(PROGRAM) * (RUN + 1);
    right.len[MEMORY] = unit_of(MEMORY) * CELLS;
    right.len[EXECUTION] = unit_of(EXECUTION) * ROWS;
    right.len[EXTENSIONS] = unit_of(EXTENSIONS) * ROWS;
    second_make(r, right.bytes[PROGRAM], right.len[PROGRAM],
                right.bytes[MEMORY], right.len[MEMORY]);
    for (uint32_t i = FREE_CELL; i < CELLS; i++)
        put(&right, MEMORY, i, 0, 1 + below(&d->random, P - 1));
    if (second_tables(&right).verdict != ACCEPTED)
        differs(d, "the second has no tables of a recipe");
}

static void judge_and_count(differ *d)
{
    grid fresh = { { 0 } };
    attempt t = attempt_on(d, JUDGE, &other);
    t.lent[PARTS].len = ANSWER_BYTES;
    t.extra = true;
    compare(d, &t);
    count_world(d, &other, SECOND_GRID_BYTES, ANSWER_BYTES, &fresh);
}

/* A fresh copy in which a row that is free looks up so. */
static uint32_t start_case(differ *d, const lookup *l, uint32_t index,
                           uint32_t off)
{
    uint32_t row = FREE_ROW + below(&d->random, ROWS - FREE_ROW);
    note_back(d, 0);
    note(d, "a lookup");
    world_copy(&other, &right);
    put_lookup(d, &other, l, row, index, off);
    return row;
}

static void try_index(differ *d, const lookup *l, uint32_t index, uint32_t off)
{
    start_case(d, l, index, off);
    judge_and_count(d);
}

/* The word of a cell is 0, and then what is found in its place. */
static void try_zeros(differ *d, const lookup *l)
{
    uint32_t index = FREE_CELL + below(&d->random, FREE);
    uint32_t k = below(&d->random, l->count);
    uint32_t row = start_case(d, l, index, 1u << k);
    put(&other, MEMORY, index + k, 0, 0);
    put(&other, l->part, row, l->value + k, 1 + below(&d->random, P - 1));
    if (k == 0 && l->value == X_VA)
        put(&other, l->part, row, X_BASE, 0);
    note(d, ", 0 expected");
    judge_and_count(d);
    row = start_case(d, l, index, 1u << k);
    put(&other, l->part, row, l->value + k, 0);
    note(d, ", 0 found");
    judge_and_count(d);
}

/* Every set of values that are off, of cells in range and to the last; then
 * across it, where those that are there may all be right. */
static void try_lookup(differ *d, const lookup *l)
{
    for (uint32_t off = 1; off < 1u << l->count; off++) {
        try_index(d, l, FREE_CELL + below(&d->random, FREE), off);
        try_index(d, l, CELLS - l->count, off);
    }
    for (uint32_t there = 0; there < l->count; there++)
        for (uint32_t off = 0; off < 1u << there; off++)
            try_index(d, l, CELLS - there, off);
    try_index(d, l, CELLS + 1 + below(&d->random, 8), 1);
    try_index(d, l, P - 1 - below(&d->random, 6), 1);
    try_zeros(d, l);
}

void try_lookups(differ *d)
{
    make_right(d);
    for (uint32_t at = 0; at < LOOKUPS; at++)
        try_lookup(d, &lookups[at]);
}
