/* Calls of the judge of two buffers, each beside the judge of the two joined. */
#include "splits.h"

#include <inttypes.h>
#include <stdlib.h>
#include <string.h>

#include "tries.h"

enum { WIDEST_M = 16, WIDE_ROUNDS = 6 };

static world right, other; /* the second is the copy that is changed */

static bool widen(world *w)
{
    free(w->bytes[MEMORY]);
    w->bytes[MEMORY] = calloc((size_t)1 << WIDEST_M, unit_of(MEMORY));
    return w->bytes[MEMORY] != NULL;
}

bool splits_open(void)
{
    return world_open(&right) && world_open(&other) && widen(&right)
        && widen(&other);
}

attempt split_of(differ *d, const world *w, size_t public_len, size_t rest_len)
{
    attempt t = attempt_on(d, SPLIT, w);
    t.lent[S_ANSWER] = t.lent[PARTS];
    t.lent[S_EXTENSIONS] = t.lent[EXTENSIONS];
    t.lent[S_EXECUTION] = t.lent[EXECUTION];
    t.lent[S_PUBLIC] = (buffer){ w->bytes[MEMORY], public_len, false };
    t.lent[S_REST] = (buffer){ w->bytes[MEMORY] + public_len, rest_len, false };
    return t;
}

/* The library's judge on the two joined gives the six numbers told. */
static void compare_joined(differ *d, const attempt *t, const uint8_t told[ANSWER_BYTES])
{
    const buffer *first = &t->lent[S_PUBLIC];
    attempt joined = { .function = JUDGE, .pc = t->pc, .fp = t->fp,
                       .sorted = t->sorted, .extra = true };
    joined.lent[PROGRAM] = t->lent[S_PROGRAM];
    joined.lent[MEMORY] = (buffer){ first->bytes, first->len + t->lent[S_REST].len,
                                    first->borrowed };
    joined.lent[EXECUTION] = t->lent[S_EXECUTION];
    joined.lent[EXTENSIONS] = t->lent[S_EXTENSIONS];
    joined.lent[PARTS].len = ANSWER_BYTES;
    second_answer a = compare(d, &joined);
    if (memcmp(told, d->slots[PARTS].lent, ANSWER_BYTES) != 0)
        differs(d, "another answer than the judge's on the two joined");
    else if (a.verdict < JUDGED_VERDICTS)
        d->reached.splits.joined[a.verdict]++;
}

second_answer compare_split(differ *d, const attempt *t)
{
    uint8_t told[ANSWER_BYTES];
    size_t mark = d->what_len;
    note(d, "; cut into %zu and %zu bytes", t->lent[S_PUBLIC].len,
         t->lent[S_REST].len);
    second_answer a = compare(d, t);
    count_split(&d->reached.splits, t, a);
    if (a.verdict != ANSWER
        && cut_of(t->lent[S_PUBLIC].len, t->lent[S_REST].len).m != 0) {
        memcpy(told, d->slots[S_ANSWER].lent, sizeof told);
        compare_joined(d, t, told);
    }
    note_back(d, mark);
    return a;
}

second_answer call_split(differ *d, const world *w, size_t public_len,
                         size_t rest_len)
{
    attempt t = split_of(d, w, public_len, rest_len);
    t.lent[S_ANSWER].len = ANSWER_BYTES;
    return compare_split(d, &t);
}

second_answer call_cut(differ *d, const world *w, uint32_t k)
{
    size_t public_len = unit_of(MEMORY) << k;
    return call_split(d, w, public_len, w->len[MEMORY] - public_len);
}

/* Mostly a good cut of a memory of that length, if it has any. */
static size_t some_public(source *random, size_t len)
{
    uint32_t cuts = 1;
    while (2 * unit_of(MEMORY) << cuts <= len)
        cuts++;
    switch (below(random, 16)) {
    case 0:
        return below(random, (uint32_t)len + 1);
    case 1:
        return len;
    default:
        return unit_of(MEMORY) << below(random, cuts);
    }
}

void try_split(differ *d, const world *w)
{
    size_t len = w->len[MEMORY], public_len = some_public(&d->random, len);
    if (public_len > len)
        public_len = len;
    attempt t = split_of(d, w, public_len, len - public_len);
    compare_split(d, &t);
}

void build_halted(differ *d, world *w, uint32_t m)
{
    const uint32_t modes[3] = { IMMEDIATE, IMMEDIATE, FRAME };
    builder b = { .random = &d->random, .to = w, .cells = (uint32_t)1 << m };
    w->len[MEMORY] = unit_of(MEMORY) << m;
    w->len[EXECUTION] = 256 * unit_of(EXECUTION);
    w->len[EXTENSIONS] = 256 * unit_of(EXTENSIONS);
    w->pc = w->fp = 0;
    for (uint32_t i = 0; i < b.cells; i++)
        put(w, MEMORY, i, 0, 1 + below(&d->random, P - 1));
    put_jump_in(&b, modes, true, 0, 0);
    w->len[PROGRAM] = unit_of(PROGRAM) * b.count;
    if (second_tables(w).verdict != ACCEPTED)
        differs(d, "the second has no tables of a halt");
    note_back(d, 0);
    note(d, "halted, m %" PRIu32, m);
}

/* Every cut of small memories, and some of larger ones. */
void try_split_edges(differ *d)
{
    for (uint32_t m = LEAST_M; m <= EVERY_M; m++)
        for (uint32_t k = 0; k < m; k++) {
            try_split_cells(d, &right, &other, m, k);
            try_split_groups(d, &right, &other, m, k);
        }
    for (uint32_t i = 0; i < WIDE_ROUNDS; i++) {
        uint32_t m = EVERY_M + 1 + below(&d->random, WIDEST_M - EVERY_M);
        try_split_cells(d, &right, &other, m, below(&d->random, m));
    }
    try_split_lengths(d, &right, &other);
}
