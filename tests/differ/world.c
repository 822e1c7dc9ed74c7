#include "world.h"

#include <inttypes.h>
#include <stdlib.h>
#include <string.h>

#include "seeds.h"

static const size_t largest[PARTS] = {
    (size_t)MAX_FORMS * 4 * FORM_WORDS, (size_t)MAX_CELLS * 4,
    (size_t)MAX_ROWS * 4 * EXEC_WORDS, (size_t)MAX_ROWS * 4 * EXT_WORDS
};

/* Longer lengths are tried too, so there is more room than the largest. */
size_t room_of(int part)
{
    return 2 * largest[part] + unit_of(part);
}

bool world_open(world *w)
{
    memset(w, 0, sizeof *w);
    for (int i = 0; i < PARTS; i++) {
        w->bytes[i] = calloc(1, room_of(i));
        if (w->bytes[i] == NULL)
            return false;
    }
    return true;
}

void world_copy(world *to, const world *from)
{
    for (int i = 0; i < PARTS; i++) {
        memcpy(to->bytes[i], from->bytes[i], from->len[i]);
        to->len[i] = from->len[i];
    }
    to->pc = from->pc;
    to->fp = from->fp;
    to->shuffled = from->shuffled;
    to->recipe.n = 0;
}

static uint32_t some_height(source *random)
{
    return once_in(random, 8) ? 256u << below(random, 5) : 256u;
}

void world_by_recipe(differ *d, world *w, second_recipe r)
{
    w->recipe = r;
    w->len[PROGRAM] = unit_of(PROGRAM) * (r.n + 1);
    w->len[MEMORY] = (size_t)4 << r.m;
    w->pc = w->fp = 0;
    second_make(r, w->bytes[PROGRAM], w->len[PROGRAM], w->bytes[MEMORY],
                w->len[MEMORY]);
    note(d, "recipe %" PRIx64 " m %" PRIu32 " n %" PRIu32 " version %" PRIu32,
         r.seed, r.m, r.n, r.version);
}

static void make_by_recipe(differ *d, world *w)
{
    second_recipe r = { some_seed(&d->random),
                        once_in(&d->random, 8) ? 11 + below(&d->random, 2) : 10,
                        1 + below(&d->random, 124),
                        1 + below(&d->random, VERSIONS) };
    world_by_recipe(d, w, r);
}

void world_make(differ *d, world *w)
{
    w->len[EXECUTION] = unit_of(EXECUTION) * some_height(&d->random);
    w->len[EXTENSIONS] = unit_of(EXTENSIONS) * some_height(&d->random);
    w->shuffled = false;
    w->recipe.n = 0;
    if (once_in(&d->random, 4))
        make_by_recipe(d, w);
    else
        build(d, w);
    note(d, ", H %" PRIu32 " K %" PRIu32, count_of(w, EXECUTION),
         count_of(w, EXTENSIONS));
}

/* Mostly the right one, now and then another. */
static size_t answer_length(source *random)
{
    return once_in(random, 24) ? answer_lengths[below(random, ANSWER_LENGTHS)]
                               : ANSWER_BYTES;
}

attempt attempt_on(differ *d, enum function f, const world *w)
{
    attempt t = { .function = f, .pc = w->pc, .fp = w->fp };
    for (int i = 0; i < PARTS; i++)
        t.lent[i] = (buffer){ w->bytes[i], w->len[i], false };
    t.lent[PARTS].len = answer_length(&d->random);
    t.sorted = w->shuffled || count_of(w, EXTENSIONS) > 512
            || count_of(w, EXECUTION) > 512;
    return t;
}

void try_tabler(differ *d, const world *w)
{
    attempt t = attempt_on(d, TABLER, w);
    t.lent[EXECUTION].bytes = t.lent[EXTENSIONS].bytes = NULL;
    compare(d, &t);
}

void try_judge(differ *d, const world *w)
{
    attempt t = attempt_on(d, JUDGE, w);
    compare(d, &t);
}

second_answer second_tables(world *w)
{
    return second_table(w->bytes[PROGRAM], w->len[PROGRAM], w->bytes[MEMORY],
                        w->len[MEMORY], w->pc, w->fp, w->bytes[EXECUTION],
                        w->len[EXECUTION], w->bytes[EXTENSIONS],
                        w->len[EXTENSIONS]);
}
