/* Recipes to the label writer and to the maker. */
#include "tries.h"

#include <inttypes.h>

#include "seeds.h"

static uint32_t out_of_range(source *random, uint32_t low, uint32_t high)
{
    switch (below(random, 5)) {
    case 0:
        return low - 1;
    case 1:
        return high + 1;
    case 2:
        return 0;
    case 3:
        return UINT32_MAX - below(random, 2);
    default: /* the low bits of a good one */
        return low + (1u << (8 + below(random, 24)));
    }
}

second_recipe some_recipe(source *random, bool in_range)
{
    second_recipe r = { some_seed(random), 10 + below(random, 20),
                        1 + below(random, 124), 1 + below(random, VERSIONS) };
    if (once_in(random, 4))
        r.n = once_in(random, 2) ? 124 : 1 + below(random, 10);
    if (in_range)
        return r;
    uint32_t which = 1 + below(random, 7); /* a bit for each */
    if ((which & 1) != 0)
        r.m = out_of_range(random, 10, 29);
    if ((which & 2) != 0)
        r.n = out_of_range(random, 1, 124);
    if ((which & 4) != 0)
        r.version = out_of_range(random, 1, VERSIONS);
    return r;
}

size_t some_answer_length(source *random)
{
    return once_in(random, 12) ? answer_lengths[below(random, ANSWER_LENGTHS)]
                               : ANSWER_BYTES;
}

size_t some_recipe_length(source *random)
{
    return once_in(random, 12) ? recipe_lengths[below(random, RECIPE_LENGTHS)]
                               : RECIPE_BYTES;
}

static void note_recipe(differ *d, const attempt *t)
{
    note(d, "recipe %" PRIx64 " m %" PRIu32 " n %" PRIu32 " version %" PRIu32
         ", lengths %zu %zu %zu", t->recipe.seed, t->recipe.m, t->recipe.n,
         t->recipe.version, t->lent[0].len, t->lent[1].len, t->lent[2].len);
}

/* A label is 35 to 37 bytes. */
void try_writer(differ *d)
{
    attempt t = { .function = LABEL_WRITER };
    t.recipe = some_recipe(&d->random, !once_in(&d->random, 4));
    t.lent[0].len = once_in(&d->random, 4) ? below(&d->random, 60)
                                           : 34 + below(&d->random, 5);
    t.lent[1].len = some_answer_length(&d->random);
    note_back(d, 0);
    note_recipe(d, &t);
    compare(d, &t);
}

static size_t near_length(source *random, size_t len, size_t unit)
{
    switch (below(random, 6)) {
    case 0:
        return 0;
    case 1:
        return len - 1;
    case 2:
        return len + 1;
    case 3:
        return len - unit;
    case 4:
        return len + unit;
    default:
        return once_in(random, 2) ? len / 2 : len * 2;
    }
}

/* Memory of up to 2^20 cells is filled; a larger one is only promised, with a
 * buffer of the wrong length. */
void try_maker(differ *d)
{
    attempt t = { .function = MAKER };
    source *random = &d->random;
    t.recipe = some_recipe(random, !once_in(random, 5));
    if (t.recipe.m >= 10 && t.recipe.m <= 29 && !once_in(random, 6))
        t.recipe.m = once_in(random, 100) ? 20 : 10 + below(random, 3);
    uint32_t m = t.recipe.m <= 20 ? t.recipe.m : 10;
    t.lent[0].len = 48 * ((size_t)(t.recipe.n % 1024) + 1);
    t.lent[1].len = (size_t)4 << m;
    t.lent[2].len = some_answer_length(random);
    if (once_in(random, 5))
        t.lent[0].len = near_length(random, t.lent[0].len, 48);
    if (m < 20 && once_in(random, 5))
        t.lent[1].len = near_length(random, t.lent[1].len, 4);
    note_back(d, 0);
    note_recipe(d, &t);
    compare(d, &t);
}
