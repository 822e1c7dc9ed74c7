/* One world, tabled, judged, also with its memory in two buffers, counted and
 * searched as it is and in many other ways. */
#include "ranges.h"
#include "runs.h"
#include "splits.h"
#include "tries.h"

enum { JUDGED = 10 };

static world right, other; /* a world and the copy that is changed */

bool rounds_open(void)
{
    return world_open(&right) && world_open(&other);
}

/* What ends a call before the rules are asked. */
static void spoil(differ *d, world *w, int parts)
{
    switch (below(&d->random, 4)) {
    case 0:
        spoil_length(d, w);
        break;
    case 1:
        spoil_word(d, w, parts);
        break;
    case 2:
        spoil_start(d, w);
        break;
    default:
        spoil_form(d, w);
    }
}

static void try_spoiled_tabler(differ *d)
{
    world_copy(&other, &right);
    for (int more = 1; more > 0; more = once_in(&d->random, 4)) {
        if (once_in(&d->random, 2))
            spoil_step(d, &other);
        else
            spoil(d, &other, EXECUTION);
    }
    try_tabler(d, &other);
}

static void judge_and_more(differ *d, const world *w)
{
    try_judge(d, w);
    try_split(d, w);
    try_count(d, w);
    try_ranges(d, w);
}

static void try_damaged_judge(differ *d)
{
    world_copy(&other, &right);
    for (int more = 1; more > 0; more = once_in(&d->random, 5)) {
        if (once_in(&d->random, 2))
            damage_exec(d, &other);
        else
            damage_ext(d, &other);
    }
    if (once_in(&d->random, 6))
        spoil(d, &other, PARTS);
    judge_and_more(d, &other);
}

void try_world(differ *d)
{
    note_back(d, 0);
    world_make(d, &right);
    size_t mark = d->what_len;
    if (right.recipe.n != 0)
        try_run(d, &right);
    try_tabler(d, &right);
    for (int i = 0; i < 3 && more_calls(d); i++) {
        try_spoiled_tabler(d);
        note_back(d, mark);
    }
    second_answer a = second_tables(&right);
    /* tables of a run that got stuck are all zero: one look is enough */
    int times = a.verdict == ACCEPTED ? JUDGED : 1;
    for (int i = 0; i < times && more_calls(d); i++) {
        if (i == 0)
            judge_and_more(d, &right);
        else
            try_damaged_judge(d);
        note_back(d, mark);
    }
}
