/* Calls of the finder of range checks: rooms of every kind, lengths that are
 * not right and tables that are refused. */
#include "ranges.h"

#include <inttypes.h>
#include <stdlib.h>
#include <string.h>

#include "tries.h"

enum { FINDS = PARTS, FOUND, TOLD };
enum { CHAIN_MEMORY = 16, CHAIN_ROWS = 256, EDGE_ROUNDS = 5 };

static world right, other, chain; /* the second is the copy that is changed */

bool ranges_open(void)
{
    if (!world_open(&right) || !world_open(&other) || !world_open(&chain))
        return false;
    free(chain.bytes[MEMORY]);
    chain.bytes[MEMORY] = calloc((size_t)1 << CHAIN_MEMORY, unit_of(MEMORY));
    return chain.bytes[MEMORY] != NULL;
}

static void count_room(uint64_t *cases, size_t room, size_t number)
{
    size_t need = FIND_BYTES * number;
    if (number == 0) {
        cases[room == 0 ? NONE_IN_NONE : NONE_KEPT]++;
        return;
    }
    cases[FINDS_EXACT] += room == need;
    cases[FINDS_MORE] += room >= need + FIND_BYTES;
    cases[FINDS_MORE_ODD] += room > need && room < need + FIND_BYTES;
    cases[FINDS_BYTE_SHORT] += room + 1 == need;
    cases[FINDS_ONE_SHORT] += room + FIND_BYTES == need;
    cases[FINDS_NO_ROOM] += room == 0;
}

/* What the library left beside what the rows have. */
static void check_finds(differ *d, const world *w)
{
    static uint8_t finds[FIND_BYTES * MOST_RANGES];
    const uint8_t *found = d->slots[FOUND].lent;
    uint32_t number = count_ranges(&d->reached.ranges, w, finds);
    if (load_word(found) != number || load_word(found + 4) != 0)
        differs(d, "another number of finds than the rows have");
    else if (number != 0 && memcmp(d->slots[FINDS].lent, finds, FIND_BYTES * (size_t)number) != 0)
        differs(d, "other finds than the rows have");
}

static second_answer call_ranges(differ *d, const world *w, size_t room, size_t found_len,
                                 size_t answer_len)
{
    range_tally *r = &d->reached.ranges;
    attempt t = attempt_on(d, RANGES, w);
    size_t mark = d->what_len;
    t.lent[FINDS].len = room;
    t.lent[FOUND].len = found_len;
    t.lent[TOLD].len = answer_len;
    note(d, "; finds of %zu, found %zu, answer %zu", room, found_len, answer_len);
    second_answer a = compare(d, &t);
    for (int i = 0; i < NEXT_LENGTHS * TOLD_LENGTHS; i++)
        r->lengths[i / TOLD_LENGTHS][i % TOLD_LENGTHS] += found_len == next_lengths[i / TOLD_LENGTHS]
            && answer_len == told_lengths[i % TOLD_LENGTHS];
    if (a.verdict == ACCEPTED) {
        check_finds(d, w);
        count_room(r->cases, room, load_word(d->slots[FOUND].mirror));
    }
    if (a.verdict == LIST)
        count_room(r->cases, room, a.place);
    note_back(d, mark);
    return a;
}

/* Its finds, by the library. */
static uint32_t number_of(differ *d, const world *w)
{
    call_ranges(d, w, unit_of(EXECUTION) * count_of(w, EXECUTION), FOUND_BYTES, ANSWER_BYTES);
    return load_word(d->slots[FOUND].lent);
}

static size_t some_room(source *random, uint32_t number)
{
    size_t need = FIND_BYTES * (size_t)number;
    switch (below(random, 7)) {
    case 0:
        return 0;
    case 1:
        return need == 0 ? 0 : need - 1;
    case 2:
        return need == 0 ? 7 : need - FIND_BYTES;
    case 3:
        return need + below(random, FIND_BYTES);
    case 4:
        return need + below(random, 300);
    case 5:
        return need == 0 ? 3 : below(random, (uint32_t)need);
    default:
        return need;
    }
}

void try_ranges(differ *d, const world *w)
{
    size_t room = once_in(&d->random, 2) ? 8192 : some_room(&d->random, 0);
    size_t found_len = fixed_length(&d->random, FOUND_BYTES);
    call_ranges(d, w, room, found_len, fixed_length(&d->random, ANSWER_BYTES));
}

/* ---- worlds made for it ---- */

static void change(differ *d, world *w)
{
    switch (below(&d->random, 8)) {
    case 0:
        spoil_length(d, w);
        break;
    case 1:
        spoil_word(d, w, PARTS);
        break;
    case 2:
        spoil_start(d, w);
        break;
    case 3:
        spoil_form(d, w);
        break;
    case 4:
        damage_ext(d, w);
        break;
    default:
        damage_exec(d, w);
    }
}

/* The judge's refusals come before LIST, and leave the finds' room alone. */
static void try_refused(differ *d, uint32_t number)
{
    uint64_t *cases = d->reached.ranges.cases;
    size_t mark = d->what_len, room = some_room(&d->random, number);
    world_copy(&other, &right);
    change(d, &other);
    second_answer a = call_ranges(d, &other, room, FOUND_BYTES, ANSWER_BYTES);
    if (a.verdict >= SIZE && a.verdict <= BUS && number > 0)
        cases[room < FIND_BYTES * (size_t)number ? REFUSED_BEFORE_LIST : REFUSED_KEPT]++;
    cases[REFUSED_LOOKUP] += (a.expected | a.found) != 0;
    note_back(d, mark);
}

static void make_world(differ *d, enum range_way first)
{
    note_back(d, 0);
    build_ranges(d, &right, first);
    if (second_tables(&right).verdict != ACCEPTED)
        differs(d, "the second has no tables of such a program");
}

void try_range_world(differ *d)
{
    make_world(d, below(&d->random, RANGE_WAYS));
    uint32_t number = number_of(d, &right);
    for (int i = 0; i < 3; i++) {
        call_ranges(d, &right, some_room(&d->random, number), FOUND_BYTES, ANSWER_BYTES);
        try_refused(d, number);
    }
}

/* ---- once ---- */

/* Every room up to two finds more, and every length of `found` and `answer`
 * with and without room: ANSWER comes before LIST. */
static void try_rooms(differ *d, const world *w, uint32_t number)
{
    size_t most = FIND_BYTES * ((size_t)number + 2);
    for (size_t room = most > 300 ? most - 300 : 0; room <= most; room++)
        call_ranges(d, w, room, FOUND_BYTES, ANSWER_BYTES);
    call_ranges(d, w, 0, FOUND_BYTES, ANSWER_BYTES);
    for (int i = 0; i < NEXT_LENGTHS * TOLD_LENGTHS; i++)
        for (size_t room = 0; room <= most; room += most)
            call_ranges(d, w, room, next_lengths[i / TOLD_LENGTHS], told_lengths[i % TOLD_LENGTHS]);
}

/* A memory of 2^16 cells allows bounds from 1 to 2^17 - 1. */
static void try_chain(differ *d)
{
    note_back(d, 0);
    note(d, "a chain of ranges");
    build_chain(&d->random, &chain, CHAIN_MEMORY, CHAIN_ROWS);
    if (second_tables(&chain).verdict != ACCEPTED)
        differs(d, "the second has no tables of a chain");
    uint32_t number = number_of(d, &chain);
    try_rooms(d, &chain, number);
}

void try_range_edges(differ *d)
{
    try_chain(d);
    for (uint32_t i = 0; i < EDGE_ROUNDS * RANGE_WAYS; i++) {
        make_world(d, i % RANGE_WAYS);
        uint32_t number = number_of(d, &right);
        if (i % RANGE_WAYS == 0 || number == 0)
            try_rooms(d, &right, number);
        for (int k = 0; k < 4; k++)
            try_refused(d, number);
    }
}
