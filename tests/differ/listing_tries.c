/* Programs to the lister and texts to its reader, by chance: as they are, and
 * with what must be refused. */
#include "listings.h"

#include <inttypes.h>
#include <string.h>

#include "tries.h"

static listed lines[MOST_LISTED];
static uint8_t program[4 * FORM_WORDS * (MOST_LISTED + 1)];
static list_text whole;
static uint32_t turn, way_turn, damage_turn, written_turn; /* each takes all in turn */

/* Mostly few lines, so that each of them matters. */
static uint32_t some_program(differ *d)
{
    uint32_t count = some_lines(&d->random, lines, once_in(&d->random, 4) ? MOST_LISTED / 2 : 4);
    for (uint32_t i = 0; i < count; i++)
        store_listed(&lines[i], program + unit_of(PROGRAM) * i);
    print_lines(lines, count, &whole);
    note_back(d, 0);
    note(d, "%" PRIu32 " lines,", count);
    return count;
}

static size_t some_room(source *random, size_t need)
{
    switch (below(random, 6)) {
    case 0:
        return need - 1;
    case 1:
        return need + 1 + below(random, 200);
    case 2:
        return below(random, (uint32_t)need);
    default:
        return need;
    }
}

static second_answer list_program(differ *d, size_t len, size_t room)
{
    list_call c = { LISTER, program, len, room, WRITTEN_BYTES, ANSWER_BYTES };
    return call_listing(d, &c);
}

/* There and back. */
static void try_round_trip(differ *d)
{
    uint32_t count = some_program(d);
    size_t len = unit_of(PROGRAM) * count, room = some_room(&d->random, whole.len);
    note_listing(d, &whole);
    second_answer a = list_program(d, len, room);
    expect_answer(d, a, room < whole.len ? SHORT : ACCEPTED, 0, room < whole.len ? whole.len : 0);
    if (a.verdict == ACCEPTED && memcmp(d->slots[1].lent, whole.bytes, whole.len) != 0)
        differs(d, "lines are listed otherwise than they are printed here");
    room = some_room(&d->random, len);
    a = read_text(d, &whole, room);
    expect_answer(d, a, room < len ? SHORT : ACCEPTED, 0, room < len ? len : 0);
    a = read_text(d, &whole, len);
    expect_answer(d, a, ACCEPTED, 0, 0);
}

/* A word outside what its column may be makes any instruction malformed. */
static void spoil_column(differ *d, uint32_t at, uint32_t column)
{
    uint8_t *word = program + unit_of(PROGRAM) * at + 4 * (size_t)column;
    store_word(word, column == W_DATA ? load_word(word) | 1 : 3 + below(&d->random, P - 3));
    note(d, "; instruction %" PRIu32 " word %" PRIu32 " is %" PRIu32, at, column, load_word(word));
}

static void try_malformed(differ *d, uint32_t column)
{
    uint32_t count = some_program(d), at = below(&d->random, count);
    uint64_t *cases = d->reached.listings.cases;
    if (once_in(&d->random, 3))
        at = count - 1;
    for (uint32_t i = count; i-- > at;)
        if (i == at || once_in(&d->random, 4))
            spoil_column(d, i, i == at ? column : F_A + below(&d->random, FORM_WORDS - F_A));
    bool room = once_in(&d->random, 2);
    second_answer a = list_program(d, unit_of(PROGRAM) * count, room ? whole.len : 0);
    expect_answer(d, a, INSTRUCTION, 1, at);
    d->reached.listings.columns[column]++;
    cases[LIST_MALFORMED_LAST] += at + 1 == count;
    cases[LIST_MALFORMED_FIRST] += !room;
}

static void try_large_word(differ *d)
{
    uint32_t count = some_program(d), words = FORM_WORDS * count;
    uint32_t first = below(&d->random, words), malformed = count;
    uint64_t *cases = d->reached.listings.cases;
    if (once_in(&d->random, 2))
        first = once_in(&d->random, 2) ? 0 : words - 1;
    if (once_in(&d->random, 2)) {
        malformed = below(&d->random, count);
        spoil_column(d, malformed, F_A + below(&d->random, FORM_WORDS - F_A));
    }
    for (uint32_t at = first; at < words; at += 1 + below(&d->random, words)) {
        uint8_t *word = program + 4 * (size_t)at;
        store_word(word, too_large(&d->random, load_word(word)));
    }
    note(d, "; word %" PRIu32 " is %" PRIu32, first, load_word(program + 4 * (size_t)first));
    size_t room = once_in(&d->random, 2) ? 0 : whole.len;
    expect_answer(d, list_program(d, unit_of(PROGRAM) * count, room), WORD, 1, first);
    cases[LIST_WORD_FIRST] += first == 0;
    cases[LIST_WORD_LAST] += first + 1 == words;
    cases[LIST_WORD_BEHIND] += malformed < first / FORM_WORDS;
}

static void try_length(differ *d)
{
    static const int by[] = { -1, 1, -4, 4, -47, 47, 24, -12 };
    uint32_t count = some_program(d), way = below(&d->random, 9);
    size_t len = way == 8 ? 0 : unit_of(PROGRAM) * count + (size_t)by[way];
    uint64_t *cases = d->reached.listings.cases;
    bool first = once_in(&d->random, 2); /* and other refusals behind */
    if (first) {
        spoil_column(d, 0, F_A);
        store_word(program + 4, P);
    }
    note(d, "; %zu bytes", len);
    expect_answer(d, list_program(d, len, first ? 0 : whole.len), SIZE, 1, 0);
    cases[way == 8 ? LIST_EMPTY : LIST_LENGTH]++;
    cases[LIST_SIZE_FIRST] += first;
}

/* ANSWER comes before all that may be wrong besides. */
static void try_written(differ *d)
{
    uint32_t count = some_program(d), way = written_turn++ % (2 * WRITTEN_LENGTHS);
    bool listing = way < WRITTEN_LENGTHS, room = once_in(&d->random, 2);
    list_call c = { .function = listing ? LISTER : LIST_READER,
                    .from = listing ? program : whole.bytes,
                    .len = listing ? unit_of(PROGRAM) * count : whole.len,
                    .room = !room ? 0 : listing ? whole.len : unit_of(PROGRAM) * count,
                    .written_len = written_lengths[way % WRITTEN_LENGTHS],
                    .answer_len = once_in(&d->random, 3) ? 16 : ANSWER_BYTES };
    if (once_in(&d->random, 2))
        c.len--;
    note(d, " written of %zu bytes, answer of %zu", c.written_len, c.answer_len);
    second_answer a = call_listing(d, &c);
    expect_answer(d, a, ANSWER, 0, 0);
}

/* One damage, and now and then others. */
static void try_damage(differ *d)
{
    uint32_t count = some_program(d), way = damage_turn++ % DAMAGES;
    note(d, " %s", damage_names[way]);
    damage_text(&d->random, &whole, way);
    while (once_in(&d->random, 6)) {
        uint32_t more = below(&d->random, DAMAGES);
        note(d, ", %s", damage_names[more]);
        damage_text(&d->random, &whole, more);
    }
    note_listing(d, &whole);
    size_t room = unit_of(PROGRAM) * count;
    second_answer a = read_text(d, &whole, once_in(&d->random, 8) ? 0 : room + unit_of(PROGRAM));
    d->reached.listings.damages[way]++;
    d->reached.listings.cases[READ_STILL] += a.verdict == ACCEPTED && way != DAMAGES - 1;
}

void try_listing(differ *d)
{
    uint32_t way = way_turn;
    switch (turn++ % 4) {
    case 0:
        try_round_trip(d);
        break;
    case 1:
        way_turn++;
        if (way % 4 == 0)
            try_malformed(d, F_A + way / 4 % (FORM_WORDS - F_A));
        else if (way % 4 == 1)
            try_large_word(d);
        else if (way % 4 == 2)
            try_length(d);
        else
            try_written(d);
        break;
    default:
        try_damage(d);
    }
}
