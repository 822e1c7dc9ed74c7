/* Calls of the lister and of its reader, and what they met. */
#include "listings.h"

#include <inttypes.h>
#include <string.h>

/* Of an accepted program each line, and where it is read each number. */
static void count_lines(listing_tally *t, enum function f, const uint8_t *program, size_t len)
{
    for (size_t at = 0; at < len; at += unit_of(PROGRAM)) {
        listed l = load_listed(program + at);
        (f == LISTER ? t->listed : t->read)[shape_of(&l)]++;
        for (uint32_t i = 0; f == LIST_READER && i < 3 * EDGE_WORDS; i++)
            t->words[i / EDGE_WORDS][i % EDGE_WORDS] +=
                l.words[i / EDGE_WORDS] == edge_words[i % EDGE_WORDS];
        for (uint32_t i = 0; f == LIST_READER && l.op >= L_XADD && i < EDGE_LENGTHS; i++)
            t->lengths[i] += l.n == edge_lengths[i];
    }
}

/* The room there was beside what was needed. */
static void count_room(listing_tally *t, const list_call *c, size_t need)
{
    uint64_t *cases = t->cases + (c->function == LISTER ? LIST_EXACT : READ_EXACT);
    cases[LIST_EXACT] += c->room == need;
    cases[LIST_MORE] += c->room > need;
    cases[LIST_ONE_SHORT] += c->room + 1 == need;
    cases[LIST_NO_ROOM] += c->room == 0;
}

_Static_assert(READ_NO_ROOM - READ_EXACT == LIST_NO_ROOM - LIST_EXACT, "one order for both");

static void count_call(differ *d, const list_call *c, second_answer a)
{
    listing_tally *t = &d->reached.listings;
    bool listing = c->function == LISTER;
    size_t written = load_word(d->slots[2].mirror); /* less than 2^32 here */
    if (a.verdict == ACCEPTED) {
        const uint8_t *program = listing ? c->from : d->slots[1].mirror;
        size_t len = listing ? c->len : written;
        count_lines(t, c->function, program, len);
        t->cases[LIST_ONE_LINE] += listing && len == unit_of(PROGRAM);
        t->cases[LIST_LONGEST] += listing && written * unit_of(PROGRAM) == LONGEST_LINE * len;
    }
    if (a.verdict == ACCEPTED || a.verdict == SHORT)
        count_room(t, c, a.verdict == SHORT ? a.place : written);
    if (a.verdict == LISTING)
        count_stop(t, c->from, c->len, a.place);
    t->cases[READ_EMPTY] += a.verdict == LISTING && c->len == 0;
    t->cases[READ_LISTING_FIRST] += a.verdict == LISTING && c->room == 0;
    for (int i = 0; i < WRITTEN_LENGTHS; i++)
        t->written[!listing][i] += c->written_len == written_lengths[i];
}

second_answer call_listing(differ *d, const list_call *c)
{
    attempt t = { .function = c->function };
    t.lent[0] = (buffer){ c->from, c->len, false };
    t.lent[1].len = c->room;
    t.lent[2].len = c->written_len;
    t.lent[3].len = c->answer_len;
    second_answer a = compare(d, &t);
    count_call(d, c, a);
    return a;
}

second_answer list_lines(differ *d, const listed *l, uint32_t count, size_t room)
{
    static uint8_t program[4 * FORM_WORDS * MOST_LISTED];
    list_call c = { LISTER, program, unit_of(PROGRAM) * count, room, WRITTEN_BYTES, ANSWER_BYTES };
    for (uint32_t i = 0; i < count; i++)
        store_listed(&l[i], program + unit_of(PROGRAM) * i);
    return call_listing(d, &c);
}

second_answer read_text(differ *d, const list_text *t, size_t room)
{
    static uint8_t program[4 * FORM_WORDS * MOST_LISTED];
    list_call c = { LIST_READER, (uint8_t *)t->bytes, t->len, room, WRITTEN_BYTES, ANSWER_BYTES };
    second_answer a = call_listing(d, &c);
    size_t len = load_word(d->slots[2].mirror);
    if (a.verdict != ACCEPTED || len > sizeof program)
        return a;
    memcpy(program, d->slots[1].mirror, len);
    c = (list_call){ LISTER, program, len, t->len, WRITTEN_BYTES, ANSWER_BYTES };
    second_answer again = call_listing(d, &c);
    if (again.verdict != ACCEPTED || load_word(d->slots[2].mirror) != t->len
        || memcmp(d->slots[1].mirror, t->bytes, t->len) != 0)
        differs(d, "a text is read that is not the program's listing");
    return a;
}

void expect_answer(differ *d, second_answer got, uint32_t verdict, uint32_t part, size_t place)
{
    second_answer right = { .verdict = verdict, .part = part, .place = (uint32_t)place };
    if (memcmp(&got, &right, sizeof got) == 0)
        return;
    note(d, "; wanted %" PRIu32 " part %" PRIu32 " place %zu, not %" PRIu32 " part %" PRIu32
         " place %" PRIu32, verdict, part, place, got.verdict, got.part, got.place);
    differs(d, "a listing has another answer than it was made for");
}

void note_listing(differ *d, const list_text *t)
{
    note(d, " text of %zu: ", t->len);
    for (size_t i = 0; i < t->len && i < 900; i++)
        note(d, t->bytes[i] >= ' ' && t->bytes[i] <= '~' ? "%c" : "<%02x>", t->bytes[i]);
}
