#include "versions.h"

#include <inttypes.h>
#include <string.h>

#include "seeds.h"
#include "tries.h"

enum { VERSION_AT = 2, LEAST_TEXT = 35, MOST_TEXT = 37, CELLS = 32 };

/* ---- counting ---- */

/* Whether the text is a label once a version is put in its place. */
static bool is_label_but_version(const uint8_t *text, size_t len)
{
    uint8_t copy[MOST_TEXT];
    second_recipe r;
    if (len < LEAST_TEXT || len > MOST_TEXT)
        return false;
    memcpy(copy, text, len);
    copy[VERSION_AT] = '1';
    return second_read_label(copy, len, &r).verdict == ACCEPTED;
}

static void count_label(version_tally *v, const attempt *t, second_answer a)
{
    const uint8_t *text = t->lent[0].bytes;
    size_t answer_len = t->lent[1].len, recipe_len = t->lent[2].len;
    if (a.verdict == LABEL && a.place >= VERSIONED && a.place <= LAST_PLACE)
        v->place[text[VERSION_AT] - '1'][a.place]++;
    if (answer_len != ANSWER_BYTES || !is_label_but_version(text, t->lent[0].len))
        return;
    uint8_t byte = text[VERSION_AT];
    v->byte[byte] += recipe_len == RECIPE_BYTES;
    if (byte != '1' && byte != '2')
        return;
    v->read[byte - '1'] += a.verdict == ACCEPTED;
    for (int i = 0; i < RECIPE_LENGTHS; i++)
        v->length[byte - '1'][i] += recipe_len == recipe_lengths[i];
}

/* Whether a version decides about the recipe. */
static bool else_in_range(second_recipe r)
{
    return r.m >= 10 && r.m <= 29 && r.n >= 1 && r.n <= 124;
}

static void count_number(uint64_t counts[VERSION_NUMBERS], uint32_t version)
{
    for (int i = 0; i < VERSION_NUMBERS; i++)
        counts[i] += version == version_numbers[i];
}

static void count_recipe(version_tally *v, const attempt *t, second_answer a)
{
    second_recipe r = t->recipe;
    bool made = t->function == MAKER, bad = r.version != 1 && r.version != 2;
    if (!else_in_range(r) || t->lent[made ? 2 : 1].len != ANSWER_BYTES)
        return;
    bool room = made ? t->lent[0].len == unit_of(PROGRAM) * (r.n + 1)
                           && t->lent[1].len == (size_t)4 << r.m
                     : t->lent[0].len >= MOST_TEXT;
    if (room)
        count_number(made ? v->made : v->written, r.version);
    else if (made || t->lent[0].len < LEAST_TEXT)
        v->cases[made ? MAKER_ORDER : WRITER_ORDER] += bad;
    if (made && a.verdict == ACCEPTED)
        count_draws(v, r);
}

void count_versions(version_tally *v, const attempt *t, second_answer a)
{
    if (t->function == LABEL_READER)
        count_label(v, t, a);
    if (t->function == MAKER || t->function == LABEL_WRITER)
        count_recipe(v, t, a);
}

/* ---- trying ---- */

static void try_text(differ *d, uint8_t *text, size_t len, size_t recipe_len)
{
    attempt t = { .function = LABEL_READER, .extra = true };
    t.lent[0] = (buffer){ text, len, false };
    t.lent[1].len = ANSWER_BYTES;
    t.lent[2].len = recipe_len;
    note_back(d, 0);
    note(d, "label of %zu bytes, %02x for its version, recipe of %zu", len,
         text[VERSION_AT], recipe_len);
    compare(d, &t);
}

/* A label of the longest: cut at each byte, with one more, for each length of
 * the recipe's buffer, and with each byte for its version. */
static void try_texts(differ *d, uint32_t version)
{
    second_recipe r = { next_number(&d->random), 10 + below(&d->random, 20),
                        100 + below(&d->random, 25), version };
    uint8_t text[MOST_TEXT + 1] = { [MOST_TEXT] = '\n' };
    uint32_t len;
    second_write_label(r, text, MOST_TEXT, &len);
    for (size_t cut = 0; cut <= MOST_TEXT + 1; cut++)
        try_text(d, text, cut, RECIPE_BYTES);
    for (int i = 0; i < RECIPE_LENGTHS; i++) {
        try_text(d, text, len, recipe_lengths[i]);
        try_text(d, text, len - 1, recipe_lengths[i]);
    }
    for (uint32_t byte = 0; byte <= UINT8_MAX; byte++) {
        text[VERSION_AT] = (uint8_t)byte;
        try_text(d, text, len, RECIPE_BYTES);
    }
}

/* To maker or writer, in buffers that fit or are a byte short. */
static void try_recipe(differ *d, enum function f, second_recipe r, bool fits)
{
    attempt t = { .function = f, .recipe = r, .extra = true };
    t.lent[0].len = f == MAKER ? unit_of(PROGRAM) * (r.n + 1) - !fits
                  : fits ? MOST_TEXT : LEAST_TEXT - 1;
    t.lent[1].len = f == MAKER ? ((size_t)4 << r.m) - !fits : ANSWER_BYTES;
    t.lent[2].len = f == MAKER ? ANSWER_BYTES : 0;
    note_back(d, 0);
    note(d, "recipe %" PRIx64 " m %" PRIu32 " n %" PRIu32 " version %" PRIu32
         ", buffers %s", r.seed, r.m, r.n, r.version, fits ? "fit" : "are short");
    compare(d, &t);
}

static void try_number(differ *d, uint32_t version)
{
    second_recipe r = { next_number(&d->random), 10, 1 + below(&d->random, 124),
                        version };
    for (int fits = 0; fits < 2; fits++) {
        try_recipe(d, MAKER, r, fits);
        try_recipe(d, LABEL_WRITER, r, fits);
    }
}

static void try_seed(differ *d, uint64_t seed)
{
    for (uint32_t version = 1; version <= VERSIONS; version++) {
        second_recipe r = { seed, 10, 1 + below(&d->random, 124), version };
        try_recipe(d, MAKER, r, true);
    }
}

void try_versions(differ *d)
{
    for (uint32_t version = 1; version <= VERSIONS; version++)
        try_texts(d, version);
    for (int i = 0; i < VERSION_NUMBERS; i++)
        try_number(d, version_numbers[i]);
    for (uint32_t draws = 0; draws <= CELLS; draws++) {
        for (uint32_t run = 0; run < RUNS; run++)
            try_seed(d, seed_before_run(run, draws));
        for (uint32_t edge = 0; edge < EDGES; edge++)
            try_seed(d, seed_before_edge(edge, below(&d->random, UINT32_MAX),
                                         draws));
    }
    for (uint32_t run = 0; run < RUNS; run++)
        for (uint32_t draws = 1; draws <= LAST_THROWN; draws++)
            try_seed(d, seed_within_run(run, draws));
}
