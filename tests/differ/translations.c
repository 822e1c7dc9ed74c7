/* Old programs to the translation: as they are, with instructions that are not
 * translatable, with words at or above p, and of other lengths. */
#include <inttypes.h>
#include <string.h>

#include "olds.h"
#include "tries.h"

enum { CELLS = 256, TRANSLATABLE = 27 };
enum { CHOICES = 11, EVERY = 177147 }; /* three for each word but operands */

/* Room for one instruction more, so that longer lengths can be tried. */
static uint8_t bytes[OLD_UNIT * (MAX_OLDS + 1)];
static uint32_t turn, reason_turn, length_turn; /* each takes all in turn */

typedef struct {
    olds o;
    size_t old_len, program_len, answer_len;
} job;

static second_answer translate(differ *d, const job *j)
{
    attempt t = { .function = TRANSLATE };
    t.lent[0] = (buffer){ bytes, j->old_len, false };
    t.lent[1].len = j->program_len;
    t.lent[2].len = j->answer_len;
    return translate_olds(d, &j->o, &t);
}

static void some_program(differ *d, job *j)
{
    olds *o = &j->o;
    uint32_t most = once_in(&d->random, 3) ? MAX_OLDS : 6;
    o->count = 1 + below(&d->random, most);
    for (uint32_t i = 0; i < o->count; i++)
        some_old(&d->random, CELLS, o->words[i]);
    j->old_len = store_olds(o, bytes);
    j->program_len = unit_of(PROGRAM) * o->count;
    j->answer_len = ANSWER_BYTES;
    note(d, "old program of %" PRIu32 " instructions", o->count);
}

/* One instruction of the program is not translatable, nor is any behind it
 * asked about; gives its number. */
static uint32_t spoil_edition(differ *d, job *j, uint32_t reason)
{
    olds *o = &j->o;
    uint32_t at = below(&d->random, o->count);
    if (once_in(&d->random, 3))
        at = o->count - 1;
    give_reason(&d->random, o->words[at], reason);
    for (uint32_t i = at + 1; i < o->count; i++)
        if (once_in(&d->random, 4))
            give_reason(&d->random, o->words[i], below(&d->random, REASONS));
    store_olds(o, bytes);
    note(d, "; instruction %" PRIu32 ": %s", at, reason_names[reason]);
    return at;
}

static void try_reason(differ *d, job *j, uint32_t reason)
{
    uint32_t at = spoil_edition(d, j, reason);
    second_answer a = translate(d, j);
    second_answer wanted = { .verdict = EDITION, .place = at };
    if (memcmp(&a, &wanted, sizeof a) != 0)
        differs(d, "an instruction that is not translatable has another answer");
    d->reached.olds.reasons[reason]++;
    d->reached.olds.cases[EDITION_LAST] += at + 1 == j->o.count;
}

/* Words at or above p from a first one on; gives its number. */
static uint32_t spoil_words(differ *d, const job *j)
{
    uint32_t words = (uint32_t)(j->old_len / 4);
    uint32_t first = below(&d->random, words);
    if (once_in(&d->random, 2))
        first = once_in(&d->random, 2) ? 0 : words - 1;
    for (uint32_t at = first; at < words; at += 1 + below(&d->random, words))
        store_word(bytes + 4 * (size_t)at, too_large(&d->random,
                   load_word(bytes + 4 * (size_t)at)));
    note(d, "; word %" PRIu32 " is %" PRIu32, first,
         load_word(bytes + 4 * (size_t)first));
    return first;
}

static void try_word(differ *d, job *j)
{
    uint64_t *cases = d->reached.olds.cases;
    uint32_t edition = j->o.count;
    if (once_in(&d->random, 2))
        edition = spoil_edition(d, j, below(&d->random, REASONS));
    uint32_t first = spoil_words(d, j);
    second_answer a = translate(d, j);
    second_answer wanted = { .verdict = WORD, .part = 1, .place = first };
    if (memcmp(&a, &wanted, sizeof a) != 0)
        differs(d, "a word at or above p has another answer");
    cases[WORD_FIRST] += first == 0;
    cases[WORD_LAST] += first + 1 == j->old_len / 4;
    cases[WORD_BEHIND_EDITION] += edition < first / OLD_WORDS;
}

/* A length that is so much more or less, but no less than 0. */
static size_t beside(size_t len, int by)
{
    return by < 0 && len < (size_t)-by ? 0 : len + (size_t)by;
}

/* Either length alone is another, or both are one instruction's less. */
static void other_lengths(job *j, uint32_t way, uint64_t *cases)
{
    static const int by[] = { -1, 1, -48, 48, -56, 56, -4, 4 };
    if (way < 8) {
        j->old_len = beside(j->old_len, by[way]);
        cases[OLD_LENGTH]++;
    } else if (way < 16) {
        j->program_len = beside(j->program_len, by[way - 8]);
        cases[PROGRAM_LENGTH]++;
    } else if (way < 19) {
        j->old_len *= way == 17;
        j->program_len *= way == 16;
        cases[way == 16 ? NO_OLD : way == 17 ? NO_PROGRAM : NEITHER]++;
    } else { /* of one instruction nothing is left: both 0 again */
        j->old_len -= OLD_UNIT;
        j->program_len -= unit_of(PROGRAM);
        j->o.count--;
        cases[j->o.count == 0 ? NEITHER : BOTH_LENGTHS]++;
    }
}

enum { LENGTH_WAYS = 20 };

static void try_lengths(differ *d, job *j, uint32_t way)
{
    bool first = once_in(&d->random, 2); /* and other refusals behind */
    other_lengths(j, way, d->reached.olds.cases);
    if (first && j->o.count > 0)
        give_reason(&d->random, j->o.words[0], below(&d->random, REASONS));
    store_olds(&j->o, bytes);
    if (first && j->old_len >= OLD_UNIT)
        store_word(bytes + 4, P);
    note(d, "; lengths %zu %zu", j->old_len, j->program_len);
    second_answer a = translate(d, j);
    bool good = j->o.count > 0 && way == LENGTH_WAYS - 1;
    uint32_t wanted = !good ? SIZE : first ? WORD : ACCEPTED;
    if (a.verdict != wanted || a.part != (wanted != ACCEPTED))
        differs(d, "other lengths have another answer");
    d->reached.olds.cases[SIZE_FIRST] += first && wanted == SIZE;
}

/* ANSWER comes before all that may be wrong besides. */
static void try_answer_lengths(differ *d, job *j)
{
    static const size_t lengths[] = { 0, 16, 23, 25, 32 };
    uint32_t way = below(&d->random, 5);
    j->answer_len = lengths[way];
    if (once_in(&d->random, 2))
        spoil_edition(d, j, below(&d->random, REASONS));
    if (once_in(&d->random, 3))
        j->program_len -= 1;
    note(d, "; answer of %zu bytes", j->answer_len);
    if (translate(d, j).verdict != ANSWER)
        differs(d, "another length of the answer has another answer");
    if (way < 4)
        d->reached.olds.cases[ANSWER_0 + way]++;
}

void try_translation(differ *d)
{
    static job j;
    note_back(d, 0);
    some_program(d, &j);
    switch (turn++ % 5) {
    case 0:
        if (translate(d, &j).verdict != ACCEPTED)
            differs(d, "a translatable program is refused");
        break;
    case 1:
    case 2:
        try_reason(d, &j, reason_turn++ % REASONS);
        break;
    case 3:
        try_word(d, &j);
        break;
    default:
        if (once_in(&d->random, 3))
            try_answer_lengths(d, &j);
        else
            try_lengths(d, &j, length_turn++ % LENGTH_WAYS);
    }
}

/* Word k of the choice: its digit of base 3, a 2 being any other word. */
static void set_choice(differ *d, uint32_t words[OLD_WORDS], uint32_t choice)
{
    for (uint32_t k = 0; k < CHOICES; k++, choice /= 3) {
        uint32_t digit = choice % 3;
        words[F_A + k] = digit < 2 || once_in(&d->random, 2) ? digit : P - 1;
    }
}

/* Calls at a page are slow, and what is tried here needs none. */
void try_every_old(differ *d)
{
    static job j;
    uint32_t accepted = 0;
    for (uint32_t choice = 0; choice < EVERY && !d->paged; choice++) {
        note_back(d, 0);
        note(d, "one instruction, choice %" PRIu32, choice);
        j = (job){ .o = { .count = 1 }, .program_len = unit_of(PROGRAM),
                   .answer_len = ANSWER_BYTES };
        some_old(&d->random, CELLS, j.o.words[0]);
        set_choice(d, j.o.words[0], choice);
        j.old_len = store_olds(&j.o, bytes);
        accepted += translate(d, &j).verdict == ACCEPTED;
    }
    if (!d->paged && accepted != TRANSLATABLE)
        differs(d, "of all instructions not 27 are translatable");
}
