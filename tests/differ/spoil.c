/* Calls that go wrong before the tables count: lengths, words, instructions,
 * starts; and steps that are no longer legal. */
#include "world.h"

#include <inttypes.h>

static size_t other_length(source *random, size_t len, size_t unit)
{
    switch (below(random, 9)) {
    case 0:
        return 0;
    case 1:
        return len - 1;
    case 2:
        return len + 1;
    case 3:
        return len - unit;
    case 4:
        return len + unit;
    case 5:
        return 2 * len; /* still good, but for the rows it holds */
    case 6:
        return 128 * unit;
    case 7:
        return len / 2;
    default:
        return below(random, (uint32_t)(2 * len));
    }
}

void spoil_length(differ *d, world *w)
{
    for (int more = 1; more > 0; more = once_in(&d->random, 4)) {
        int part = (int)below(&d->random, PARTS);
        size_t len = other_length(&d->random, w->len[part], unit_of(part));
        if (len > room_of(part))
            len = room_of(part) - 1;
        w->len[part] = len;
        note(d, "; part %d of %zu bytes", part + 1, len);
    }
}

uint32_t too_large(source *random, uint32_t old)
{
    switch (below(random, 4)) {
    case 0:
        return P + old % P;
    case 1:
        return P + below(random, 2);
    case 2:
        return UINT32_MAX - below(random, 2);
    default:
        return P + below(random, UINT32_MAX - P);
    }
}

/* A word at or above p in one of the first `parts` parts, or in several. */
void spoil_word(differ *d, world *w, int parts)
{
    for (int more = 1; more > 0; more = once_in(&d->random, 4)) {
        int part = (int)below(&d->random, (uint32_t)parts);
        uint32_t words = (uint32_t)(w->len[part] / 4);
        if (words == 0)
            continue;
        uint32_t at = once_in(&d->random, 4) ? words - 1
                                             : below(&d->random, words);
        uint8_t *word = w->bytes[part] + 4 * (size_t)at;
        store_word(word, too_large(&d->random, load_word(word)));
        note(d, "; part %d word %" PRIu32 " is %" PRIu32, part + 1, at,
             load_word(word));
    }
}

static uint64_t other_start(source *random, uint64_t right, uint32_t cells)
{
    switch (below(random, 9)) {
    case 0:
        return P;
    case 1:
        return P + right;
    case 2:
        return UINT64_C(1) << 32;
    case 3:
        return (UINT64_C(1) << 32) + right;
    case 4:
        return UINT64_MAX;
    case 5:
        return right + 1;
    case 6:
        return P - 1;
    case 7:
        return next_number(random);
    default:
        return some_word(random, cells);
    }
}

void spoil_start(differ *d, world *w)
{
    uint32_t which = below(&d->random, 4);
    if (which != 0)
        w->pc = other_start(&d->random, w->pc, count_of(w, PROGRAM));
    if (which != 1)
        w->fp = other_start(&d->random, w->fp, count_of(w, MEMORY));
    note(d, "; start %" PRIu64 " %" PRIu64, w->pc, w->fp);
}

/* DATA with any low bits, 1 among them, and lengths at both ends. */
static uint32_t some_data(source *random)
{
    static const uint32_t lengths[] = { 0, 1, 2, 1 << 20, (1 << 20) + 1,
                                        (1 << 20) - 1 };
    uint32_t low = (4u << below(random, 3)) + 2 * below(random, 2);
    if (once_in(random, 2))
        low = below(random, 32);
    return 32 * lengths[below(random, 6)] + low;
}

/* An instruction of random flags and opcode words: some are well-formed, many
 * break one condition alone. */
static void random_form(differ *d, world *w, uint32_t at)
{
    static const uint32_t opcodes[][3] = { /* MUL, JUMP, AUX */
        { 0, 0, 1 }, { 1, 0, 0 }, { 0, 0, 2 }, { 0, 1, 0 }, { 0, 0, 0 },
        { 0, 0, 0 }, { 0, 0, 3 }, { 1, 0, 1 }, { 0, 1, 2 }
    };
    uint32_t kind = below(&d->random, 9);
    for (uint32_t k = F_A; k <= FP_AB; k++)
        put(w, PROGRAM, at, k, below(&d->random, 2));
    for (uint32_t k = 0; k < 3; k++)
        put(w, PROGRAM, at, W_MUL + k, opcodes[kind][k]);
    bool data = opcodes[kind][0] + opcodes[kind][1] + opcodes[kind][2] == 0;
    put(w, PROGRAM, at, W_DATA,
        data != once_in(&d->random, 8) ? some_data(&d->random) : 0);
    if (once_in(&d->random, 2))
        put(w, PROGRAM, at, FP_AB, 0);
    note(d, "; instruction %" PRIu32 " of kind %" PRIu32, at, kind);
}

/* One other flag, opcode word or DATA: mostly malformed. */
static void change_form(differ *d, world *w, uint32_t at)
{
    uint32_t column = F_A + below(&d->random, FORM_WORDS - F_A), word;
    uint32_t old = get(w, PROGRAM, at, column);
    switch (below(&d->random, 5)) {
    case 0:
        word = old ^ 1;
        break;
    case 1:
        word = P - 1;
        break;
    case 2:
        word = 2;
        break;
    case 3:
        word = word_add(old, (uint32_t)1 << below(&d->random, 27));
        break;
    default:
        word = column == W_DATA ? some_data(&d->random) : below(&d->random, 4);
    }
    put(w, PROGRAM, at, column, word);
    note(d, "; instruction %" PRIu32 " word %" PRIu32 " is %" PRIu32, at, column,
         word);
}

void spoil_form(differ *d, world *w)
{
    for (int more = 1; more > 0; more = once_in(&d->random, 4)) {
        uint32_t at = below(&d->random, count_of(w, PROGRAM));
        if (once_in(&d->random, 3))
            change_form(d, w, at);
        else
            random_form(d, w, at);
    }
}

uint32_t other_word(differ *d, const world *w, int part, uint32_t at,
                    uint32_t column)
{
    uint32_t old = get(w, part, at, column);
    switch (below(&d->random, 7)) {
    case 0:
        return word_add(old, 1);
    case 1:
        return word_sub(old, 1);
    case 2:
        return below(&d->random, 3);
    case 3:
        return P - 1;
    case 4:
        return get(w, part, below(&d->random, count_of(w, part)), column);
    default:
        return some_word(&d->random, count_of(w, MEMORY));
    }
}

/* What may make a step illegal: an operand, an instruction's length and kind,
 * a cell, or the program's end. */
void spoil_step(differ *d, world *w)
{
    uint32_t at = below(&d->random, count_of(w, PROGRAM)), column, word;
    int part = PROGRAM;
    switch (below(&d->random, 8)) {
    case 0:
        part = MEMORY;
        at = below(&d->random, count_of(w, MEMORY));
        column = 0;
        word = other_word(d, w, part, at, 0);
        break;
    case 1:
        if (count_of(w, PROGRAM) > 1)
            w->len[PROGRAM] -= unit_of(PROGRAM);
        note(d, "; without the last instruction");
        return;
    case 2:
        column = W_DATA;
        word = get(w, PROGRAM, at, W_DATA);
        if (word != 0)
            word = word_add(word, 2 + 30 * below(&d->random, 2));
        break;
    case 3:
    case 4: /* at the memory's end, as it is or in the frame of the start */
        column = below(&d->random, 3);
        word = count_of(w, MEMORY) - 6 + below(&d->random, 9);
        if (once_in(&d->random, 2))
            word = word_sub(word, (uint32_t)(w->fp % P));
        break;
    default:
        column = below(&d->random, 3);
        word = other_word(d, w, part, at, column);
    }
    put(w, part, at, column, word);
    note(d, "; part %d, %" PRIu32 " word %" PRIu32 " is %" PRIu32, part + 1, at,
         column, word);
}
