#include "olds.h"

#include <string.h>

void set_old_form(uint32_t words[OLD_WORDS], uint32_t form)
{
    static const uint32_t opcodes[] = { O_ADD, O_MUL, O_JUMP, O_DEREF };
    memset(words + F_A, 0, (OLD_WORDS - F_A) * sizeof *words);
    words[opcodes[form / 8]] = 1;
    if (form < OLD_DEREF) {
        words[F_A] = form / 4 % 2;
        words[F_B] = form / 2 % 2;
        words[F_C] = form % 2;
    } else {
        words[F_B] = form != DEREF_CELL;
        words[F_C] = 1;
        words[O_AUX_1] = form != DEREF_FP;
    }
}

uint32_t old_form_of(const uint32_t words[OLD_WORDS])
{
    if (words[O_DEREF] == 1 && words[O_AUX_1] == 0)
        return DEREF_FP;
    if (words[O_DEREF] == 1)
        return words[F_B] == 1 ? DEREF_GAMMA : DEREF_CELL;
    return OLD_MUL * words[O_MUL] + OLD_JUMP * words[O_JUMP] + 4 * words[F_A]
         + 2 * words[F_B] + words[F_C];
}

bool drops(uint32_t form, uint32_t *operand)
{
    *operand = form == DEREF_FP ? OP_B : OP_C;
    return form == DEREF_FP || (form < OLD_DEREF && form % 2 == 1);
}

size_t store_olds(const olds *o, uint8_t *to)
{
    for (uint32_t i = 0; i < o->count * OLD_WORDS; i++)
        store_word(to + 4 * (size_t)i, o->words[i / OLD_WORDS][i % OLD_WORDS]);
    return (size_t)OLD_UNIT * o->count;
}

void some_old(source *random, uint32_t cells, uint32_t words[OLD_WORDS])
{
    for (uint32_t k = OP_A; k <= OP_C; k++)
        words[k] = some_word(random, cells);
    set_old_form(words, below(random, OLD_FORMS));
}

second_answer translate_olds(differ *d, const olds *o, const attempt *t)
{
    old_tally *reached = &d->reached.olds;
    second_answer a = compare(d, t);
    if (a.verdict != ACCEPTED)
        return a;
    reached->cases[ONE_INSTRUCTION] += o->count == 1;
    for (uint32_t i = 0; i < o->count; i++) {
        uint32_t form = old_form_of(o->words[i]), operand;
        bool dropped = drops(form, &operand);
        reached->translated[form]++;
        reached->dropped[form] += dropped && o->words[i][operand] != 0;
    }
    return a;
}
