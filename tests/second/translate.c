/* Programs of draft 0.5.0 into the form of draft 0.6.0. */
#include "old.h"
#include "parts.h"

static bool lengths_fit(size_t old_len, size_t program_len)
{
    uint64_t count = old_len / OLD_BYTES;
    return old_len % OLD_BYTES == 0 && instructions_fit(count)
        && program_len == FORM_BYTES * count;
}

/* Flags A to C and the six opcode flags. */
static bool flags_fit(const old_form *o)
{
    return o->flag_a <= 1 && o->flag_b <= 1 && o->flag_c <= 1
        && o->add <= 1 && o->mul <= 1 && o->deref <= 1 && o->jump <= 1
        && o->is_precompile == 0 && o->precompile_index == 0;
}

/* The three rows of 3.1.4; where AUX is 0, flag B is 1. */
static bool deref_fits(const old_form *o)
{
    return o->flag_a == 0 && o->flag_c == 1 && o->aux_1 <= 1
        && (o->aux_1 == 1 || o->flag_b == 1);
}

static bool translatable(const old_form *o)
{
    if (!flags_fit(o) || o->add + o->mul + o->deref + o->jump != 1)
        return false;
    if (o->aux_2 != 0)
        return false;
    return o->deref == 1 ? deref_fits(o) : o->aux_1 == 0;
}

/* Beta stands in C and gamma in B; without AUX the right side is fp. */
static form translate_deref(const old_form *o)
{
    form f = { .a = o->a, .b = o->c, .fb = 1, .aux = 2 };
    if (o->aux_1 == 0) {
        f.fpc = 1;
    } else {
        f.c = o->b;
        f.fc = o->flag_b;
    }
    return f;
}

/* ADD, MUL and JUMP; a C flag of 1 is fp itself. */
static form translate_other(const old_form *o)
{
    form f = { .a = o->a, .b = o->b, .c = o->flag_c == 1 ? 0 : o->c,
               .fa = o->flag_a, .fb = o->flag_b, .fpc = o->flag_c,
               .mul = o->mul, .jump = o->jump, .aux = o->add };
    return f;
}

static second_answer editions(const uint8_t *old, uint64_t count)
{
    for (uint64_t i = 0; i < count; i++) {
        old_form o = load_old(old + OLD_BYTES * i);
        if (!translatable(&o))
            return answer(EDITION, 0, i, 0);
    }
    return answer(ACCEPTED, 0, 0, 0);
}

/* All is tested before the first byte is written. */
second_answer second_translate(const uint8_t *old, size_t old_len,
                               uint8_t *program, size_t program_len)
{
    uint64_t count = old_len / OLD_BYTES;
    if (!lengths_fit(old_len, program_len))
        return answer(SIZE, 1, 0, 0);
    second_answer out = second_words(1, old, old_len);
    if (out.verdict == ACCEPTED)
        out = editions(old, count);
    for (uint64_t i = 0; out.verdict == ACCEPTED && i < count; i++) {
        old_form o = load_old(old + OLD_BYTES * i);
        form f = o.deref == 1 ? translate_deref(&o) : translate_other(&o);
        store_form(program + FORM_BYTES * i, &f);
    }
    return out;
}
