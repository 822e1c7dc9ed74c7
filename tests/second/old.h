/* Inside only: an instruction of draft 0.5.0, in the order of its 3.1.3. */
#ifndef SECOND_OLD_H
#define SECOND_OLD_H

#include "word.h"

enum { OLD_BYTES = 56 };

typedef struct {
    uint32_t a, b, c, flag_a, flag_b, flag_c, add, mul, deref, jump,
             is_precompile, precompile_index, aux_1, aux_2;
} old_form;

static inline old_form load_old(const uint8_t *from)
{
    old_form o = { load_word(from), load_word(from + 4), load_word(from + 8),
                   load_word(from + 12), load_word(from + 16),
                   load_word(from + 20), load_word(from + 24),
                   load_word(from + 28), load_word(from + 32),
                   load_word(from + 36), load_word(from + 40),
                   load_word(from + 44), load_word(from + 48),
                   load_word(from + 52) };
    return o;
}

#endif
