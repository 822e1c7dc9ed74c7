/* Ways in which an instruction of draft 0.5.0 is not translatable. */
#include "olds.h"

enum { ANY_KIND = OLD_FORMS };
enum { OWN_OPCODE = OLD_WORDS, OTHER_OPCODE, OPCODES_OF_SUM_1 };

/* A word that alone is wrong: of which form or kind, where, and what it is;
 * OUTSIDE is any word but 0 and 1. */
enum { OUTSIDE = 2 };

static const struct {
    uint32_t form, column, word;
} wrong[REASONS] = {
    { ANY_KIND, O_PRECOMPILE, 1 }, { ANY_KIND, O_PRECOMPILE, OUTSIDE },
    { ANY_KIND, O_INDEX, 1 }, { ANY_KIND, O_INDEX, OUTSIDE },
    { ANY_KIND, OWN_OPCODE, 0 }, { ANY_KIND, OWN_OPCODE, OUTSIDE },
    { ANY_KIND, OTHER_OPCODE, 1 }, { ANY_KIND, OTHER_OPCODE, OUTSIDE },
    { ANY_KIND, OPCODES_OF_SUM_1, 0 },
    { ANY_KIND, F_A, OUTSIDE }, { ANY_KIND, F_B, OUTSIDE },
    { ANY_KIND, F_C, OUTSIDE },
    { DEREF_GAMMA, F_A, 1 }, { DEREF_CELL, F_A, 1 }, { DEREF_FP, F_A, 1 },
    { DEREF_GAMMA, F_C, 0 }, { DEREF_CELL, F_C, 0 }, { DEREF_FP, F_C, 0 },
    { DEREF_FP, F_B, 0 }, { OLD_DEREF, O_AUX_1, OUTSIDE },
    { OLD_ADD, O_AUX_1, 1 }, { OLD_MUL, O_AUX_1, 1 }, { OLD_JUMP, O_AUX_1, 1 },
    { OLD_ADD, O_AUX_1, OUTSIDE }, { OLD_MUL, O_AUX_1, OUTSIDE },
    { OLD_JUMP, O_AUX_1, OUTSIDE },
    { ANY_KIND, O_AUX_2, 1 }, { ANY_KIND, O_AUX_2, OUTSIDE },
};

const char *const reason_names[REASONS] = {
    "IS_PRECOMPILE 1", "IS_PRECOMPILE outside", "PRECOMPILE_INDEX 1",
    "PRECOMPILE_INDEX outside", "no opcode", "opcode outside", "two opcodes",
    "another opcode outside", "opcodes of sum 1", "flag A outside",
    "flag B outside", "flag C outside", "DEREF of gamma with flag A",
    "DEREF of a cell with flag A", "DEREF of fp with flag A",
    "DEREF of gamma without flag C", "DEREF of a cell without flag C",
    "DEREF of fp without flag C", "DEREF of fp without flag B",
    "DEREF's AUX_1 outside", "ADD's AUX_1 1", "MUL's AUX_1 1", "JUMP's AUX_1 1",
    "ADD's AUX_1 outside", "MUL's AUX_1 outside", "JUMP's AUX_1 outside",
    "AUX_2 1", "AUX_2 outside"
};

static uint32_t outside(source *random)
{
    switch (below(random, 4)) {
    case 0:
        return P - 1;
    case 1:
        return 2;
    case 2: /* 1 or 0 in its low bits */
        return ((uint32_t)1 << (8 + below(random, 22))) + below(random, 2);
    default:
        return 2 + below(random, P - 2);
    }
}

/* Any form of a kind, or one of the three of DEREF. */
static uint32_t some_form(source *random, uint32_t form)
{
    if (form == ANY_KIND)
        return below(random, OLD_FORMS);
    return form < OLD_DEREF ? form + below(random, 8) : form;
}

void give_reason(source *random, uint32_t words[OLD_WORDS], uint32_t reason)
{
    uint32_t column = wrong[reason].column, own = O_ADD;
    uint32_t word = wrong[reason].word;
    set_old_form(words, some_form(random, wrong[reason].form));
    while (words[own] == 0)
        own++;
    uint32_t other = O_ADD + (own - O_ADD + 1 + below(random, 3)) % 4;
    if (column == OWN_OPCODE)
        column = own;
    if (column == OTHER_OPCODE)
        column = other;
    if (column == OPCODES_OF_SUM_1) {
        words[own] = P - 1;
        words[other] = 2;
    } else {
        words[column] = word == OUTSIDE ? outside(random) : word;
    }
}
