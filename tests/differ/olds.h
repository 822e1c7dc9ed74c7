/* Programs of draft 0.5.0, as translation gets them. */
#ifndef DIFFER_OLDS_H
#define DIFFER_OLDS_H

#include "old_tally.h"
#include "world.h"

/* The words of an instruction in the order of draft 0.5.0, 3.1.3.  Operands and
 * their flags stand where draft 0.6.0 has them: OP_A to F_C. */
enum { O_ADD = 6, O_MUL, O_DEREF, O_JUMP, O_PRECOMPILE, O_INDEX, O_AUX_1,
       O_AUX_2, OLD_WORDS };

enum { OLD_UNIT = 4 * OLD_WORDS, MAX_OLDS = 200 };

typedef struct {
    uint32_t words[MAX_OLDS][OLD_WORDS];
    uint32_t frames[MAX_OLDS]; /* where it is built: fp as the step is taken */
    uint32_t count;
} olds;

/* olds.c: gives an instruction a form and leaves its operands; the form of one
 * that is translatable; whether a form has an operand that is dropped. */
void set_old_form(uint32_t words[OLD_WORDS], uint32_t form);
uint32_t old_form_of(const uint32_t words[OLD_WORDS]);
bool drops(uint32_t form, uint32_t *operand);

/* The program's bytes; their number. */
size_t store_olds(const olds *o, uint8_t *to);

/* An instruction of any form and with any operands. */
void some_old(source *random, uint32_t cells, uint32_t words[OLD_WORDS]);

/* One call of translation; where it is accepted its forms are counted. */
second_answer translate_olds(differ *d, const olds *o, const attempt *t);

/* old_build.c: a program and a memory in which its steps are legal; gives the
 * number of an instruction that has this form. */
uint32_t build_olds(differ *d, world *w, olds *o, uint32_t form);

/* old_spoil.c: makes an instruction not translatable, for one reason alone. */
extern const char *const reason_names[REASONS];
void give_reason(source *random, uint32_t words[OLD_WORDS], uint32_t reason);

#endif
