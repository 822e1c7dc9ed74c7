/* Inside build.c, builder.c, forms.c, old_build.c and what ranges.h and splits.h
 * have only: single instructions. */
#ifndef DIFFER_BUILDER_H
#define DIFFER_BUILDER_H

#include "world.h"

typedef struct {
    source *random;
    world *to;
    uint32_t cells, fp;
    uint32_t count, steps, used; /* instructions, steps, extension rows so far */
    bool pinned[MAX_CELLS];      /* cells that a step already relies on */
} builder;

/* Operands' modes and kinds, numbered as a grid of forms has them. */
enum { IMMEDIATE, CELL, FRAME };
enum { KIND_ADD, KIND_MUL, KIND_DEREF, KIND_JUMP, KIND_EXTENSION };

/* A memory of b->cells words, none of them relied on but a one and zeros. */
void fill_memory(builder *b);

/* `run` cells one after another that nothing relies on. */
bool find_free(builder *b, uint32_t run, uint32_t *at);
void set_cells(builder *b, uint32_t at, const uint32_t *words, uint32_t count);
uint32_t cell_at(const builder *b, uint32_t at);
void pin(builder *b, uint32_t at, uint32_t count);
uint32_t some_frame(builder *b);

/* Gives operand k any legal meaning, and tells its value. */
uint32_t some_operand(builder *b, uint32_t *form, uint32_t k, uint32_t mode);

/* Gives operand k a value, in the mode asked for unless no cell is free. */
void give_operand(builder *b, uint32_t *form, uint32_t k, uint32_t mode,
                  uint32_t value);

void put_form(builder *b, const uint32_t form[FORM_WORDS]);

/* Legal steps.  `fixed` ones mean the same in every frame. */
void put_arithmetic(builder *b, bool fixed);
void put_deref(builder *b);
void put_jump(builder *b, bool taken, uint32_t to, uint32_t frame);
void put_group(builder *b, uint32_t n, bool fixed);

/* The same in the modes given for A, B and C. */
void put_arithmetic_in(builder *b, bool mul, const uint32_t modes[3]);
void put_deref_in(builder *b, uint32_t mode_c);
void put_jump_in(builder *b, const uint32_t modes[3], bool taken, uint32_t to,
                 uint32_t frame);
void put_group_in(builder *b, uint32_t n, const uint32_t modes[3]);

/* A group that reads A and B from the cells given, all of which are there, and
 * has its result in five others, which nothing else may rely on. */
void put_group_at(builder *b, uint32_t n, bool be, const uint32_t from[2],
                  uint32_t to, const uint32_t modes[3]);

/* A well-formed instruction that is not meant to be run. */
void put_dead_form(builder *b);

#endif
