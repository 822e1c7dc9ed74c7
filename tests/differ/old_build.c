/* Programs of draft 0.5.0 of every form: the operands are chosen, then the
 * memory is given what makes the step legal. */
#include "olds.h"

#include <inttypes.h>

#include "builder.h"

enum { ROWS = 256, MOST_STEPS = 12 };

static uint32_t mode_of(const uint32_t *words, uint32_t k)
{
    return words[F_A + k] == 1 ? IMMEDIATE : CELL;
}

/* C of any kind but DEREF is a cell, or fp with an operand that is dropped. */
static uint32_t some_c(builder *b, uint32_t *words)
{
    if (words[F_C] == 0)
        return some_operand(b, words, OP_C, CELL);
    words[OP_C] = some_word(b->random, b->cells);
    return b->fp;
}

static void fill_arithmetic(builder *b, uint32_t *words)
{
    uint32_t x = some_operand(b, words, OP_A, mode_of(words, OP_A));
    uint32_t z = some_c(b, words);
    give_operand(b, words, OP_B, mode_of(words, OP_B),
                 words[O_MUL] == 1 ? word_mul(x, z) : word_add(x, z));
}

/* Alpha is in A, beta in C, gamma in B. */
static void fill_deref(builder *b, uint32_t *words)
{
    uint32_t target = below(b->random, b->cells);
    if (words[O_AUX_1] == 0 && find_free(b, 1, &target))
        set_cells(b, target, &b->fp, 1);
    pin(b, target, 1);
    uint32_t pointer = some_operand(b, words, OP_A, CELL);
    words[OP_C] = word_sub(target, pointer);
    if (words[O_AUX_1] == 0)
        words[OP_B] = some_word(b->random, b->cells);
    else
        give_operand(b, words, OP_B, mode_of(words, OP_B), cell_at(b, target));
}

/* To `to` in `frame`, or in the old one where C says fp. */
static void fill_jump(builder *b, uint32_t *words, bool taken, uint32_t to,
                      uint32_t frame)
{
    give_operand(b, words, OP_A, mode_of(words, OP_A), taken);
    give_operand(b, words, OP_B, mode_of(words, OP_B), to);
    if (words[F_C] == 0)
        give_operand(b, words, OP_C, CELL, frame);
    else
        frame = some_c(b, words);
    b->fp = taken ? frame : b->fp;
}

/* An instruction that nothing runs. */
static void put_dead(builder *b, olds *o)
{
    some_old(b->random, b->cells, o->words[o->count]);
    o->frames[o->count++] = b->fp;
}

static void put_step(builder *b, olds *o, uint32_t form)
{
    uint32_t *words = o->words[o->count];
    set_old_form(words, form);
    o->frames[o->count++] = b->fp;
    if (form >= OLD_DEREF) {
        fill_deref(b, words);
    } else if (form < OLD_JUMP) {
        fill_arithmetic(b, words);
    } else {
        bool taken = once_in(b->random, 2);
        uint32_t gap = taken ? below(b->random, 2) : 0;
        uint32_t to = taken ? o->count + gap : some_word(b->random, b->cells);
        fill_jump(b, words, taken, to, some_frame(b));
        while (gap-- > 0)
            put_dead(b, o);
    }
}

/* Mostly the last instruction jumps to itself; else the run goes round for
 * ever, or leaves the program. */
static void put_end(builder *b, const world *w, olds *o)
{
    uint32_t *words = o->words[o->count], style = below(b->random, 8);
    uint32_t form = OLD_JUMP + below(b->random, 8), here = o->count;
    if (style == 0)
        return;
    o->frames[o->count++] = b->fp;
    set_old_form(words, style == 1 ? form & ~UINT32_C(1) : form);
    if (style == 1)
        fill_jump(b, words, true, (uint32_t)w->pc, (uint32_t)w->fp);
    else
        fill_jump(b, words, true, here, b->fp);
}

uint32_t build_olds(differ *d, world *w, olds *o, uint32_t form)
{
    builder b = { .random = &d->random, .to = w };
    uint32_t m = 8 + below(b.random, 3), steps = 1 + below(b.random, MOST_STEPS);
    uint32_t chosen = below(b.random, steps), at = 0;
    b.cells = (uint32_t)1 << m;
    w->len[MEMORY] = (size_t)4 << m;
    w->len[EXECUTION] = unit_of(EXECUTION) * ROWS;
    w->len[EXTENSIONS] = unit_of(EXTENSIONS) * ROWS;
    fill_memory(&b);
    b.fp = some_frame(&b);
    o->count = 0;
    w->fp = b.fp;
    if (once_in(b.random, 2))
        put_dead(&b, o);
    w->pc = o->count;
    for (uint32_t i = 0; i < steps; i++) {
        at = i == chosen ? o->count : at;
        put_step(&b, o, i == chosen ? form : below(b.random, OLD_FORMS));
    }
    put_end(&b, w, o);
    note(d, "old program, m %" PRIu32 ", %" PRIu32 " instructions, pc %" PRIu64
         " fp %" PRIu64, m, o->count, w->pc, w->fp);
    return at;
}
