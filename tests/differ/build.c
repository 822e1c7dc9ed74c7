/* Programs of all kinds and operand modes: the operands are chosen, then the
 * memory is given what makes the step legal. */
#include "world.h"

#include <inttypes.h>
#include <string.h>

#include "builder.h"

/* Zeros and a one make rows with several operations possible. */
void fill_memory(builder *b)
{
    uint32_t style = below(b->random, 4), at;
    const uint32_t one_and_zeros[6] = { 1, 0, 0, 0, 0, 0 };
    for (uint32_t i = 0; i < b->cells; i++) {
        uint32_t word = style == 0 ? 0
                      : style == 1 ? below(b->random, b->cells)
                                   : some_word(b->random, b->cells);
        put(b->to, MEMORY, i, 0, word);
    }
    memset(b->pinned, 0, sizeof b->pinned);
    if (once_in(b->random, 2) && find_free(b, 6, &at))
        set_cells(b, at, one_and_zeros, 6);
}

/* Steps that need nothing of the memory or the frame. */
static void plain_steps(builder *b, uint32_t steps)
{
    while (b->steps < steps && b->count + 40 < MAX_FORMS)
        put_arithmetic(b, true);
}

/* A loop: the frame moves by 1 each turn until the condition's cell is 0.
 * Its group, if it has one, is pushed every turn. */
static void put_loop(builder *b)
{
    const uint32_t zero = 0, one = 1;
    uint32_t turns = 1 + below(b->random, 5), top = b->count, at;
    uint32_t form[FORM_WORDS] = { 0 }, used = b->used;
    if (once_in(b->random, 2))
        put_group(b, 1 + below(b->random, 3), true);
    put_arithmetic(b, true);
    if (!find_free(b, turns + 1, &at))
        return;
    for (uint32_t i = 0; i < turns; i++)
        set_cells(b, at + i, &one, 1);
    set_cells(b, at + turns, &zero, 1);
    form[OP_A] = word_sub(at, b->fp);
    form[OP_B] = top;
    form[OP_C] = 1;
    form[F_B] = form[FP_C] = form[W_JUMP] = 1;
    uint32_t body = b->count - top + 1;
    put_form(b, form);
    b->steps += turns * body;
    b->used += turns * (b->used - used);
    b->fp = word_add(b->fp, turns);
}

/* A jump, with instructions that nothing runs behind a taken one. */
static void put_some_jump(builder *b)
{
    if (once_in(b->random, 3)) {
        put_jump(b, false, 0, 0);
        return;
    }
    uint32_t gap = below(b->random, 3);
    uint32_t frame = once_in(b->random, 2) ? b->fp : some_frame(b);
    put_jump(b, true, b->count + 1 + gap, frame);
    b->fp = frame;
    while (gap-- > 0)
        put_dead_form(b);
}

static void put_step(builder *b)
{
    switch (below(b->random, 9)) {
    case 0:
    case 1:
        put_arithmetic(b, false);
        break;
    case 2:
    case 3:
        put_deref(b);
        break;
    case 4:
        put_some_jump(b);
        break;
    case 5:
        put_loop(b);
        break;
    default:
        put_group(b, once_in(b->random, 2) ? 1 : 1 + below(b->random, 6),
                  false);
    }
}

/* Mostly the last instruction jumps to itself in its frame; else the run
 * moves on for ever, or leaves the program. */
static void put_end(builder *b, uint32_t first)
{
    switch (below(b->random, 16)) {
    case 0:
        put_jump(b, true, first + below(b->random, b->count - first + 1), b->fp);
        break;
    case 1:
        put_jump(b, true, b->count, word_add(b->fp, 1));
        break;
    case 2:
        break;
    case 3:
        put_jump(b, true, some_word(b->random, b->count + 1), b->fp);
        break;
    default:
        put_jump(b, true, b->count, b->fp);
    }
    for (uint32_t gap = below(b->random, 3); gap > 0; gap--)
        put_dead_form(b);
}

/* A group that just fits the extension table, or just does not. */
static void fill_table(builder *b)
{
    uint32_t rows = count_of(b->to, EXTENSIONS);
    uint32_t left = rows > b->used ? rows - b->used : 1;
    put_group(b, left + 1 - below(b->random, 3), false);
}

void build(differ *d, world *w)
{
    builder b = { .random = &d->random, .to = w };
    bool full = once_in(&d->random, 12), late = once_in(&d->random, 12);
    uint32_t m = full ? 11 : once_in(&d->random, 4) ? 9 + below(&d->random, 4) : 8;
    b.cells = (uint32_t)1 << m;
    w->len[MEMORY] = (size_t)4 << m;
    fill_memory(&b);
    b.fp = some_frame(&b);
    for (uint32_t dead = once_in(b.random, 2) ? below(b.random, 4) : 0; dead > 0;
         dead--)
        put_dead_form(&b);
    uint32_t first = b.count, steps = 1 + below(b.random, 8);
    w->pc = first;
    w->fp = b.fp;
    for (uint32_t i = 0; i < steps; i++)
        put_step(&b);
    if (full)
        fill_table(&b);
    if (late) /* the run ends near row 256: the table's end or its middle */
        plain_steps(&b, 253 + below(b.random, 6));
    if (late && once_in(b.random, 2))
        w->len[EXECUTION] = 512 * unit_of(EXECUTION);
    put_end(&b, first);
    if (b.count == 0)
        put_dead_form(&b);
    w->len[PROGRAM] = unit_of(PROGRAM) * b.count;
    note(d, "built m %" PRIu32 " forms %" PRIu32 " pc %" PRIu64 " fp %" PRIu64, m,
         b.count, w->pc, w->fp);
}
