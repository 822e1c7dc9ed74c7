/* Three instructions that are a range check, or that are one but for what the
 * way says: all steps are legal. */
#include "ranges.h"

const char *const range_ways[RANGE_WAYS] = {
    "find", "x is j", "first beta", "last beta", "B p - 1", "first kind",
    "middle kind", "last kind", "A immediate", "B cell", "C immediate",
    "C fp-relative", "A beside x", "last beside j", "swapped", "jump before ADD",
    "jump behind ADD"
};

typedef struct {
    uint32_t values[2];          /* of cells x and j */
    uint32_t kinds[OF_THREE];
    uint32_t betas[2], modes[2]; /* of the DEREFs; of their C */
    uint32_t sum[3];             /* modes of the ADD's operands */
    uint32_t off[2];             /* the DEREFs are of the cells so far on: 0, 1, p - 1 */
    bool same, swapped;
    uint32_t jump;               /* before which of the three; 0 is none */
} triple;

/* ---- values and bounds ---- */

/* Two cells' values; the bound is their sum and 1. */
static void some_values(source *random, uint32_t cells, uint32_t values[2])
{
    uint32_t last = cells - 1, any = below(random, cells);
    const uint32_t both[][2] = {
        { 0, 0 }, { 0, 1 }, { 1, 0 }, { any, last - any }, { last, last },
        { any / 2, below(random, cells / 2) }, { last - any / 2, last - below(random, cells / 2) },
        { any, below(random, cells) }
    };
    uint32_t which = below(random, sizeof both / sizeof both[0]);
    values[0] = both[which][0];
    values[1] = both[which][1];
}

static triple some_find(source *random, uint32_t cells)
{
    triple t = { .kinds = { KIND_DEREF, KIND_ADD, KIND_DEREF },
                 .modes = { below(random, FORM_MODES), below(random, FORM_MODES) },
                 .sum = { CELL, IMMEDIATE, CELL } };
    some_values(random, cells, t.values);
    return t;
}

/* ---- putting them ---- */

/* A cell with the value, and one so much above it that has it too. */
static uint32_t some_cell(builder *b, uint32_t value, uint32_t off)
{
    const uint32_t two[2] = { value, value };
    uint32_t at;
    if (!find_free(b, off == 0 ? 1 : 2, &at))
        return 0; /* never: there is room for much more */
    set_cells(b, at, two, off == 0 ? 1 : 2);
    return off == P - 1 ? at + 1 : at;
}

/* A DEREF of a cell, or another kind with the same words A and B.  A jump needs
 * a cell that is 0 then, and an extension one that holds where five zeros are. */
static void put_at(builder *b, uint32_t kind, uint32_t at, uint32_t beta, uint32_t mode)
{
    static const uint32_t word_of[] = { W_AUX, W_MUL, W_AUX, W_JUMP, W_DATA };
    static const uint32_t words[] = { 1, 1, 2, 1, 4 + 32 };
    uint32_t form[FORM_WORDS] = { [OP_A] = word_sub(at, b->fp), [OP_B] = beta, [F_B] = 1 };
    uint32_t value = cell_at(b, at), target = word_add(value, beta);
    form[word_of[kind]] = words[kind];
    switch (kind) {
    case KIND_ADD:
        give_operand(b, form, OP_C, mode, word_sub(0, value));
        break;
    case KIND_DEREF:
        pin(b, target, 1);
        give_operand(b, form, OP_C, mode, cell_at(b, target));
        break;
    case KIND_JUMP:
        give_operand(b, form, OP_C, mode == IMMEDIATE ? FRAME : mode, 0);
        break;
    default: /* the product is 0; zeros and cells 0 to 4 make cells 0 to 4 */
        give_operand(b, form, OP_C, mode, 0);
        b->used += kind == KIND_EXTENSION;
    }
    put_form(b, form);
}

/* The ADD, or another kind with such operands, that holds for x and j. */
static void put_middle(builder *b, const triple *t, uint32_t x, uint32_t j)
{
    uint32_t form[FORM_WORDS] = { [OP_A] = word_sub(x, b->fp), [OP_C] = word_sub(j, b->fp) };
    uint32_t a = t->sum[OP_A] == IMMEDIATE ? form[OP_A] : cell_at(b, x), result;
    uint32_t c = t->sum[OP_C] == IMMEDIATE ? form[OP_C] : t->sum[OP_C] == FRAME ? j : cell_at(b, j);
    form[F_A] = t->sum[OP_A] == IMMEDIATE;
    form[F_C] = t->sum[OP_C] == IMMEDIATE;
    form[FP_C] = t->sum[OP_C] == FRAME;
    switch (t->kinds[1]) {
    case KIND_ADD:
        form[W_AUX] = 1;
        result = word_add(a, c);
        break;
    case KIND_MUL:
        form[W_MUL] = 1;
        result = word_mul(a, c);
        break;
    case KIND_DEREF: /* of cell j itself, which C reads */
        form[W_AUX] = 2;
        result = word_sub(j, a);
        break;
    case KIND_JUMP: /* untaken, as cell x is 0 */
        form[W_JUMP] = 1;
        result = c;
        break;
    default: /* zeros, all three from one cell on */
        form[W_DATA] = 4 + 32;
        result = a;
        b->used++;
    }
    give_operand(b, form, OP_B, t->sum[OP_B], result);
    put_form(b, form);
}

static void put_jump_on(builder *b)
{
    bool taken = once_in(b->random, 2);
    put_jump(b, taken, b->count + 1, b->fp);
}

static void put_three(builder *b, const triple *t)
{
    uint32_t x = some_cell(b, t->values[0], t->off[0]);
    uint32_t j = t->same ? x : some_cell(b, t->values[1], t->off[1]);
    put_at(b, t->kinds[0], word_add(x, t->off[0]), t->betas[0], t->modes[0]);
    if (t->jump == 1)
        put_jump_on(b);
    put_middle(b, t, t->swapped ? j : x, t->swapped ? x : j);
    if (t->jump == 2)
        put_jump_on(b);
    put_at(b, t->kinds[2], word_add(j, t->off[1]), t->betas[1], t->modes[1]);
}

/* ---- what is lacking ---- */

/* A beta that is not 0, and a value that leads to a cell with it. */
static void give_beta(builder *b, triple *t, int which)
{
    uint32_t target = 1 + below(b->random, b->cells - 2), style = below(b->random, 3);
    uint32_t beta = style == 0 ? 1 : style == 1 ? P - 1 : 1 + below(b->random, P - 1);
    t->betas[which] = beta;
    t->values[which] = word_sub(target, beta);
}

/* The values' sum is p - 1, so that t would be p.  No find of an accepted table
 * has it, as both its cells are below M, 2^29 at most: one beta is not 0, or both. */
static void give_largest(builder *b, triple *t)
{
    int kept = (int)below(b->random, 3), other = kept == 1 ? 0 : 1;
    if (kept == 2)
        give_beta(b, t, 0);
    t->values[other] = word_sub(P - 1, t->values[1 - other]);
    t->betas[other] = word_sub(below(b->random, b->cells), t->values[other]);
}

static void give_kind(builder *b, triple *t, uint32_t place, uint32_t zeros)
{
    static const uint32_t others[OF_THREE][4] = {
        { KIND_ADD, KIND_MUL, KIND_JUMP, KIND_EXTENSION },
        { KIND_MUL, KIND_DEREF, KIND_JUMP, KIND_EXTENSION },
        { KIND_ADD, KIND_MUL, KIND_JUMP, KIND_EXTENSION }
    };
    uint32_t kind = t->kinds[place] = others[place][below(b->random, 4)];
    uint32_t *value = &t->values[place / 2];
    if (kind == KIND_JUMP)
        *value = 0;
    if (kind == KIND_EXTENSION)
        *value = zeros;
    if (kind == KIND_EXTENSION && place == 1)
        t->values[1] = zeros;
}

void put_triple(builder *b, uint32_t zeros, enum range_way way)
{
    static const uint32_t beside[2] = { 1, P - 1 };
    triple t = some_find(b->random, b->cells);
    t.same = way == FIND_SAME;
    t.swapped = way == SWAPPED;
    if (way == BETA_FIRST || way == BETA_LAST)
        give_beta(b, &t, way == BETA_LAST);
    if (way == B_LARGEST)
        give_largest(b, &t);
    if (way >= OTHER_FIRST && way <= OTHER_LAST)
        give_kind(b, &t, way - OTHER_FIRST, zeros);
    if (way == A_IMMEDIATE)
        t.sum[OP_A] = IMMEDIATE;
    if (way == B_CELL)
        t.sum[OP_B] = CELL;
    if (way == C_IMMEDIATE || way == C_FRAME)
        t.sum[OP_C] = way == C_FRAME ? FRAME : IMMEDIATE;
    if (way == OFF_X || way == OFF_J)
        t.off[way == OFF_J] = beside[below(b->random, 2)];
    if (way == JUMP_FIRST || way == JUMP_LAST)
        t.jump = way == JUMP_LAST ? 2 : 1;
    put_three(b, &t);
}

void put_find(builder *b, uint32_t mode_first, uint32_t mode_last)
{
    triple t = some_find(b->random, b->cells);
    t.modes[0] = mode_first;
    t.modes[1] = mode_last;
    put_three(b, &t);
}

void put_start(builder *b, uint32_t steps)
{
    triple t = some_find(b->random, b->cells);
    uint32_t x = some_cell(b, t.values[0], 0), j = some_cell(b, t.values[1], 0);
    put_at(b, KIND_DEREF, x, 0, t.modes[0]);
    if (steps == 2)
        put_middle(b, &t, x, j);
}
