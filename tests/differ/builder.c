#include "builder.h"

enum { SUM, PRODUCT, PEQ };

uint32_t cell_at(const builder *b, uint32_t at)
{
    return get(b->to, MEMORY, at, 0);
}

void pin(builder *b, uint32_t at, uint32_t count)
{
    for (uint32_t i = 0; i < count; i++)
        b->pinned[at + i] = true;
}

bool find_free(builder *b, uint32_t run, uint32_t *at)
{
    uint32_t places = b->cells - run + 1, from = below(b->random, places);
    for (uint32_t i = 0; i < places; i++) {
        uint32_t k = 0;
        *at = (from + i) % places;
        while (k < run && !b->pinned[*at + k])
            k++;
        if (k == run)
            return true;
    }
    return false;
}

void set_cells(builder *b, uint32_t at, const uint32_t *words, uint32_t count)
{
    for (uint32_t i = 0; i < count; i++)
        put(b->to, MEMORY, at + i, 0, words[i]);
    pin(b, at, count);
}

uint32_t some_frame(builder *b)
{
    switch (below(b->random, 4)) {
    case 0:
        return 0;
    case 1:
        return below(b->random, b->cells);
    case 2: /* cells are then reached by wrapping */
        return P - 1 - below(b->random, b->cells);
    default:
        return below(b->random, P);
    }
}

void put_form(builder *b, const uint32_t form[FORM_WORDS])
{
    if (b->count == MAX_FORMS)
        return;
    for (uint32_t i = 0; i < FORM_WORDS; i++)
        put(b->to, PROGRAM, b->count, i, form[i]);
    b->count++;
    b->steps++;
}

static uint32_t some_mode(builder *b, bool frame_too)
{
    return below(b->random, frame_too ? 3 : 2);
}

/* For a kind whose C takes all modes, and whose A and B are not fp-relative. */
static void some_modes(builder *b, bool fixed, uint32_t modes[3])
{
    for (uint32_t k = OP_A; k <= OP_C; k++)
        modes[k] = fixed ? IMMEDIATE : some_mode(b, k == OP_C);
}

static void set_mode(uint32_t *form, uint32_t k, uint32_t mode)
{
    if (mode == IMMEDIATE)
        form[F_A + k] = 1;
    if (mode == FRAME)
        form[k == OP_C ? FP_C : FP_AB] = 1;
}

uint32_t some_operand(builder *b, uint32_t *form, uint32_t k, uint32_t mode)
{
    set_mode(form, k, mode);
    form[k] = some_word(b->random, b->cells);
    if (mode == IMMEDIATE)
        return form[k];
    if (mode == FRAME)
        return word_add(b->fp, form[k]);
    uint32_t at = below(b->random, b->cells);
    pin(b, at, 1);
    form[k] = word_sub(at, b->fp);
    return cell_at(b, at);
}

void give_operand(builder *b, uint32_t *form, uint32_t k, uint32_t mode,
                  uint32_t value)
{
    uint32_t at;
    if (mode == CELL && !find_free(b, 1, &at))
        mode = k == OP_C ? FRAME : IMMEDIATE;
    set_mode(form, k, mode);
    form[k] = value;
    if (mode == FRAME)
        form[k] = word_sub(value, b->fp);
    if (mode == CELL) {
        set_cells(b, at, &value, 1);
        form[k] = word_sub(at, b->fp);
    }
}

void put_arithmetic_in(builder *b, bool mul, const uint32_t modes[3])
{
    uint32_t form[FORM_WORDS] = { 0 };
    form[mul ? W_MUL : W_AUX] = 1;
    uint32_t x = some_operand(b, form, OP_A, modes[OP_A]);
    uint32_t z = some_operand(b, form, OP_C, modes[OP_C]);
    give_operand(b, form, OP_B, modes[OP_B],
                 mul ? word_mul(x, z) : word_add(x, z));
    put_form(b, form);
}

void put_arithmetic(builder *b, bool fixed)
{
    uint32_t modes[3];
    bool mul = once_in(b->random, 2);
    some_modes(b, fixed, modes);
    put_arithmetic_in(b, mul, modes);
}

void put_deref_in(builder *b, uint32_t mode_c)
{
    uint32_t form[FORM_WORDS] = { 0 }, target = below(b->random, b->cells);
    uint32_t pointer = some_operand(b, form, OP_A, CELL);
    pin(b, target, 1);
    form[W_AUX] = 2;
    form[F_B] = 1;
    form[OP_B] = word_sub(target, pointer);
    give_operand(b, form, OP_C, mode_c, cell_at(b, target));
    put_form(b, form);
}

void put_deref(builder *b)
{
    put_deref_in(b, some_mode(b, true));
}

void put_jump_in(builder *b, const uint32_t modes[3], bool taken, uint32_t to,
                 uint32_t frame)
{
    uint32_t form[FORM_WORDS] = { 0 };
    form[W_JUMP] = 1;
    give_operand(b, form, OP_A, modes[OP_A], taken);
    if (taken) {
        give_operand(b, form, OP_B, modes[OP_B], to);
        give_operand(b, form, OP_C, modes[OP_C], frame);
    } else {
        some_operand(b, form, OP_B, modes[OP_B]);
        some_operand(b, form, OP_C, modes[OP_C]);
    }
    put_form(b, form);
}

void put_jump(builder *b, bool taken, uint32_t to, uint32_t frame)
{
    uint32_t modes[3];
    some_modes(b, false, modes);
    modes[OP_C] = CELL + below(b->random, 2);
    put_jump_in(b, modes, taken, to, frame);
}

static element five_at(const builder *b, uint32_t at)
{
    element e;
    for (uint32_t i = 0; i < 5; i++)
        e.at[i] = cell_at(b, at + i);
    return e;
}

static element group_result(const builder *b, uint32_t kind, bool be,
                            uint32_t n, const uint32_t from[2])
{
    element all = element_of_word(kind == PEQ ? 1 : 0);
    for (uint32_t i = 0; i < n; i++) {
        element x = be ? element_of_word(cell_at(b, from[0] + i))
                       : five_at(b, from[0] + 5 * i);
        element y = five_at(b, from[1] + 5 * i);
        if (kind == SUM)
            all = element_add(all, element_add(x, y));
        else if (kind == PRODUCT)
            all = element_add(all, element_mul(x, y));
        else
            all = element_mul(all, element_peq(x, y));
    }
    return all;
}

/* Groups like to touch the memory's ends. */
static uint32_t some_start(builder *b, uint32_t last)
{
    if (once_in(b->random, 6))
        return last;
    return once_in(b->random, 6) ? 0 : below(b->random, last + 1);
}

void put_group_at(builder *b, uint32_t n, bool be, const uint32_t from[2],
                  uint32_t to, const uint32_t modes[3])
{
    uint32_t form[FORM_WORDS] = { 0 }, kind = below(b->random, 3);
    element all = group_result(b, kind, be, n, from);
    set_cells(b, to, all.at, 5);
    form[W_DATA] = 2 * (uint32_t)be + (4u << kind) + 32 * n;
    give_operand(b, form, OP_A, modes[OP_A], from[0]);
    give_operand(b, form, OP_B, modes[OP_B], from[1]);
    give_operand(b, form, OP_C, modes[OP_C], to);
    put_form(b, form);
    b->used += n;
}

void put_group_in(builder *b, uint32_t n, const uint32_t modes[3])
{
    uint32_t to;
    bool be = once_in(b->random, 2);
    uint32_t a_cells = be ? n + 4 : 5 * n;
    if (n == 0 || a_cells > b->cells || 5 * n > b->cells)
        return;
    const uint32_t from[2] = { some_start(b, b->cells - a_cells),
                               some_start(b, b->cells - 5 * n) };
    pin(b, from[0], be ? n : 5 * n);
    pin(b, from[1], 5 * n);
    if (find_free(b, 5, &to))
        put_group_at(b, n, be, from, to, modes);
}

/* A and B are fp-relative together. */
void put_group(builder *b, uint32_t n, bool fixed)
{
    uint32_t modes[3];
    some_modes(b, fixed, modes);
    if (!fixed && once_in(b->random, 3))
        modes[OP_A] = modes[OP_B] = FRAME;
    put_group_in(b, n, modes);
}

void put_dead_form(builder *b)
{
    uint32_t form[FORM_WORDS] = { 0 }, kind = below(b->random, 4);
    static const uint32_t words[4] = { W_AUX, W_MUL, W_JUMP, W_DATA };
    uint32_t most = 1 << 20; /* no table holds a group so long */
    uint32_t n = once_in(b->random, 2) ? most : 1 + below(b->random, most);
    form[words[kind]] = kind == 3 ? 4 + 32 * n : 1;
    some_operand(b, form, OP_A, some_mode(b, false));
    some_operand(b, form, OP_B, some_mode(b, false));
    some_operand(b, form, OP_C, CELL + below(b->random, 2));
    put_form(b, form);
    b->steps--;
}
