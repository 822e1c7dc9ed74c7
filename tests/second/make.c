/* The maker: a recipe to a program and its memory. */
#include "parts.h"

#include <string.h>

/* Advances the state and gives its upper 32 bits. */
static uint32_t draw(uint64_t *state)
{
    *state = *state * 6364136223846793005u + 1442695040888963407u;
    return (uint32_t)(*state >> 32);
}

/* Version 2 throws draws from 2p on away, which would make small words likelier
 * than others, but takes the ninth whatever it is. */
static uint32_t draw_cell(uint64_t *state, uint32_t version)
{
    uint32_t number = draw(state);
    if (version == 2)
        for (int thrown = 0; number >= 2 * P && thrown < 8; thrown++)
            number = draw(state);
    return number % P;
}

static uint32_t get(const uint8_t *memory, uint32_t index)
{
    return load_word(memory + 4 * (size_t)index);
}

static void put(uint8_t *memory, uint32_t index, uint32_t value)
{
    store_word(memory + 4 * (size_t)index, value);
}

static form make_add(uint8_t *memory, uint32_t a, uint32_t c, uint32_t slot)
{
    form f = { .a = a, .b = slot, .c = c, .aux = 1 };
    put(memory, slot, word_add(get(memory, a), get(memory, c)));
    return f;
}

static form make_mul(uint8_t *memory, uint32_t a, uint32_t c, uint32_t slot)
{
    form f = { .a = a, .b = slot, .c = c, .mul = 1 };
    put(memory, slot, word_mul(get(memory, a), get(memory, c)));
    return f;
}

static form make_deref(uint8_t *memory, uint32_t a, uint32_t slot)
{
    form f = { .a = slot, .b = 0, .c = slot + 1, .fb = 1, .aux = 2 };
    put(memory, slot, a);
    put(memory, slot + 1, get(memory, a));
    return f;
}

/* Immediate condition and destination, frame fp + 0. */
static form make_jump(uint32_t condition, uint32_t to)
{
    form f = { .a = condition, .b = to, .c = 0, .fa = 1, .fb = 1, .fpc = 1,
               .jump = 1 };
    return f;
}

static form make_extension(uint8_t *memory, uint32_t a, uint32_t c,
                           uint32_t slot)
{
    uint32_t n = 1 + c % 2, kind = c / 2 % 3, be = c / 6 % 2;
    form f = { .a = a % 16, .b = 16 + a % 4, .c = slot, .fa = 1, .fb = 1,
               .fc = 1, .data = 2 * be + ((uint32_t)4 << kind) + 32 * n };
    element sum = element_of_word(kind == 2 ? 1 : 0);
    for (uint32_t i = 0; i < n; i++) {
        element x = be == 1 ? element_of_word(get(memory, f.a + i))
                            : load_element(memory + 4 * (f.a + 5 * i));
        element y = load_element(memory + 4 * (f.b + 5 * i));
        if (kind == 0)
            sum = element_add(sum, element_add(x, y));
        else if (kind == 1)
            sum = element_add(sum, element_mul(x, y));
        else
            sum = element_mul(sum, element_peq(x, y));
    }
    for (uint32_t k = 0; k < 5; k++)
        put(memory, slot + k, sum.at[k]);
    return f;
}

static form make_form(uint8_t *memory, uint64_t *state, uint32_t i)
{
    uint32_t kind = draw(state) % 5;
    uint32_t a = draw(state) % 32;
    uint32_t c = draw(state) % 32;
    uint32_t slot = 32 + 8 * i;
    switch (kind) {
    case 0:
        return make_add(memory, a, c, slot);
    case 1:
        return make_mul(memory, a, c, slot);
    case 2:
        return make_deref(memory, a, slot);
    case 3:
        return make_jump(c % 2, i + 1);
    default:
        return make_extension(memory, a, c, slot);
    }
}

second_answer second_make(second_recipe r, uint8_t *program, size_t program_len,
                          uint8_t *memory, size_t memory_len)
{
    if (!recipe_fits(r))
        return answer(SIZE, 0, 0, 0);
    if (program_len != (size_t)FORM_BYTES * (r.n + 1))
        return answer(SIZE, 1, 0, 0);
    if (memory_len != (size_t)4 << r.m)
        return answer(SIZE, 2, 0, 0);
    memset(memory, 0, memory_len);
    for (uint32_t i = 0; i < 32; i++)
        put(memory, i, draw_cell(&r.seed, r.version));
    for (uint32_t i = 0; i < r.n; i++) {
        form f = make_form(memory, &r.seed, i);
        store_form(program + (size_t)FORM_BYTES * i, &f);
    }
    form last = make_jump(1, r.n);
    store_form(program + (size_t)FORM_BYTES * r.n, &last);
    return answer(ACCEPTED, 0, 0, 0);
}
