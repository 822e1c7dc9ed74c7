/* The machine of draft 0.5.0, by its section 2.4 as document 02 reads it.
 * Nothing here knows the translation. */
#include "old.h"
#include "second.h"

typedef struct {
    const uint8_t *memory;
    uint64_t cells;
    uint32_t fp;
} machine;

/* The values a, b and c of 2.4.1; condition, dest and next(fp) of 2.4.3. */
typedef struct {
    uint32_t a, b, c;
} operands;

/* m[base + offset]; false where there is no such cell. */
static bool read_at(const machine *m, uint32_t base, uint32_t offset,
                    uint32_t *value)
{
    uint32_t index = word_add(base, offset);
    if (index >= m->cells)
        return false;
    *value = load_word(m->memory + 4 * (uint64_t)index);
    return true;
}

/* What stands above in a brace, with the flag, or the cell below it. */
static bool either(const machine *m, uint32_t flag, uint32_t above,
                   uint32_t offset, uint32_t *value)
{
    *value = above;
    return flag == 1 || read_at(m, m->fp, offset, value);
}

/* Of ADD, MUL and JUMP; all three are read, a jump taken or not. */
static uint32_t read_operands(const machine *m, const old_form *o, operands *v)
{
    if (!either(m, o->flag_a, o->a, o->a, &v->a))
        return 2;
    if (!either(m, o->flag_b, o->b, o->b, &v->b))
        return 3;
    return either(m, o->flag_c, m->fp, o->c, &v->c) ? 0 : 4;
}

/* A step of any kind but JUMP. */
static uint32_t go_on(second_state *s)
{
    s->pc++;
    return 0;
}

/* 2.4.2, where 3.1.4 puts alpha in A, beta in C and gamma in B. */
static uint32_t deref(const machine *m, const old_form *o, second_state *s)
{
    uint32_t pointer, left, right = m->fp;
    if (!read_at(m, m->fp, o->a, &pointer))
        return 2;
    if (!read_at(m, pointer, o->c, &left))
        return 3;
    if (o->aux_1 == 1 && !either(m, o->flag_b, o->b, o->b, &right))
        return 4;
    return left == right ? go_on(s) : 5;
}

/* A jump that is not taken keeps fp, as the constraints have it. */
static uint32_t jump(const operands *v, second_state *s)
{
    if (v->a > 1)
        return 6;
    s->pc = v->a == 1 ? v->b : s->pc + 1;
    s->fp = v->a == 1 ? v->c : s->fp;
    return 0;
}

/* ADD, MUL and JUMP. */
static uint32_t other(const machine *m, const old_form *o, second_state *s)
{
    operands v;
    uint32_t rule = read_operands(m, o, &v);
    if (rule != 0)
        return rule;
    if (o->jump == 1)
        return jump(&v, s);
    uint32_t left = o->add == 1 ? word_add(v.a, v.c) : word_mul(v.a, v.c);
    return left == v.b ? go_on(s) : 5;
}

uint32_t second_old_step(const uint8_t *old, size_t old_len,
                         const uint8_t *memory, size_t memory_len,
                         second_state *s)
{
    if (s->pc >= old_len / OLD_BYTES)
        return 1;
    old_form o = load_old(old + OLD_BYTES * (uint64_t)s->pc);
    machine m = { memory, memory_len / 4, s->fp };
    return o.deref == 1 ? deref(&m, &o, s) : other(&m, &o, s);
}
