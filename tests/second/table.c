/* The tabler: runs H steps and writes both tables. */
#include "parts.h"

#include <string.h>

/* A run so far: the registers and the extension rows taken. */
typedef struct {
    const parts *in;
    uint8_t *exec, *ext;
    uint64_t used;
    uint32_t pc, fp;
} run;

/* An extension instruction with its addresses. */
typedef struct {
    uint32_t n, be, add, mul, peq;
    uint64_t a, b, c;
} group;

static void store_exec(uint8_t *to, const exec_row *row)
{
    const uint32_t words[8] = { row->pc, row->fp, row->addr_a, row->addr_b,
                                row->addr_c, row->value_a, row->value_b,
                                row->value_c };
    for (int i = 0; i < 8; i++)
        store_word(to + 4 * i, words[i]);
}

static void store_element(uint8_t *to, element e)
{
    for (int i = 0; i < 5; i++)
        store_word(to + 4 * i, e.at[i]);
}

static void store_ext(uint8_t *to, const ext_row *row)
{
    const uint32_t words[10] = { row->start, row->add, row->mul, row->peq,
                                 row->len, row->idx_a, row->idx_b, row->idx_r,
                                 row->be, row->base };
    for (int i = 0; i < 10; i++)
        store_word(to + 4 * i, words[i]);
    store_element(to + 40, row->va);
    store_element(to + 60, row->vb);
    store_element(to + 80, row->comp);
    store_element(to + 100, row->res);
}

static bool read_cell(const parts *in, uint32_t index, uint32_t *addr,
                      uint32_t *value)
{
    if (index >= in->cells)
        return false;
    *addr = index;
    *value = cell(in, index);
    return true;
}

/* Fills addresses and values; gives STUCK's rule 2, 3 or 4, or 0. */
static uint32_t read_operands(const parts *in, const form *f, exec_row *row)
{
    row->addr_a = row->addr_b = row->addr_c = 0;
    row->value_a = row->value_b = row->value_c = cell(in, 0);
    if (reads_a(f) && !read_cell(in, word_add(row->fp, f->a), &row->addr_a,
                                 &row->value_a))
        return 2;
    uint32_t target = word_add(f->aux == 2 ? row->value_a : row->fp, f->b);
    if ((f->aux == 2 || reads_b(f))
        && !read_cell(in, target, &row->addr_b, &row->value_b))
        return 3;
    if (reads_c(f) && !read_cell(in, word_add(row->fp, f->c), &row->addr_c,
                                 &row->value_c))
        return 4;
    return 0;
}

/* STUCK's rule 5 or 6, or 0. */
static uint32_t false_step(const form *f, const exec_row *row, values v)
{
    if (f->aux == 1 && word_add(v.a, v.c) != v.b)
        return 5;
    if (f->mul == 1 && word_mul(v.a, v.c) != v.b)
        return 5;
    if (f->aux == 2 && row->value_b != v.c)
        return 5;
    if (f->jump == 1 && v.a > 1)
        return 6;
    return 0;
}

static group group_of(uint32_t data, values v)
{
    group g = { data / 32, data / 2 % 2, data / 4 % 2, data / 8 % 2,
                data / 16 % 2, v.a, v.b, v.c };
    return g;
}

static bool cells_exist(const parts *in, const group *g)
{
    uint64_t a_cells = g->be == 1 ? (uint64_t)g->n + 4 : 5 * (uint64_t)g->n;
    return g->a + a_cells <= in->cells
        && g->b + 5 * (uint64_t)g->n <= in->cells
        && g->c + 5 <= in->cells;
}

/* Row i of a group, all but comp. */
static ext_row group_row(const parts *in, const group *g, uint32_t i)
{
    uint64_t a = g->a + (g->be == 1 ? i : 5 * (uint64_t)i);
    uint64_t b = g->b + 5 * (uint64_t)i;
    ext_row row = { i == 0, g->add, g->mul, g->peq, g->n - i, (uint32_t)a,
                    (uint32_t)b, (uint32_t)g->c, g->be, cell(in, a),
                    five_cells(in, a), five_cells(in, b), { { 0 } },
                    five_cells(in, g->c) };
    return row;
}

/* The element row i gives, joined to what the rows after it give. */
static element join(const ext_row *row, bool last, element tail)
{
    element va = row->be == 1 ? element_of_word(row->base) : row->va;
    if (row->peq == 1) {
        element e = element_peq(va, row->vb);
        return last ? e : element_mul(e, tail);
    }
    element e = row->add == 1 ? element_add(va, row->vb)
                              : element_mul(va, row->vb);
    return last ? e : element_add(e, tail);
}

/* Computes a group from its last row back and writes its rows, unless to is
 * NULL; true if the result is what the five cells from C hold. */
static bool work_group(const parts *in, const group *g, uint8_t *to)
{
    element comp = element_of_word(0);
    for (uint32_t i = g->n; i-- > 0;) {
        ext_row row = group_row(in, g, i);
        comp = join(&row, i + 1 == g->n, comp);
        row.comp = comp;
        if (to != NULL)
            store_ext(to + (uint64_t)EXT_BYTES * i, &row);
    }
    return element_same(comp, five_cells(in, g->c));
}

/* STUCK comes before ROOM, so a group without room is still computed. */
static second_answer extension_step(run *r, const group *g, uint64_t place)
{
    if (!cells_exist(r->in, g))
        return answer(STUCK, 0, place, 7);
    bool room = r->used + g->n + 1 <= r->in->ext_rows;
    if (!work_group(r->in, g, room ? r->ext + EXT_BYTES * r->used : NULL))
        return answer(STUCK, 0, place, 8);
    if (!room)
        return answer(ROOM, 0, place, 0);
    r->used += g->n;
    return answer(ACCEPTED, 0, 0, 0);
}

static second_answer step(run *r, uint64_t place)
{
    if (r->pc >= r->in->instructions)
        return answer(STUCK, 0, place, 1);
    form f = form_at(r->in, r->pc);
    exec_row row = { .pc = r->pc, .fp = r->fp };
    uint32_t rule = read_operands(r->in, &f, &row);
    values v = select_values(&f, &row);
    if (rule == 0)
        rule = false_step(&f, &row, v);
    if (rule != 0)
        return answer(STUCK, 0, place, rule);
    if (is_extension(&f)) {
        group g = group_of(f.data, v);
        second_answer out = extension_step(r, &g, place);
        if (out.verdict != ACCEPTED)
            return out;
    }
    store_exec(r->exec + EXEC_BYTES * place, &row);
    bool taken = f.jump == 1 && v.a == 1;
    r->pc = taken ? v.b : r->pc + 1;
    r->fp = taken ? v.c : r->fp;
    return answer(ACCEPTED, 0, 0, 0);
}

/* All steps; OPEN if the last one moves. */
static second_answer run_steps(run *r)
{
    uint32_t pc = 0, fp = 0;
    for (uint64_t i = 0; i < r->in->exec_rows; i++) {
        pc = r->pc;
        fp = r->fp;
        second_answer out = step(r, i);
        if (out.verdict != ACCEPTED)
            return out;
    }
    if (r->pc != pc || r->fp != fp)
        return answer(OPEN, 0, r->in->exec_rows - 1, 0);
    return answer(ACCEPTED, 0, 0, 0);
}

static void pad(run *r)
{
    element five = five_cells(r->in, 0);
    ext_row row = { .start = 1, .len = 1, .base = cell(r->in, 0), .va = five,
                    .vb = five, .comp = five, .res = five };
    for (; r->used < r->in->ext_rows; r->used++)
        store_ext(r->ext + EXT_BYTES * r->used, &row);
}

/* Verdicts 1 to 4. */
static second_answer refuse(const parts *in, const size_t len[4], uint64_t pc,
                            uint64_t fp)
{
    second_answer out = second_sizes(len[0], len[1], len[2], len[3]);
    if (out.verdict == ACCEPTED)
        out = second_words(1, in->program, len[0]);
    if (out.verdict == ACCEPTED)
        out = second_words(2, in->memory, len[1]);
    if (out.verdict == ACCEPTED)
        out = second_forms(in);
    if (out.verdict == ACCEPTED && (pc >= P || fp >= P))
        out = answer(START, 0, 0, 0);
    return out;
}

second_answer second_table(const uint8_t *program, size_t program_len,
                           const uint8_t *memory, size_t memory_len,
                           uint64_t pc, uint64_t fp,
                           uint8_t *exec, size_t exec_len,
                           uint8_t *ext, size_t ext_len)
{
    parts in = { program, memory, exec, ext, program_len / FORM_BYTES,
                 memory_len / 4, exec_len / EXEC_BYTES, ext_len / EXT_BYTES,
                 NULL, memory_len / 4 };
    const size_t len[4] = { program_len, memory_len, exec_len, ext_len };
    second_answer out = refuse(&in, len, pc, fp);
    if (out.verdict != ACCEPTED)
        return out;
    run r = { &in, exec, ext, 0, (uint32_t)pc, (uint32_t)fp };
    out = run_steps(&r);
    if (out.verdict == ACCEPTED) {
        pad(&r);
    } else {
        memset(exec, 0, exec_len);
        memset(ext, 0, ext_len);
    }
    return out;
}
