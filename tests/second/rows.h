/* Inside judge.c and split.c only: verdicts 3 to 7, rules in document 01's order.
 * Each has its own cell_is and five_cells_are before it includes this, so that a
 * judge of one buffer has nothing of a seam in its loops. */
#ifndef SECOND_ROWS_H
#define SECOND_ROWS_H

#include "parts.h"

/* Rules 2 to 7; 0 if they hold. */
static uint32_t operand_rules(const parts *in, const form *f,
                              const exec_row *row)
{
    if (!cell_is(in, row->addr_a, row->value_a))
        return 2;
    if (!cell_is(in, row->addr_b, row->value_b))
        return 3;
    if (!cell_is(in, row->addr_c, row->value_c))
        return 4;
    if (reads_a(f) && row->addr_a != word_add(row->fp, f->a))
        return 5;
    if (reads_b(f) && row->addr_b != word_add(row->fp, f->b))
        return 6;
    if (reads_c(f) && row->addr_c != word_add(row->fp, f->c))
        return 7;
    return 0;
}

/* Rules 8 to 16; 0 if they hold.  Past rule 12, J is 0 or 1. */
static uint32_t operation_rules(const form *f, const exec_row *row,
                                const exec_row *next)
{
    values v = select_values(f, row);
    if (f->aux == 1 && v.b != word_add(v.a, v.c))
        return 8;
    if (f->mul == 1 && v.b != word_mul(v.a, v.c))
        return 9;
    if (f->aux == 2 && row->addr_b != word_add(row->value_a, f->b))
        return 10;
    if (f->aux == 2 && row->value_b != v.c)
        return 11;
    uint32_t j = f->jump == 1 ? v.a : 0;
    if (j > 1)
        return 12;
    if (j == 1 && next->pc != v.b)
        return 13;
    if (j == 1 && next->fp != v.c)
        return 14;
    if (j == 0 && next->pc != word_add(row->pc, 1))
        return 15;
    if (j == 0 && next->fp != row->fp)
        return 16;
    return 0;
}

/* The first row that breaks a rule, and the first rule that it breaks; 0 is
 * none.  Two words are all that the loops over the rows have to give. */
typedef struct {
    uint64_t row;
    uint32_t rule;
} broken;

static broken judge_exec(const parts *in)
{
    exec_row row = load_exec(in->exec);
    for (uint64_t r = 0; r < in->exec_rows; r++) {
        exec_row next = row;
        if (r + 1 < in->exec_rows)
            next = load_exec(in->exec + EXEC_BYTES * (r + 1));
        if (row.pc >= in->instructions)
            return (broken){ r, 1 };
        form f = form_at(in, row.pc);
        uint32_t rule = operand_rules(in, &f, &row);
        if (rule == 0)
            rule = operation_rules(&f, &row, &next);
        if (rule != 0)
            return (broken){ r, rule };
        row = next;
    }
    return (broken){ 0, 0 };
}

static uint32_t lookup_rules(const parts *in, const ext_row *row)
{
    if (!cell_is(in, row->idx_a, row->base))
        return 18;
    if (!five_cells_are(in, row->idx_a, row->va))
        return 19;
    if (!five_cells_are(in, row->idx_b, row->vb))
        return 20;
    if (!five_cells_are(in, row->idx_r, row->res))
        return 21;
    return 0;
}

/* x * (1 - x) = 0 */
static bool boolean(uint32_t x)
{
    return word_mul(x, word_sub(1, x)) == 0;
}

static uint32_t boolean_rules(const ext_row *row)
{
    if (!boolean(row->be))
        return 1;
    if (!boolean(row->start))
        return 2;
    if (!boolean(row->add))
        return 3;
    if (!boolean(row->mul))
        return 4;
    if (!boolean(row->peq))
        return 5;
    return 0;
}

/* flag * value = 0 in every coordinate; the flag is 0 or 1 by now. */
static bool off_or_zero(uint32_t flag, element value)
{
    return flag == 0 || element_is_zero(element_scale(flag, value));
}

/* Rules 6 to 9.  This row's flags, be and start are 0 or 1 by now, but the
 * next row's start may be any word, so comp_tail is taken as printed.
 * A factor 0 makes its rule hold, so the rest of that rule is left out. */
static uint32_t sum_rules(const ext_row *row, const ext_row *next)
{
    element va = row->be == 1 ? element_of_word(row->base) : row->va;
    element tail = element_scale(word_sub(1, next->start), next->comp);
    if (row->add != 0) {
        element e = element_add(va, row->vb);
        element gap = element_sub(element_sub(row->comp, e), tail);
        if (!off_or_zero(row->add, gap))
            return 6;
    }
    if (row->mul != 0) {
        element e = element_mul(va, row->vb);
        element gap = element_sub(element_sub(row->comp, e), tail);
        if (!off_or_zero(row->mul, gap))
            return 7;
    }
    if (row->peq != 0) {
        element e = element_peq(va, row->vb);
        element rest = element_add(tail, element_of_word(next->start));
        element gap = element_sub(row->comp, element_mul(e, rest));
        if (!off_or_zero(row->peq, gap))
            return 8;
    }
    if (!off_or_zero(row->start, element_sub(row->comp, row->res)))
        return 9;
    return 0;
}

/* Rules 10 to 17, as printed: next start may be any word. */
static uint32_t group_rules(const ext_row *row, const ext_row *next)
{
    uint32_t stay = word_sub(1, next->start);
    uint32_t stride = word_add(row->be, word_mul(word_sub(1, row->be), 5));
    uint32_t step_a = word_sub(word_sub(next->idx_a, row->idx_a), stride);
    uint32_t step_b = word_sub(word_sub(next->idx_b, row->idx_b), 5);
    if (word_mul(stay, word_sub(word_sub(row->len, next->len), 1)) != 0)
        return 10;
    if (word_mul(stay, word_sub(row->be, next->be)) != 0)
        return 11;
    if (word_mul(stay, word_sub(row->add, next->add)) != 0)
        return 12;
    if (word_mul(stay, word_sub(row->mul, next->mul)) != 0)
        return 13;
    if (word_mul(stay, word_sub(row->peq, next->peq)) != 0)
        return 14;
    if (word_mul(stay, step_a) != 0)
        return 15;
    if (word_mul(stay, step_b) != 0)
        return 16;
    if (word_mul(next->start, word_sub(row->len, 1)) != 0)
        return 17;
    return 0;
}

static broken judge_ext(const parts *in)
{
    ext_row row = load_ext(in->ext);
    for (uint64_t r = 0; r < in->ext_rows; r++) {
        ext_row next = row;
        if (r + 1 < in->ext_rows)
            next = load_ext(in->ext + EXT_BYTES * (r + 1));
        uint32_t rule = lookup_rules(in, &row);
        if (rule == 0)
            rule = boolean_rules(&row);
        if (rule == 0)
            rule = sum_rules(&row, &next);
        if (rule == 0)
            rule = group_rules(&row, &next);
        if (rule != 0)
            return (broken){ r, rule };
        row = next;
    }
    return (broken){ 0, 0 };
}

static second_answer judge_rows(const parts *in)
{
    broken exec = judge_exec(in);
    if (exec.rule != 0)
        return second_exec_answer(in, exec.row, exec.rule);
    broken ext = judge_ext(in);
    if (ext.rule != 0)
        return second_ext_answer(in, ext.row, ext.rule);
    return answer(ACCEPTED, 0, 0, 0);
}

/* Verdicts 3 to 7, on parts of good length and good words. */
static second_answer judge_parts(const parts *in, uint64_t pc, uint64_t fp,
                                 bool sorted)
{
    second_answer out = second_forms(in);
    if (out.verdict == ACCEPTED
        && (load_word(in->exec) != pc || load_word(in->exec + 4) != fp))
        out = answer(START, 0, 0, 0);
    if (out.verdict == ACCEPTED)
        out = judge_rows(in);
    if (out.verdict == ACCEPTED)
        out = second_bus(in, sorted);
    return out;
}

#endif
