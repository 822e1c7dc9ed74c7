/* Inside only: what a row pushes or pulls, on tables that hold their rules. */
#ifndef SECOND_BUS_H
#define SECOND_BUS_H

#include "parts.h"

typedef struct {
    uint32_t data, a, b, c;
} tuple;

static inline bool same_tuple(tuple x, tuple y)
{
    return x.data == y.data && x.a == y.a && x.b == y.b && x.c == y.c;
}

/* How often execution row r pushes (0 or 1), and what. */
static inline uint32_t push_at(const parts *in, uint64_t r, tuple *out)
{
    exec_row row = load_exec(in->exec + EXEC_BYTES * r);
    form f = form_at(in, row.pc);
    if (!is_extension(&f))
        return 0;
    values v = select_values(&f, &row);
    out->data = f.data;
    out->a = v.a;
    out->b = v.b;
    out->c = v.c;
    return 1;
}

/* How often extension row r pulls (0 to 3), and what.  len is at most K by
 * the rules, so the data sum stays far below p. */
static inline uint32_t pull_at(const parts *in, uint64_t r, tuple *out)
{
    const uint8_t *row = in->ext + EXT_BYTES * r;
    uint32_t start = load_word(row), add = load_word(row + 4);
    uint32_t mul = load_word(row + 8), peq = load_word(row + 12);
    uint32_t len = load_word(row + 16), be = load_word(row + 32);
    out->data = 2 * be + 4 * add + 8 * mul + 16 * peq + 32 * len;
    out->a = load_word(row + 20);
    out->b = load_word(row + 24);
    out->c = load_word(row + 28);
    return start * (add + mul + peq);
}

#endif
