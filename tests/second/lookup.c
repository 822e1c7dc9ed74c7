/* The answer to a row that breaks a rule; a lookup's says what it found.  The
 * row is read anew, so that the loops over the rows have none of this. */
#include "parts.h"

/* What a lookup found in place of what: the first of the cells from index that
 * is not its value.  Where one of them does not exist nothing is said. */
static second_answer lookup_answer(second_answer out, const parts *in,
                                   uint32_t index, const uint32_t *values,
                                   uint32_t count)
{
    if ((uint64_t)index + count > in->cells)
        return out;
    uint32_t k = 0;
    while (k + 1 < count
           && cell_of_either(in, (uint64_t)index + k) == values[k])
        k++;
    out.expected = cell_of_either(in, (uint64_t)index + k);
    out.found = values[k];
    return out;
}

second_answer second_exec_answer(const parts *in, uint64_t r, uint32_t rule)
{
    second_answer out = answer(EXEC, 3, r, rule);
    exec_row row = load_exec(in->exec + EXEC_BYTES * r);
    switch (rule) {
    case 2:
        return lookup_answer(out, in, row.addr_a, &row.value_a, 1);
    case 3:
        return lookup_answer(out, in, row.addr_b, &row.value_b, 1);
    case 4:
        return lookup_answer(out, in, row.addr_c, &row.value_c, 1);
    default:
        return out;
    }
}

second_answer second_ext_answer(const parts *in, uint64_t r, uint32_t rule)
{
    second_answer out = answer(EXTENSION, 4, r, rule);
    ext_row row = load_ext(in->ext + EXT_BYTES * r);
    switch (rule) {
    case 18:
        return lookup_answer(out, in, row.idx_a, &row.base, 1);
    case 19:
        return lookup_answer(out, in, row.idx_a, row.va.at, 5);
    case 20:
        return lookup_answer(out, in, row.idx_b, row.vb.at, 5);
    case 21:
        return lookup_answer(out, in, row.idx_r, row.res.at, 5);
    default:
        return out;
    }
}
