/* The bus without heap: one walk, then plain counting. */
#include "bus.h"

/* The first extension row from r on that pulls, or the number of rows. */
static uint64_t next_pull(const parts *in, uint64_t r, tuple *out,
                          uint32_t *times)
{
    while (r < in->ext_rows) {
        *times = pull_at(in, r, out);
        if (*times != 0)
            return r;
        r++;
    }
    return r;
}

/* Pushes and pulls are the same tuples in the same order.  A row that pulls
 * twice or three times has two or three operations and no push has those. */
static bool in_one_order(const parts *in)
{
    uint64_t j = 0;
    uint32_t times = 0;
    tuple push, pull = { 0, 0, 0, 0 };
    for (uint64_t i = 0; i < in->exec_rows; i++) {
        if (push_at(in, i, &push) == 0)
            continue;
        j = next_pull(in, j, &pull, &times);
        if (j == in->ext_rows || times != 1 || !same_tuple(push, pull))
            return false;
        j++;
    }
    return next_pull(in, j, &pull, &times) == in->ext_rows;
}

static bool balanced(const parts *in, tuple t)
{
    uint64_t pushes = 0, pulls = 0;
    tuple other;
    for (uint64_t i = 0; i < in->exec_rows; i++)
        if (push_at(in, i, &other) != 0 && same_tuple(t, other))
            pushes++;
    for (uint64_t j = 0; j < in->ext_rows; j++) {
        uint32_t times = pull_at(in, j, &other);
        if (times != 0 && same_tuple(t, other))
            pulls += times;
    }
    return pushes == pulls;
}

static bool pushed(const parts *in, tuple t)
{
    tuple other;
    for (uint64_t i = 0; i < in->exec_rows; i++)
        if (push_at(in, i, &other) != 0 && same_tuple(t, other))
            return true;
    return false;
}

/* Once every pushed tuple is known to be equal in number, a pulled tuple is
 * unequal exactly where nothing pushes it. */
static second_answer count_bus(const parts *in)
{
    tuple t;
    for (uint64_t i = 0; i < in->exec_rows; i++)
        if (push_at(in, i, &t) != 0 && !balanced(in, t))
            return answer(BUS, 3, i, 0);
    for (uint64_t j = 0; j < in->ext_rows; j++)
        if (pull_at(in, j, &t) != 0 && !pushed(in, t))
            return answer(BUS, 4, j, 0);
    return answer(ACCEPTED, 0, 0, 0);
}

second_answer second_bus(const parts *in, bool sorted)
{
    second_answer out;
    if (in_one_order(in))
        return answer(ACCEPTED, 0, 0, 0);
    if (sorted && second_bus_sorted(in, &out))
        return out;
    return count_bus(in);
}
