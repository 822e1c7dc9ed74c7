/* The bus with heap: all tuples copied, sorted and counted in runs. */
#include "bus.h"

#include <stdlib.h>

/* Copies of one tuple: weight is 1 for a push, minus the times for a pull. */
typedef struct {
    uint64_t high, low;
    uint32_t row;
    int32_t weight;
} entry;

static entry entry_of(tuple t, uint64_t row, int32_t weight)
{
    entry e = { (uint64_t)t.data << 32 | t.a, (uint64_t)t.b << 32 | t.c,
                (uint32_t)row, weight };
    return e;
}

static int compare(const void *left, const void *right)
{
    const entry *x = left, *y = right;
    if (x->high != y->high)
        return x->high < y->high ? -1 : 1;
    return (x->low > y->low) - (x->low < y->low);
}

/* Writes the entries, unless to is NULL, and gives their number. */
static size_t collect(const parts *in, entry *to)
{
    size_t count = 0;
    tuple t;
    for (uint64_t i = 0; i < in->exec_rows; i++)
        if (push_at(in, i, &t) != 0) {
            if (to != NULL)
                to[count] = entry_of(t, i, 1);
            count++;
        }
    for (uint64_t j = 0; j < in->ext_rows; j++) {
        uint32_t times = pull_at(in, j, &t);
        if (times == 0)
            continue;
        if (to != NULL)
            to[count] = entry_of(t, j, -(int32_t)times);
        count++;
    }
    return count;
}

/* Looks through runs of one tuple for the first rows of unequal ones. */
static second_answer first_unequal(const entry *e, size_t count)
{
    uint64_t push = UINT64_MAX, pull = UINT64_MAX;
    size_t from = 0;
    while (from < count) {
        size_t end = from;
        int64_t sum = 0;
        for (; end < count && compare(&e[from], &e[end]) == 0; end++)
            sum += e[end].weight;
        for (size_t i = from; i < end && sum != 0; i++) {
            uint64_t *first = e[i].weight > 0 ? &push : &pull;
            if (e[i].row < *first)
                *first = e[i].row;
        }
        from = end;
    }
    if (push != UINT64_MAX)
        return answer(BUS, 3, push, 0);
    if (pull != UINT64_MAX)
        return answer(BUS, 4, pull, 0);
    return answer(ACCEPTED, 0, 0, 0);
}

bool second_bus_sorted(const parts *in, second_answer *out)
{
    size_t count = collect(in, NULL);
    entry *e = malloc((count + 1) * sizeof *e);
    if (e == NULL)
        return false;
    collect(in, e);
    qsort(e, count, sizeof *e, compare);
    *out = first_unequal(e, count);
    free(e);
    return true;
}
