/* Lookups that fail, and what their answers tell. */
#ifndef DIFFER_LOOKUPS_H
#define DIFFER_LOOKUPS_H

#include "call.h"
#include "world.h"

/* The columns of a rule's index and of its first value. */
typedef struct {
    int part;
    uint32_t index, value, count;
} lookup;

/* In the order of lookup_rules. */
extern const lookup lookups[LOOKUPS];

/* The cells from an index on as a row's values, but that those with a bit in
 * `off` are others.  A cell that is missing is taken for 0. */
void put_lookup(differ *d, world *w, const lookup *l, uint32_t row,
                uint32_t index, uint32_t off);

/* Counts what the rows of a refused call say of a lookup. */
void count_lookup(lookup_tally *l, const attempt *t, second_answer a);

/* Another word in what a row of the part looks up, or in several, from the
 * cells that it names or from others. */
void damage_lookup(differ *d, world *w, int part, uint32_t row);

/* Each lookup in each way to fail, to judge and count. */
bool lookups_open(void);
void try_lookups(differ *d);

#endif
