/* Grids of form counts, as counts and reports get them. */
#ifndef DIFFER_GRIDS_H
#define DIFFER_GRIDS_H

#include "call.h"

#define TOTAL_LIMIT ((uint64_t)INT64_MAX) /* 2^63 - 1 */

typedef struct {
    uint64_t at[SECOND_COUNTERS];
} grid;

/* The mathematical sum of all counters: high is how often low went round. */
typedef struct {
    uint64_t high, low;
} grid_total;

void grid_load(grid *g, const uint8_t *from);
void grid_store(const grid *g, uint8_t *to);
grid_total total_of(const grid *g);

/* Any grid, or one about to carry; fresh and full ones too.  The limit is that
 * of a table of so many rows: totals at it, near it and far beyond it. */
void some_grid(differ *d, uint64_t rows, grid *g);

/* Mostly the right length of a buffer, now and then another. */
size_t fixed_length(source *random, size_t right);

#endif
