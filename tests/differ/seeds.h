/* Seeds by what they draw for cells, and what a recipe's draws come to. */
#ifndef DIFFER_SEEDS_H
#define DIFFER_SEEDS_H

#include "../second/second.h"
#include "random.h"
#include "version_tally.h"

/* RUNS seeds whose first eight draws are all thrown away, of the last the ninth
 * draw is as large; EDGES draws at or near the bound. */
enum { RUNS = 4, EDGES = 5 };

/* The seed that comes to the run, or to the edge with any lower half, after so
 * many draws.  From within a run on, the draws left of it are fewer. */
uint64_t seed_before_run(uint32_t run, uint32_t draws);
uint64_t seed_within_run(uint32_t run, uint32_t draws);
uint64_t seed_before_edge(uint32_t edge, uint32_t low, uint32_t draws);

/* Any seed, one of these or an end of the range now and then. */
uint64_t some_seed(source *random);

/* Counts what the draws of a recipe that was made come to. */
void count_draws(version_tally *t, second_recipe r);

#endif
