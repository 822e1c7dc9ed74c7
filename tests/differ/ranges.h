/* Range checks: worlds that have them or nearly have them, and what a table
 * has of them. */
#ifndef DIFFER_RANGES_H
#define DIFFER_RANGES_H

#include "builder.h"

enum { FIND_BYTES = 8, MOST_RANGES = MAX_ROWS }; /* see room_of */

/* range_count.c: the finds of an accepted world's rows, as they must be
 * written; gives their number.  Counts them and the near misses in t. */
uint32_t count_ranges(range_tally *t, const world *w, uint8_t to[FIND_BYTES * MOST_RANGES]);

/* range_triples.c: three instructions that are a find, or lack what the way
 * says.  The cells at `zeros` are five zeros. */
enum range_way {
    FIND, FIND_SAME, BETA_FIRST, BETA_LAST, B_LARGEST, OTHER_FIRST, OTHER_MIDDLE,
    OTHER_LAST, A_IMMEDIATE, B_CELL, C_IMMEDIATE, C_FRAME, OFF_X, OFF_J, SWAPPED,
    JUMP_FIRST, JUMP_LAST, RANGE_WAYS
};
extern const char *const range_ways[RANGE_WAYS];
void put_triple(builder *b, uint32_t zeros, enum range_way way);

/* A find of those C modes, its bound among all that the memory allows. */
void put_find(builder *b, uint32_t mode_first, uint32_t mode_last);

/* The first two or the first one of a find. */
void put_start(builder *b, uint32_t steps);

/* range_build.c: a world of such, whose tables are accepted.  Its first row
 * begins with the way given. */
void build_ranges(differ *d, world *w, enum range_way first);

/* large_ranges.c: as many finds as the rows may have, each of its own bound. */
void build_chain(source *random, world *w, uint32_t m, uint32_t rows);

/* ranges.c: calls of the finder on a world, from rounds.c too. */
void try_ranges(differ *d, const world *w);

#endif
