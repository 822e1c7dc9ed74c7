/* A job on the clock: each implementation in turn, round by round, and the lines that are printed of it. */
#ifndef CLOCK_H
#define CLOCK_H

#include "calls.h"

enum { ROUNDS = 41 };

/* one line of the page: a job of one size */
typedef struct {
    const char *size;
    double units; /* rows, cells, bytes or calls */
    job j;
    double library, second;  /* the least time of each */
    double ratios[ROUNDS]; /* library / second, each of two runs in turn */
} compared;

double seconds(void);

/* All sizes in each round, so that a slow spell of the machine falls on each of them, and each implementation first in
 * turn, as the first finds caches cold. The ratio is the middle one of all rounds. */
void compare(const char *what, compared *c, int sizes, int rounds, call library, call second);

#endif
