/* What recipes make, run: document 02's M-107. */
#ifndef DIFFER_RUNS_H
#define DIFFER_RUNS_H

#include "world.h"

/* The law on a world that a recipe made: maker, tabler and judge accept, both
 * those of the library and the second's, and the tables are as M-107 says.
 * All parts of the world are then as the library left them. */
void try_run(differ *d, world *w);

/* Both versions at the ends of n, with seeds of all sorts and larger tables. */
bool runs_open(void);
void try_runs(differ *d);

#endif
