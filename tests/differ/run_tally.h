/* What is counted of recipes' runs. */
#ifndef DIFFER_RUN_TALLY_H
#define DIFFER_RUN_TALLY_H

#include <stdbool.h>
#include <stdint.h>

/* Recipes and tables that must be tried; names are in run_tally.c. */
enum run_case { MADE_VERSION_1, MADE_VERSION_2, MADE_SHORTEST, MADE_LONGEST,
                MADE_LARGER_MEMORY, MADE_LEAST_TABLES, MADE_LARGER_H,
                MADE_LARGER_K, MADE_NO_GROUP, MADE_ALL_GROUPS, RUN_CASES };

typedef struct {
    uint64_t cases[RUN_CASES];
} run_tally;

/* Prints all counts and what was not reached; true if nothing is missing. */
bool run_report(const run_tally *t);

#endif
