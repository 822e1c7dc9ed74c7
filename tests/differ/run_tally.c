#include "run_tally.h"

#include <inttypes.h>
#include <stdio.h>

static const char *const case_names[RUN_CASES] = {
    [MADE_VERSION_1] = "version 1",
    [MADE_VERSION_2] = "version 2",
    [MADE_SHORTEST] = "n 1",
    [MADE_LONGEST] = "n 124",
    [MADE_LARGER_MEMORY] = "m above 10",
    [MADE_LEAST_TABLES] = "H and K 256",
    [MADE_LARGER_H] = "larger H",
    [MADE_LARGER_K] = "larger K",
    [MADE_NO_GROUP] = "no extension row",
    [MADE_ALL_GROUPS] = "all 2n extension rows",
};

bool run_report(const run_tally *t)
{
    uint32_t missing = 0;
    printf("recipes' runs:");
    for (uint32_t i = 0; i < RUN_CASES; i++) {
        missing += t->cases[i] == 0;
        printf("%s %s:%" PRIu64 "%s", i == 0 ? "" : ",", case_names[i],
               t->cases[i], t->cases[i] == 0 ? " NOT REACHED" : "");
    }
    printf("\nrecipes' runs: %" PRIu32 " not reached\n", missing);
    return missing == 0;
}
