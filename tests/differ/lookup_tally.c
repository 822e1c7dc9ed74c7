#include "lookup_tally.h"

#include <inttypes.h>
#include <stdio.h>

const uint32_t lookup_rules[LOOKUPS] = { 2, 3, 4, 18, 19, 20, 21 };

static const char *const case_names[LOOKUP_CASES] = {
    [JUDGE_TOLD] = "told by judge",
    [COUNT_TOLD] = "told by count",
    [EXPECTED_0] = "expected 0",
    [FOUND_0] = "found 0",
    [TO_LAST_CELL] = "told of the last cell",
    [ONE_PAST] = "one past it",
    [FAR_OUT] = "all past it",
};

static uint32_t missing; /* so far */

static void print_count(uint64_t count, bool wanted)
{
    missing += wanted && count == 0;
    printf("%" PRIu64 "%s", count, wanted && count == 0 ? " NOT REACHED" : "");
}

/* Rule 18 comes first and has the first cell of rule 19. */
static void print_rule(const lookup_tally *t, uint32_t at)
{
    printf("lookup by rule %" PRIu32 ":", lookup_rules[at]);
    for (uint32_t k = 0; k < LOOKUP_CASES; k++) {
        printf("%s %s:", k == 0 ? "" : ",", case_names[k]);
        print_count(t->cases[at][k], k != FAR_OUT || lookup_rules[at] != 19);
    }
    printf("\n");
}

/* Of five cells the last has none behind it, and is missing first. */
static void print_cells(const char *title, const uint64_t counts[FIVE],
                        uint32_t cells)
{
    printf("; %s", title);
    for (uint32_t k = 0; k < cells; k++) {
        printf(" %" PRIu32 ":", k);
        print_count(counts[k], true);
    }
}

static void print_five(const lookup_tally *t, uint32_t at)
{
    printf("five cells by rule %" PRIu32, lookup_rules[FIRST_OF_FIVE + at]);
    print_cells("first that differs", t->first[at], FIVE);
    print_cells("with others behind", t->later[at], FIVE - 1);
    print_cells("differs before one that is missing", t->cut[at], FIVE - 1);
    printf("; equal before it ");
    print_count(t->cut_equal[at], true);
    printf("\n");
}

bool lookup_report(const lookup_tally *t)
{
    missing = 0;
    for (uint32_t at = 0; at < LOOKUPS; at++)
        print_rule(t, at);
    for (uint32_t at = 0; at < FIVES; at++)
        print_five(t, at);
    printf("lookups: %" PRIu32 " not reached\n", missing);
    return missing == 0;
}
