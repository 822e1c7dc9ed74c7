/* What is counted of lookups that fail. */
#ifndef DIFFER_LOOKUP_TALLY_H
#define DIFFER_LOOKUP_TALLY_H

#include <stdbool.h>
#include <stdint.h>

/* The rules that look cells up, and which of them look up five. */
enum { LOOKUPS = 7, FIRST_OF_FIVE = 4, FIVES = LOOKUPS - FIRST_OF_FIVE, FIVE = 5 };
extern const uint32_t lookup_rules[LOOKUPS];

/* What each rule must meet; names are in lookup_tally.c. */
enum lookup_case { JUDGE_TOLD, COUNT_TOLD, EXPECTED_0, FOUND_0, TO_LAST_CELL,
                   ONE_PAST, FAR_OUT, LOOKUP_CASES };

typedef struct {
    uint64_t cases[LOOKUPS][LOOKUP_CASES];
    uint64_t first[FIVES][FIVE]; /* told, by the first cell that differs */
    uint64_t later[FIVES][FIVE]; /* and another behind it differs too */
    uint64_t cut[FIVES][FIVE];   /* not told: that cell is there, a later not */
    uint64_t cut_equal[FIVES];   /* those that are there are all equal */
} lookup_tally;

/* Prints all counts and what was not reached; true if nothing is missing. */
bool lookup_report(const lookup_tally *t);

#endif
