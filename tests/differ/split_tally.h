/* What is counted of memories in two buffers. */
#ifndef DIFFER_SPLIT_TALLY_H
#define DIFFER_SPLIT_TALLY_H

#include <stdbool.h>
#include <stdint.h>

#include "lookup_tally.h"

/* Memories of 2^m words, cut behind 2^k of them.  Up to EVERY_M, each k is tried
 * in full; verdicts are those of a judge; a seam has four places in five cells. */
enum { LEAST_M = 8, MOST_M = 29, EVERY_M = 12, JUDGED_VERDICTS = 8,
       SEAM_PLACES = FIVE - 1 };

/* Where the cells that a lookup names stand; names are in split_tally.c. */
enum split_place { UP_TO_SEAM, FROM_SEAM, UP_TO_M, ONE_PAST_M, FROM_M,
                   SPLIT_PLACES };

/* What words and lengths must meet; names are in split_tally.c. */
enum split_case {
    FIRST_WORD, BEFORE_SEAM, AT_SEAM, LAST_WORD, WORDS_IN_BOTH, BEHIND_PROGRAM,
    BEFORE_EXEC_WORD, BEFORE_EXT_WORD,
    EMPTY_REST, EMPTY_PUBLIC, BOTH_EMPTY, NO_POWER, OTHER_SUM, PUBLIC_BYTE_LESS,
    PUBLIC_BYTE_MORE, REST_BYTE_LESS, REST_BYTE_MORE, BYTE_MOVED, EXCHANGED,
    SUM_2_7, SUM_2_30, CUT_TO_32_BITS, SUM_WRAPS_64, PROGRAM_FIRST,
    BEFORE_EXECUTION, BEFORE_EXTENSIONS, BEFORE_WORD, SPLIT_CASES
};

enum { CUT_TAKEN, CUT_REFUSED, SPLIT_OUTCOMES };

typedef struct {
    uint64_t taken[MOST_M + 1][MOST_M]; /* by m and k: lengths that are good */
    uint64_t rests[LEAST_M][LEAST_M];   /* 2^k words beside another cut's rest */
    uint64_t cases[SPLIT_CASES];
    uint64_t cuts[EVERY_M + 1][EVERY_M][SPLIT_OUTCOMES]; /* of whole tables */
    uint64_t verdicts[EVERY_M][JUDGED_VERDICTS]; /* by k, of good lengths */
    uint64_t seams[EVERY_M][SEAM_PLACES][SPLIT_OUTCOMES]; /* by k, in five cells */
    uint64_t across[FIVES][SEAM_PLACES][FIVE + 1]; /* first that differs, or none */
    uint64_t grouped[FIVES][SEAM_PLACES]; /* accepted, in a group's row */
    uint64_t places[LOOKUPS][SPLIT_PLACES][SPLIT_OUTCOMES];
    uint64_t joined[JUDGED_VERDICTS]; /* the answer is the judge's on the joined */
} split_tally;

/* Prints all counts and what was not reached; true if nothing is missing. */
bool split_report(const split_tally *t);

#endif
