/* What is counted of both versions of a recipe. */
#ifndef DIFFER_VERSION_TALLY_H
#define DIFFER_VERSION_TALLY_H

#include <stdbool.h>
#include <stddef.h>
#include <stdint.h>

/* The last place is that of a byte after the longest label.  Before VERSIONED
 * no text is of one version. */
enum { VERSIONS = 2, VERSIONED = 3, LAST_PLACE = 37, LAST_THROWN = 8 };

/* Versions in a recipe that must be tried, those among them that are good in
 * their low bits alone, and lengths of the buffer that a recipe is read to. */
enum { VERSION_NUMBERS = 9, RECIPE_LENGTHS = 6 };
extern const uint32_t version_numbers[VERSION_NUMBERS];
extern const size_t recipe_lengths[RECIPE_LENGTHS];

/* What calls must meet besides; names are in version_tally.c. */
enum version_case { NONE_THROWN, EIGHT_FIRST, EIGHT_LAST, NINTH_LARGE,
                    AT_BOUND, BELOW_BOUND, LARGE_INSTRUCTION, LARGE_VERSION_1,
                    MAKER_ORDER, WRITER_ORDER, VERSION_CASES };

typedef struct {
    uint64_t read[VERSIONS];
    uint64_t place[VERSIONS][LAST_PLACE + 1]; /* LABEL's */
    uint64_t byte[UINT8_MAX + 1]; /* for the version, of a text else a label */
    uint64_t length[VERSIONS][RECIPE_LENGTHS]; /* with a label */
    uint64_t made[VERSION_NUMBERS], written[VERSION_NUMBERS];
    uint64_t thrown[LAST_THROWN + 1]; /* cells of version 2, by draws thrown */
    uint64_t cases[VERSION_CASES];
} version_tally;

/* Prints all counts and what was not reached; true if nothing is missing. */
bool version_report(const version_tally *t);

#endif
