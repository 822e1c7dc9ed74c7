#include "version_tally.h"

#include <inttypes.h>
#include <stdio.h>

const uint32_t version_numbers[VERSION_NUMBERS] = {
    0, 1, 2, 3, 257, 65538, 0x80000000, 0x80000001, UINT32_MAX
};

const size_t recipe_lengths[RECIPE_LENGTHS] = { 0, 16, 19, 20, 21, 24 };

static const char *const case_names[VERSION_CASES] = {
    [NONE_THROWN] = "version 2 with nothing thrown away",
    [EIGHT_FIRST] = "eight thrown away for the first cell",
    [EIGHT_LAST] = "eight thrown away for the last cell",
    [NINTH_LARGE] = "ninth draw at or above the bound",
    [AT_BOUND] = "draw at the bound",
    [BELOW_BOUND] = "draw one below it",
    [LARGE_INSTRUCTION] = "instruction's draw above it",
    [LARGE_VERSION_1] = "version 1's cell above it",
    [MAKER_ORDER] = "maker's version before lengths",
    [WRITER_ORDER] = "writer's version before length",
};

static uint32_t missing; /* so far */

static void print_count(const char *before, uint64_t number, uint64_t count)
{
    missing += count == 0;
    printf("%s%" PRIu64 ":%" PRIu64 "%s", before, number, count,
           count == 0 ? " NOT REACHED" : "");
}

/* Counts by their own numbers, first to last. */
static void print_range(const char *title, const uint64_t *counts,
                        uint32_t first, uint32_t last)
{
    printf("%s:", title);
    for (uint32_t i = first; i <= last; i++)
        print_count(" ", i, counts[i]);
    printf("\n");
}

/* All bytes are too many for a line, unless one is missing. */
static void print_bytes(const uint64_t counts[UINT8_MAX + 1])
{
    uint32_t reached = 0;
    for (uint32_t i = 0; i <= UINT8_MAX; i++)
        reached += counts[i] != 0;
    printf("bytes for a label's version: %" PRIu32 " of 256", reached);
    for (uint32_t i = 0; i <= UINT8_MAX; i++)
        if (counts[i] == 0)
            print_count(", ", i, 0);
    printf("\n");
}

static void print_numbers(const char *title, const uint64_t *counts)
{
    printf("%s:", title);
    for (uint32_t i = 0; i < VERSION_NUMBERS; i++)
        print_count(" ", version_numbers[i], counts[i]);
    printf("\n");
}

static void print_cases(const version_tally *t)
{
    printf("recipes:");
    for (uint32_t i = 0; i < VERSION_CASES; i++) {
        missing += t->cases[i] == 0;
        printf("%s %s:%" PRIu64 "%s", i == 0 ? "" : ",", case_names[i],
               t->cases[i], t->cases[i] == 0 ? " NOT REACHED" : "");
    }
    printf("\n");
}

static void print_version(const version_tally *t, uint32_t version)
{
    const uint64_t *lengths = t->length[version - 1];
    print_count("labels of version ", version, t->read[version - 1]);
    printf("\n");
    print_range("LABEL places of it", t->place[version - 1], VERSIONED,
                LAST_PLACE);
    printf("recipe buffers for it:");
    for (uint32_t i = 0; i < RECIPE_LENGTHS; i++)
        print_count(" ", recipe_lengths[i], lengths[i]);
    printf("\n");
}

bool version_report(const version_tally *t)
{
    missing = 0;
    for (uint32_t version = 1; version <= VERSIONS; version++)
        print_version(t, version);
    print_bytes(t->byte);
    print_numbers("versions to the maker", t->made);
    print_numbers("versions to the writer", t->written);
    print_range("draws thrown away for a cell", t->thrown, 0, LAST_THROWN);
    print_cases(t);
    printf("versions: %" PRIu32 " not reached\n", missing);
    return missing == 0;
}
