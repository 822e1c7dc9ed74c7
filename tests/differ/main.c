/* Compares the library with the second implementation, call by call.
 *
 *   differ SEED CALLS             stops after that many calls, counts, reports,
 *                                 translations, listings, streams, range checks,
 *                                 memories in two buffers, recipes' runs and the
 *                                 lists of versions.c, lookups.c and answers.c
 *                                 not among them
 *   differ SEED 0 SECONDS         stops after that long
 *   differ --page SEED CALLS      buffers at pages that fault, small stack
 *   differ --large                a few tables of 16,383 and of 32,767 groups,
 *                                 old programs and listings of 2^20
 *                                 instructions, 131,071 range checks, and a
 *                                 memory of 2^22 words in two buffers
 *
 * Ends with 0 if there is no difference and everything listed in tally.c was
 * reached, 1 if not, 2 if it could not run. */
#define _DEFAULT_SOURCE
#include <errno.h>
#include <inttypes.h>
#include <stdio.h>
#include <stdlib.h>
#include <string.h>
#include <time.h>

#include "lookups.h"
#include "runs.h"
#include "tries.h"
#include "versions.h"

static differ all;

static bool number(const char *from, uint64_t *to)
{
    char *end;
    errno = 0;
    *to = strtoull(from, &end, 0);
    return errno == 0 && end != from && *end == 0 && *from != '-';
}

static double seconds_now(void)
{
    struct timespec t;
    clock_gettime(CLOCK_MONOTONIC, &t);
    return (double)t.tv_sec + (double)t.tv_nsec / 1e9;
}

/* A world, then labels, recipes, a report, old programs, listings, streams and
 * range checks; all forms now and then. */
static void one_turn(differ *d, uint32_t turn)
{
    if (turn % 16 == 0)
        try_forms(d);
    try_world(d);
    for (int i = 0; i < 5 && more_calls(d); i++)
        try_label(d);
    if (more_calls(d))
        try_writer(d);
    if (more_calls(d))
        try_maker(d);
    try_report(d);
    for (int i = 0; i < 4; i++)
        try_translation(d);
    try_old_runs(d);
    for (int i = 0; i < 8; i++)
        try_listing(d);
    for (int i = 0; i < 4; i++)
        try_stream(d);
    try_range_world(d);
}

/* Until calls or seconds are used up. */
static void run(differ *d, uint64_t seconds)
{
    double from = seconds_now();
    try_limits(d);
    try_every_old(d);
    try_listing_sweeps(d);
    try_stream_edges(d);
    try_range_edges(d);
    try_split_edges(d);
    try_versions(d);
    try_runs(d);
    try_lookups(d);
    try_answers(d);
    for (uint32_t turn = 0; more_calls(d)
         && (seconds == 0 || seconds_now() - from < (double)seconds); turn++)
        one_turn(d, turn);
}

static int usage(void)
{
    fprintf(stderr, "usage: differ [--page] SEED CALLS, or SEED 0 SECONDS, or --large\n");
    return 2;
}

int main(int argc, char **argv)
{
    if (argc == 2 && strcmp(argv[1], "--large") == 0)
        return try_large() ? 0 : 1;
    bool paged = argc > 1 && strcmp(argv[1], "--page") == 0;
    char **from = argv + 1 + paged;
    int given = argc - 1 - paged;
    uint64_t seed, calls, seconds = 0;
    if (given < 2 || given > 3 || !number(from[0], &seed)
        || !number(from[1], &calls)
        || (given == 3 && !number(from[2], &seconds))
        || (calls == 0) != (seconds != 0))
        return usage();
    printf("seed %" PRIu64 "\n", seed);
    if (!differ_open(&all, seed, paged) || !rounds_open() || !forms_open()
        || !lookups_open() || !runs_open() || !old_runs_open()
        || !ranges_open() || !splits_open()) {
        fprintf(stderr, "differ: no room\n");
        return 2;
    }
    if (paged && !pages_fault()) {
        fprintf(stderr, "differ: a byte past a page was read and nothing happened\n");
        return 2;
    }
    all.limit = calls == 0 ? UINT64_MAX : calls;
    run(&all, seconds);
    end_campaign(&all);
    bool complete = tally_report(&all.reached);
    printf("calls: %" PRIu64 ", and %" PRIu64 " of counts, reports, "
           "translations, listings, streams, ranges, splits, runs and lists\n"
           "differences: %" PRIu64 "\n",
           all.calls - all.extra, all.extra, all.differences);
    return complete && all.differences == 0 ? 0 : 1;
}
