/* What is counted of jumps and hosts. */
#ifndef DIFFER_STREAM_TALLY_H
#define DIFFER_STREAM_TALLY_H

#include <stdbool.h>
#include <stddef.h>
#include <stdint.h>

/* Numbers by their width, the bits up to the highest that is set, and whether
 * that one is set alone, all below it are too, or neither. */
enum { WIDEST = 64 };
enum bits { LONE_BIT, ALL_BITS, OTHER_BITS, BITS };

/* Hosts that must be tried, those among them that are good in their low bits
 * alone. */
enum { HOST_EDGES = 18 };
extern const uint64_t host_edges[HOST_EDGES];

/* Lengths of `next` and `answer` that both must be tried with, each pair. */
enum { NEXT_LENGTHS = 7, TOLD_LENGTHS = 6 };
extern const size_t next_lengths[NEXT_LENGTHS], told_lengths[TOLD_LENGTHS];

/* What calls must meet besides; names are in stream_tally.c. */
enum stream_case { JUMPS_ADD, JUMPS_WRAP, THERE_AND_BACK, HALF_TWICE, HOST_JUMPED,
                   HOSTS_APART, LAST_HOST_ON, LENGTH_BEFORE_HOST,
                   STREAM_CASES };

typedef struct {
    uint64_t draws[BITS][WIDEST + 1]; /* jumps */
    uint64_t taken[WIDEST + 1], refused[WIDEST + 1]; /* hosts, by their width */
    uint64_t edges[HOST_EDGES];
    uint64_t lengths[2][NEXT_LENGTHS][TOLD_LENGTHS]; /* of jump, of host */
    uint64_t cases[STREAM_CASES];
} stream_tally;

uint32_t width_of(uint64_t number);
enum bits bits_of(uint64_t number);

/* Prints counts and all that was not reached; true if nothing is missing. */
bool stream_report(const stream_tally *t);

#endif
