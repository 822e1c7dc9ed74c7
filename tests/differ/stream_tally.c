#include "stream_tally.h"

#include <inttypes.h>
#include <stdio.h>

enum { HOST_BITS = 24 };

const uint64_t host_edges[HOST_EDGES] = {
    0, 1, 2, (1 << 24) - 2, (1 << 24) - 1, 1 << 24, (1 << 24) + 1,
    UINT64_C(1) << 32, (UINT64_C(1) << 32) + 1,
    (UINT64_C(1) << 32) + (1 << 24) - 1, UINT64_C(1) << 40,
    (UINT64_C(1) << 40) + 1, UINT64_C(1) << 48, UINT64_C(1) << 56,
    UINT64_C(1) << 63, (UINT64_C(1) << 63) + 1, UINT64_MAX - 1, UINT64_MAX
};

const size_t next_lengths[NEXT_LENGTHS] = { 0, 4, 7, 8, 9, 16, 24 };
const size_t told_lengths[TOLD_LENGTHS] = { 0, 8, 16, 23, 24, 25 };

static const char *const case_names[STREAM_CASES] = {
    [JUMPS_ADD] = "two jumps and their sum",
    [JUMPS_WRAP] = "a sum that wraps",
    [THERE_AND_BACK] = "all 2^64 draws in two",
    [HALF_TWICE] = "2^63 twice",
    [HOST_JUMPED] = "host and its jump",
    [HOSTS_APART] = "host and the next",
    [LAST_HOST_ON] = "last host and 2^40 more",
    [LENGTH_BEFORE_HOST] = "ANSWER before HOST",
};

static uint32_t missing; /* so far */

uint32_t width_of(uint64_t number)
{
    uint32_t width = 0;
    for (; number != 0; number >>= 1)
        width++;
    return width;
}

/* 0 has no bit but those it needs, 1 is a lone bit. */
enum bits bits_of(uint64_t number)
{
    if (number != 0 && (number & (number - 1)) == 0)
        return LONE_BIT;
    return (number & (number + 1)) == 0 ? ALL_BITS : OTHER_BITS;
}

/* A number of that width with such bits: 0 and 1 are of one kind each, and of
 * two bits there is no third. */
static bool possible(enum bits bits, uint32_t width)
{
    return bits == LONE_BIT ? width >= 1
         : bits == ALL_BITS ? width != 1 : width >= 3;
}

/* Whether each that is possible was reached. */
static void print_draws(const char *title, const uint64_t counts[WIDEST + 1],
                        enum bits bits)
{
    uint32_t reached = 0, wanted = 0;
    for (uint32_t width = 0; width <= WIDEST; width++) {
        wanted += possible(bits, width);
        reached += possible(bits, width) && counts[width] != 0;
    }
    printf("jumps of %s: %" PRIu32 " of %" PRIu32 " widths%s\n", title, reached,
           wanted, reached == wanted ? "" : " NOT ALL REACHED");
    missing += wanted - reached;
}

/* Hosts of each width from first to last. */
static void print_hosts(const char *title, const uint64_t counts[WIDEST + 1],
                        uint32_t first, uint32_t last)
{
    uint32_t reached = 0;
    for (uint32_t width = 0; width <= WIDEST; width++) {
        bool possible_width = width >= first && width <= last;
        reached += possible_width && counts[width] != 0;
        missing += !possible_width && counts[width] != 0;
    }
    printf("hosts %s: %" PRIu32 " of %" PRIu32 " widths\n", title, reached,
           last - first + 1);
    missing += last - first + 1 - reached;
}

static void print_edges(const uint64_t counts[HOST_EDGES])
{
    printf("hosts:");
    for (int i = 0; i < HOST_EDGES; i++) {
        missing += counts[i] == 0;
        printf(" %" PRIu64 ":%" PRIu64 "%s", host_edges[i], counts[i],
               counts[i] == 0 ? " NOT REACHED" : "");
    }
    printf("\n");
}

/* Of jump, 0, or of host, 1. */
static void print_lengths(const stream_tally *t, int which)
{
    uint32_t reached = 0;
    for (int i = 0; i < NEXT_LENGTHS * TOLD_LENGTHS; i++)
        reached += t->lengths[which][i / TOLD_LENGTHS][i % TOLD_LENGTHS] != 0;
    printf("%s's lengths of next and answer: %" PRIu32 " of %d pairs\n",
           which == 0 ? "jump" : "host", reached, NEXT_LENGTHS * TOLD_LENGTHS);
    missing += NEXT_LENGTHS * TOLD_LENGTHS - reached;
}

static void print_cases(const stream_tally *t)
{
    printf("streams:");
    for (int i = 0; i < STREAM_CASES; i++) {
        missing += t->cases[i] == 0;
        printf("%s %s:%" PRIu64 "%s", i == 0 ? "" : ",", case_names[i],
               t->cases[i], t->cases[i] == 0 ? " NOT REACHED" : "");
    }
    printf("\n");
}

bool stream_report(const stream_tally *t)
{
    missing = 0;
    print_draws("one bit", t->draws[LONE_BIT], LONE_BIT);
    print_draws("all bits", t->draws[ALL_BITS], ALL_BITS);
    print_draws("other bits", t->draws[OTHER_BITS], OTHER_BITS);
    print_hosts("taken", t->taken, 0, HOST_BITS);
    print_hosts("refused", t->refused, HOST_BITS + 1, WIDEST);
    print_edges(t->edges);
    print_lengths(t, 0);
    print_lengths(t, 1);
    print_cases(t);
    printf("streams: %" PRIu32 " not as it should be\n", missing);
    return missing == 0;
}
