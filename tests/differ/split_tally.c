#include "split_tally.h"

#include <inttypes.h>
#include <stdio.h>

static const char *const place_names[SPLIT_PLACES] = {
    [UP_TO_SEAM] = "up to the seam",
    [FROM_SEAM] = "from the seam",
    [UP_TO_M] = "up to M",
    [ONE_PAST_M] = "one past M",
    [FROM_M] = "at or above M",
};

static const char *const case_names[SPLIT_CASES] = {
    [FIRST_WORD] = "first word",
    [BEFORE_SEAM] = "word before the seam",
    [AT_SEAM] = "word at the seam",
    [LAST_WORD] = "last word",
    [WORDS_IN_BOTH] = "words in both",
    [BEHIND_PROGRAM] = "a word of the program first",
    [BEFORE_EXEC_WORD] = "before one of part 3",
    [BEFORE_EXT_WORD] = "before one of part 4",
    [EMPTY_REST] = "empty rest",
    [EMPTY_PUBLIC] = "empty public",
    [BOTH_EMPTY] = "both empty",
    [NO_POWER] = "public no power of two in a good sum",
    [OTHER_SUM] = "public a power of two in no good sum",
    [PUBLIC_BYTE_LESS] = "public a byte short",
    [PUBLIC_BYTE_MORE] = "public a byte long",
    [REST_BYTE_LESS] = "rest a byte short",
    [REST_BYTE_MORE] = "rest a byte long",
    [BYTE_MOVED] = "a byte moved",
    [EXCHANGED] = "exchanged",
    [SUM_2_7] = "2^7 words",
    [SUM_2_30] = "2^30 words",
    [CUT_TO_32_BITS] = "good when cut to 32 bits",
    [SUM_WRAPS_64] = "sum wraps to a good one",
    [PROGRAM_FIRST] = "part 1 first",
    [BEFORE_EXECUTION] = "part 2 before 3",
    [BEFORE_EXTENSIONS] = "part 2 before 4",
    [BEFORE_WORD] = "part 2 before a word",
};

static uint32_t missing; /* so far */

static void print_count(const char *name, uint64_t count)
{
    missing += count == 0;
    printf(" %s:%" PRIu64 "%s", name, count, count == 0 ? " NOT REACHED" : "");
}

/* How many are reached of what is not printed one by one. */
typedef struct {
    uint32_t reached, all;
} share;

static void need(share *s, uint64_t count)
{
    s->reached += count != 0;
    s->all++;
    missing += count == 0;
}

static void print_share(const char *name, share s)
{
    printf("%s: %" PRIu32 " of %" PRIu32 "%s\n", name, s.reached, s.all,
           s.reached < s.all ? " NOT ALL REACHED" : "");
}

static void print_cuts(const split_tally *t)
{
    share taken = { 0, 0 }, judged = { 0, 0 }, verdicts = { 0, 0 }, rests = { 0, 0 };
    for (int m = LEAST_M; m <= MOST_M; m++)
        for (int k = 0; k < m; k++)
            need(&taken, t->taken[m][k]);
    for (int m = LEAST_M; m <= EVERY_M; m++)
        for (int i = 0; i < m * SPLIT_OUTCOMES; i++)
            need(&judged, t->cuts[m][i / SPLIT_OUTCOMES][i % SPLIT_OUTCOMES]);
    for (int i = 0; i < EVERY_M * JUDGED_VERDICTS; i++)
        need(&verdicts, t->verdicts[i / JUDGED_VERDICTS][i % JUDGED_VERDICTS]);
    for (int i = 0; i < LEAST_M * LEAST_M; i++)
        if (i / LEAST_M != i % LEAST_M)
            need(&rests, t->rests[i / LEAST_M][i % LEAST_M]);
    print_share("cuts whose lengths are taken", taken);
    print_share("cuts accepted, and refused by what a lookup tells", judged);
    print_share("cuts behind 2^k words by verdict", verdicts);
    print_share("2^k words beside another cut's rest", rests);
}

/* Behind one or two words there is no room for all four places. */
static void print_seams(const split_tally *t)
{
    share seams = { 0, 0 }, across = { 0, 0 }, grouped = { 0, 0 };
    for (int k = 0; k < EVERY_M; k++)
        for (int i = 0; i < SEAM_PLACES * SPLIT_OUTCOMES; i++)
            if (i / SPLIT_OUTCOMES < 1 << k)
                need(&seams, t->seams[k][i / SPLIT_OUTCOMES][i % SPLIT_OUTCOMES]);
    for (int i = 0; i < FIVES * SEAM_PLACES; i++) {
        for (int k = 0; k <= FIVE; k++)
            need(&across, t->across[i / SEAM_PLACES][i % SEAM_PLACES][k]);
        need(&grouped, t->grouped[i / SEAM_PLACES][i % SEAM_PLACES]);
    }
    print_share("places of the seam in five cells, by cut, accepted and refused", seams);
    print_share("the same by rule and first cell that differs, or none", across);
    print_share("the same by rule in groups that are accepted", grouped);
}

/* No lookup past M is accepted.  Rules 18 and 19 have one index: 19 is not asked
 * from M on, and a row with the last cell alone is refused by it. */
static bool is_possible(uint32_t rule, int place, int outcome)
{
    if (outcome == CUT_TAKEN)
        return place < ONE_PAST_M && (rule != 18 || place != UP_TO_M);
    return rule != 19 || place != FROM_M;
}

static void print_places(const split_tally *t, uint32_t at)
{
    static const char *const outcomes[SPLIT_OUTCOMES] = { "accepted", "refused" };
    printf("split lookup by rule %" PRIu32, lookup_rules[at]);
    for (int i = 0; i < SPLIT_PLACES * SPLIT_OUTCOMES; i++) {
        int place = i / SPLIT_OUTCOMES, outcome = i % SPLIT_OUTCOMES;
        if (is_possible(lookup_rules[at], place, outcome)) {
            printf(", %s", place_names[place]);
            print_count(outcomes[outcome], t->places[at][place][outcome]);
        }
    }
    printf("\n");
}

bool split_report(const split_tally *t)
{
    char verdict[16];
    missing = 0;
    print_cuts(t);
    print_seams(t);
    for (uint32_t at = 0; at < LOOKUPS; at++)
        print_places(t, at);
    printf("splits:");
    for (int i = 0; i < SPLIT_CASES; i++) {
        printf("%s", i == 0 ? "" : ",");
        print_count(case_names[i], t->cases[i]);
    }
    printf("\nsplits answered as joined, by verdict:");
    for (int i = 0; i < JUDGED_VERDICTS; i++) {
        snprintf(verdict, sizeof verdict, "%d", i);
        print_count(verdict, t->joined[i]);
    }
    printf("\nsplits: %" PRIu32 " not reached\n", missing);
    return missing == 0;
}
