#include "tally.h"

#include <inttypes.h>
#include <stdio.h>

const char *const function_names[FUNCTIONS] = {
    "judge", "label reader", "tabler", "maker", "label writer", "count",
    "report", "translation", "lister", "listing reader", "stream jump",
    "stream host", "finder of ranges", "judge of two buffers"
};

static const char *const verdict_names[VERDICTS] = {
    "ACCEPTED", "SIZE", "WORD", "INSTRUCTION", "START", "EXEC", "EXTENSION",
    "BUS", "LABEL", "STUCK", "ROOM", "OPEN", "no verdict", "ANSWER", "GRID",
    "EDITION", "LISTING", "SHORT", "HOST", "LIST"
};

const size_t answer_lengths[ANSWER_LENGTHS] = { 0, 16, 20, 23, 25, 48 };

static const char *const case_names[GRID_CASES] = {
    [FRESH_COUNTED] = "fresh grid counted",
    [CARRIED] = "carry past 32 bits",
    [LIMIT_TAKEN] = "2^63 - 1 taken",
    [LIMIT_PASSED] = "2^63 refused",
    [SUM_WRAPS] = "sum that wraps refused",
    [ALL_FULL] = "all 2^64 - 1 refused",
    [REFUSED_FIRST] = "judge before limit",
    [GRID_LENGTH] = "count's grid length",
    [ANSWER_LENGTH] = "count's answer length",
    [EMPTY_REPORT] = "empty report",
    [EXACT_ROOM] = "report in exact room",
    [MORE_ROOM] = "report in more room",
    [ONE_BYTE_SHORT] = "room one byte short",
    [NO_ROOM] = "no room",
    [LONGEST_REPORT] = "longest report",
    [REPORT_GRID_LENGTH] = "report's grid length",
    [WRITTEN_LENGTH] = "report's written length",
    [REPORT_ANSWER_LENGTH] = "report's answer length",
};

/* Which verdicts each function must reach.  The writer returns a length, so
 * its wrong answer buffers are not counted on. */
static const bool expected[FUNCTIONS][VERDICTS] = {
    [JUDGE] = { [ACCEPTED] = true, [SIZE] = true, [WORD] = true,
                [INSTRUCTION] = true, [START] = true, [EXEC] = true,
                [EXTENSION] = true, [BUS] = true, [ANSWER] = true },
    [LABEL_READER] = { [ACCEPTED] = true, [LABEL] = true, [ANSWER] = true },
    [TABLER] = { [ACCEPTED] = true, [SIZE] = true, [WORD] = true,
                 [INSTRUCTION] = true, [START] = true, [STUCK] = true,
                 [ROOM] = true, [OPEN] = true, [ANSWER] = true },
    [MAKER] = { [ACCEPTED] = true, [SIZE] = true, [ANSWER] = true },
    [LABEL_WRITER] = { [ACCEPTED] = true, [SIZE] = true },
    [COUNT] = { [ACCEPTED] = true, [SIZE] = true, [WORD] = true,
                [INSTRUCTION] = true, [START] = true, [EXEC] = true,
                [EXTENSION] = true, [BUS] = true, [ANSWER] = true,
                [GRID] = true },
    [REPORT] = { [ACCEPTED] = true, [SIZE] = true, [ANSWER] = true },
    [TRANSLATE] = { [ACCEPTED] = true, [SIZE] = true, [WORD] = true,
                    [ANSWER] = true, [EDITION] = true },
    [LISTER] = { [ACCEPTED] = true, [SIZE] = true, [WORD] = true,
                 [INSTRUCTION] = true, [ANSWER] = true, [SHORT] = true },
    [LIST_READER] = { [ACCEPTED] = true, [ANSWER] = true, [LISTING] = true,
                      [SHORT] = true },
    [STREAM_JUMP] = { [ACCEPTED] = true, [ANSWER] = true },
    [STREAM_HOST] = { [ACCEPTED] = true, [ANSWER] = true, [HOST] = true },
    [RANGES] = { [ACCEPTED] = true, [SIZE] = true, [WORD] = true,
                 [INSTRUCTION] = true, [START] = true, [EXEC] = true,
                 [EXTENSION] = true, [BUS] = true, [ANSWER] = true,
                 [LIST] = true },
    [SPLIT] = { [ACCEPTED] = true, [SIZE] = true, [WORD] = true,
                [INSTRUCTION] = true, [START] = true, [EXEC] = true,
                [EXTENSION] = true, [BUS] = true, [ANSWER] = true },
};

/* A number outside its table is a difference's business, not the tally's. */
static void count(uint64_t *table, uint32_t last, uint32_t at)
{
    if (at <= last)
        table[at]++;
}

void tally_add(tally *t, enum function f, second_answer a)
{
    t->calls[f]++;
    count(t->verdicts[f], VERDICTS - 1, a.verdict);
    if (a.verdict == EXEC)
        count(t->exec, LAST_EXEC_RULE, a.rule);
    if (a.verdict == EXTENSION)
        count(t->ext, LAST_EXT_RULE, a.rule);
    if (a.verdict == STUCK)
        count(t->stuck, LAST_STUCK_RULE, a.rule);
    if (a.verdict == SIZE)
        count(t->size[f], LAST_SIZE_PART, a.part);
    if (a.verdict == BUS)
        count(t->bus, LAST_PART, a.part);
    if (a.verdict == WORD)
        count(t->word[f], LAST_PART, a.part);
    if (a.verdict == LABEL)
        count(t->place, LAST_PLACE, a.place);
}

void tally_length(tally *t, enum function f, size_t answer_len)
{
    for (int i = 0; i < ANSWER_LENGTHS; i++)
        t->lengths[f][i] += answer_len == answer_lengths[i];
}

typedef struct {
    const char *name;
    const uint64_t *table;
    uint32_t first, last; /* each from first to last must be reached */
} line;

enum { LINES = 23 };

static void lines_of(const tally *t, line out[LINES])
{
    const line all[LINES] = {
        { "execution rule", t->exec, 1, LAST_EXEC_RULE },
        { "extension rule", t->ext, 1, LAST_EXT_RULE },
        { "STUCK rule", t->stuck, 1, LAST_STUCK_RULE },
        { "BUS part", t->bus, 3, LAST_PART },
        { "judge's SIZE part", t->size[JUDGE], 1, LAST_PART },
        { "tabler's SIZE part", t->size[TABLER], 1, LAST_PART },
        { "maker's SIZE part", t->size[MAKER], 0, 2 },
        { "writer's recipe SIZE part", t->size[LABEL_WRITER], 0, 0 },
        { "writer's buffer SIZE part", t->size[LABEL_WRITER], LAST_SIZE_PART, LAST_SIZE_PART },
        { "judge's WORD part", t->word[JUDGE], 1, LAST_PART },
        { "tabler's WORD part", t->word[TABLER], 1, 2 },
        { "LABEL place", t->place, 0, LAST_PLACE },
        { "count's SIZE part", t->size[COUNT], 1, LAST_PART },
        { "count's WORD part", t->word[COUNT], 1, LAST_PART },
        { "report's SIZE part", t->size[REPORT], LAST_SIZE_PART, LAST_SIZE_PART },
        { "translation's SIZE part", t->size[TRANSLATE], 1, 1 },
        { "translation's WORD part", t->word[TRANSLATE], 1, 1 },
        { "lister's SIZE part", t->size[LISTER], 1, 1 },
        { "lister's WORD part", t->word[LISTER], 1, 1 },
        { "finder's SIZE part", t->size[RANGES], 1, LAST_PART },
        { "finder's WORD part", t->word[RANGES], 1, LAST_PART },
        { "split judge's SIZE part", t->size[SPLIT], 1, LAST_PART },
        { "split judge's WORD part", t->word[SPLIT], 1, LAST_PART },
    };
    for (int i = 0; i < LINES; i++)
        out[i] = all[i];
}

static void print_calls(const tally *t)
{
    for (int f = 0; f < FUNCTIONS; f++) {
        printf("%s: %" PRIu64 " calls", function_names[f], t->calls[f]);
        for (int v = 0; v < VERDICTS; v++)
            if (t->verdicts[f][v] != 0)
                printf(", %d %s %" PRIu64, v, verdict_names[v],
                       t->verdicts[f][v]);
        printf("\n");
    }
}

static void print_cases(const tally *t)
{
    printf("grids:");
    for (int i = 0; i < GRID_CASES; i++)
        printf("%s %s:%" PRIu64, i == 0 ? "" : ",", case_names[i], t->cases[i]);
    printf("\n");
}

static void print_lengths(const tally *t)
{
    for (int f = 0; f < FUNCTIONS; f++) {
        printf("%s's other answer buffers:", function_names[f]);
        for (int i = 0; i < ANSWER_LENGTHS; i++)
            printf(" %zu:%" PRIu64, answer_lengths[i], t->lengths[f][i]);
        printf("\n");
    }
}

/* Verdicts and lengths of the answer that a function did not meet. */
static uint32_t print_missing_of(const tally *t, int f, uint32_t missing)
{
    for (int v = 0; v < VERDICTS; v++)
        if (expected[f][v] && t->verdicts[f][v] == 0)
            printf("%s %s's %s", missing++ == 0 ? "" : ",", function_names[f],
                   verdict_names[v]);
    for (int i = 0; i < ANSWER_LENGTHS; i++)
        if (t->lengths[f][i] == 0)
            printf("%s %s's answer of %zu bytes", missing++ == 0 ? "" : ",",
                   function_names[f], answer_lengths[i]);
    return missing;
}

/* The list of what is missing; gives its length. */
static uint32_t print_missing(const tally *t, const line lines[LINES])
{
    uint32_t missing = 0;
    printf("not reached:");
    for (int f = 0; f < FUNCTIONS; f++)
        missing = print_missing_of(t, f, missing);
    for (int i = 0; i < LINES; i++)
        for (uint32_t k = lines[i].first; k <= lines[i].last; k++)
            if (lines[i].table[k] == 0)
                printf("%s %s %" PRIu32, missing++ == 0 ? "" : ",",
                       lines[i].name, k);
    for (int i = 0; i < GRID_CASES; i++)
        if (t->cases[i] == 0)
            printf("%s %s", missing++ == 0 ? "" : ",", case_names[i]);
    printf("%s\n", missing == 0 ? " nothing" : "");
    return missing;
}

bool tally_report(const tally *t)
{
    line lines[LINES];
    lines_of(t, lines);
    print_calls(t);
    for (int i = 0; i < LINES; i++) {
        printf("%ss:", lines[i].name);
        for (uint32_t k = lines[i].first; k <= lines[i].last; k++)
            printf(" %" PRIu32 ":%" PRIu64, k, lines[i].table[k]);
        printf("\n");
    }
    print_cases(t);
    print_lengths(t);
    bool complete = print_missing(t, lines) == 0;
    complete = forms_report(t->forms) && complete;
    complete = lookup_report(&t->lookups) && complete;
    complete = version_report(&t->versions) && complete;
    complete = run_report(&t->runs) && complete;
    complete = listing_report(&t->listings) && complete;
    complete = stream_report(&t->streams) && complete;
    complete = range_report(&t->ranges) && complete;
    complete = split_report(&t->splits) && complete;
    return old_report(&t->olds) && complete;
}
