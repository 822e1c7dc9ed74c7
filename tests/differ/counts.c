/* Counts on every table that is judged, and reports of the grids they leave. */
#include "tries.h"

#include <inttypes.h>
#include <stdio.h>
#include <string.h>

#include "grids.h"
#include "library.h"

enum { GRID_SLOT = PARTS, COUNT_ANSWER };
enum { R_GRID, R_TEXT, R_WRITTEN, R_ANSWER };
enum { LONGEST = 5076 }; /* 135 lines of twenty digits each */

_Static_assert(UISNABAR_REPORT_BYTES == LONGEST, "the header's longest report");

/* A grid that goes from call to call as the library left it, and what was
 * accepted on the way. */
static struct {
    grid so_far;
    uint64_t tables, rows;
} campaign;

static bool is_full(const grid *g)
{
    for (int i = 0; i < SECOND_COUNTERS; i++)
        if (g->at[i] != UINT64_MAX)
            return false;
    return true;
}

/* The rows that the library added, by form. */
static void tally_forms(tally *t, const grid *before, const grid *after)
{
    bool carried = false;
    for (int i = 0; i < SECOND_COUNTERS; i++) {
        t->forms[i] += after->at[i] - before->at[i];
        carried = carried || (before->at[i] <= UINT32_MAX
                              && after->at[i] > UINT32_MAX);
    }
    t->cases[CARRIED] += carried;
}

static void tally_total(tally *t, const grid *before, uint64_t rows,
                        uint32_t verdict)
{
    grid_total sum = total_of(before);
    bool within = sum.high == 0 && sum.low <= TOTAL_LIMIT - rows;
    bool next = sum.high == 0 && sum.low == TOTAL_LIMIT - rows + 1;
    bool wraps = sum.high != 0 && sum.low <= TOTAL_LIMIT - rows;
    if (verdict == ACCEPTED) {
        t->cases[FRESH_COUNTED] += sum.high == 0 && sum.low == 0;
        t->cases[LIMIT_TAKEN] += within && sum.low == TOTAL_LIMIT - rows;
    } else if (verdict == GRID) {
        t->cases[LIMIT_PASSED] += next;
        t->cases[SUM_WRAPS] += wraps;
        t->cases[ALL_FULL] += is_full(before);
    } else if (verdict != ANSWER) {
        t->cases[REFUSED_FIRST] += !within;
    }
}

/* One call, and in `g` the grid that the library left. */
static second_answer count(differ *d, const attempt *t, grid *g)
{
    size_t grid_len = t->lent[GRID_SLOT].len;
    size_t answer_len = t->lent[COUNT_ANSWER].len;
    uint64_t rows = t->lent[EXECUTION].len / unit_of(EXECUTION);
    grid before = *g;
    second_answer a = compare(d, t);
    if (grid_len != SECOND_GRID_BYTES) {
        d->reached.cases[GRID_LENGTH] += answer_len == ANSWER_BYTES;
        return a;
    }
    d->reached.cases[ANSWER_LENGTH] += answer_len != ANSWER_BYTES;
    grid_load(g, d->slots[GRID_SLOT].lent);
    tally_total(&d->reached, &before, rows, a.verdict);
    if (a.verdict == ACCEPTED)
        tally_forms(&d->reached, &before, g);
    return a;
}

second_answer count_world(differ *d, const world *w, size_t grid_len,
                          size_t answer_len, grid *g)
{
    uint8_t bytes[SECOND_GRID_BYTES];
    attempt t = attempt_on(d, COUNT, w);
    grid_store(g, bytes);
    t.lent[GRID_SLOT] = (buffer){ bytes, grid_len, false };
    if (grid_len > sizeof bytes)
        t.lent[GRID_SLOT].bytes = NULL;
    t.lent[COUNT_ANSWER].len = answer_len;
    return count(d, &t, g);
}

static void add_to_campaign(const grid *g, const world *w, second_answer a)
{
    campaign.so_far = *g;
    campaign.tables += a.verdict == ACCEPTED;
    campaign.rows += a.verdict == ACCEPTED ? count_of(w, EXECUTION) : 0;
}

void try_count(differ *d, const world *w)
{
    size_t mark = d->what_len;
    bool of_campaign = once_in(&d->random, 3);
    size_t grid_len = fixed_length(&d->random, SECOND_GRID_BYTES);
    size_t answer_len = fixed_length(&d->random, ANSWER_BYTES);
    grid g = campaign.so_far;
    if (of_campaign)
        note(d, "; a campaign's grid");
    else
        some_grid(d, count_of(w, EXECUTION), &g);
    note(d, ", of %zu, answer %zu", grid_len, answer_len);
    second_answer a = count_world(d, w, grid_len, answer_len, &g);
    if (of_campaign)
        add_to_campaign(&g, w, a);
    if (once_in(&d->random, 4))
        report_grid(d, &g);
    note_back(d, mark);
}

static size_t some_room(source *random, size_t need)
{
    switch (below(random, 8)) {
    case 0:
        return 0;
    case 1:
        return need > 0 ? need - 1 : 1;
    case 2:
        return need + 1;
    case 3:
        return need > 0 ? below(random, (uint32_t)need) : 2;
    case 4:
        return need + below(random, 300);
    case 5:
        return LONGEST + below(random, 5000);
    default:
        return need;
    }
}

static void tally_room(uint64_t *cases, size_t room, size_t need)
{
    cases[EMPTY_REPORT] += need == 0;
    cases[EXACT_ROOM] += need > 0 && room == need;
    cases[MORE_ROOM] += need > 0 && room > need;
    cases[ONE_BYTE_SHORT] += room + 1 == need;
    cases[NO_ROOM] += need > 0 && room == 0;
    cases[LONGEST_REPORT] += need == LONGEST && room >= need;
}

static void tally_lengths(uint64_t *cases, const attempt *t)
{
    bool of_grid = t->lent[R_GRID].len != SECOND_GRID_BYTES;
    bool of_written = t->lent[R_WRITTEN].len != WRITTEN_BYTES;
    bool of_answer = t->lent[R_ANSWER].len != ANSWER_BYTES;
    cases[REPORT_GRID_LENGTH] += of_grid && !of_written && !of_answer;
    cases[WRITTEN_LENGTH] += of_written && !of_grid && !of_answer;
    cases[REPORT_ANSWER_LENGTH] += of_answer && !of_grid && !of_written;
}

void report_grid(differ *d, const grid *g)
{
    uint8_t bytes[SECOND_GRID_BYTES], text[LONGEST];
    attempt t = { .function = REPORT };
    uint64_t need;
    grid_store(g, bytes);
    second_report(bytes, text, sizeof text, &need);
    size_t grid_len = fixed_length(&d->random, sizeof bytes);
    t.lent[R_GRID] = (buffer){ grid_len <= sizeof bytes ? bytes : NULL,
                               grid_len, false };
    t.lent[R_TEXT].len = some_room(&d->random, need);
    t.lent[R_WRITTEN].len = fixed_length(&d->random, WRITTEN_BYTES);
    t.lent[R_ANSWER].len = fixed_length(&d->random, ANSWER_BYTES);
    note(d, "; its report of %" PRIu64 " bytes, lengths %zu %zu %zu %zu", need,
         grid_len, t.lent[R_TEXT].len, t.lent[R_WRITTEN].len,
         t.lent[R_ANSWER].len);
    second_answer a = compare(d, &t);
    tally_lengths(d->reached.cases, &t);
    if (a.verdict != ANSWER)
        tally_room(d->reached.cases, t.lent[R_TEXT].len, need);
}

/* Counters of every number of digits, at both ends of it. */
static void some_digits(source *random, grid *g)
{
    for (int i = 0; i < SECOND_COUNTERS; i++) {
        uint64_t power = 1;
        for (uint32_t digits = below(random, 20); digits > 0; digits--)
            power *= 10;
        g->at[i] = once_in(random, 2) ? power - below(random, 2)
                                      : next_number(random) % power;
    }
}

void try_report(differ *d)
{
    grid g;
    note_back(d, 0);
    if (once_in(&d->random, 2))
        some_grid(d, 256, &g);
    else
        some_digits(&d->random, &g);
    report_grid(d, &g);
}

void end_campaign(differ *d)
{
    grid_total sum = total_of(&campaign.so_far);
    printf("campaign: %" PRIu64 " tables accepted, %" PRIu64 " rows, total %"
           PRIu64 "\n", campaign.tables, campaign.rows, sum.low);
    note_back(d, 0);
    if (sum.high != 0 || sum.low != campaign.rows)
        differs(d, "the campaign's total is not its rows");
}
