/* What calls on two buffers met, by the bytes that were handed in. */
#include "splits.h"

#include "lookups.h"

cut cut_of(size_t public_len, size_t rest_len)
{
    for (uint32_t m = LEAST_M; m <= MOST_M; m++)
        for (uint32_t k = 0; k < m; k++)
            if (public_len == unit_of(MEMORY) << k
                && rest_len == unit_of(MEMORY) * (((size_t)1 << m) - ((size_t)1 << k)))
                return (cut){ m, k };
    return (cut){ 0, 0 };
}

/* ---- lengths ---- */

static bool good(size_t public_len, size_t rest_len)
{
    return cut_of(public_len, rest_len).m != 0;
}

static bool is_power(size_t count)
{
    return count != 0 && (count & (count - 1)) == 0;
}

/* The length of a memory in one buffer. */
static bool is_memory(size_t len)
{
    return is_power(len) && len >= unit_of(MEMORY) << LEAST_M && len <= unit_of(MEMORY) << MOST_M;
}

/* Those of two cuts of the smallest memory. */
static void count_rests(split_tally *s, size_t first, size_t rest)
{
    for (int i = 0; i < LEAST_M * LEAST_M; i++) {
        int k = i / LEAST_M, j = i % LEAST_M;
        s->rests[k][j] += first == unit_of(MEMORY) << k
            && rest == (unit_of(MEMORY) << LEAST_M) - (unit_of(MEMORY) << j);
    }
}

/* How lengths fail that are not good. */
static void count_lengths(uint64_t *cases, size_t first, size_t rest)
{
    size_t sum = first + rest; /* may wrap */
    cases[EMPTY_REST] += rest == 0 && is_memory(first);
    cases[EMPTY_PUBLIC] += first == 0 && is_memory(rest);
    cases[BOTH_EMPTY] += first == 0 && rest == 0;
    cases[NO_POWER] += first % 4 == 0 && rest != 0 && !is_power(first) && sum >= first && is_memory(sum);
    cases[OTHER_SUM] += is_power(first / 4) && first % 4 == 0 && rest % 4 == 0 && !is_power(sum);
    cases[PUBLIC_BYTE_LESS] += good(first + 1, rest);
    cases[PUBLIC_BYTE_MORE] += good(first - 1, rest);
    cases[REST_BYTE_LESS] += good(first, rest + 1);
    cases[REST_BYTE_MORE] += good(first, rest - 1);
    cases[BYTE_MOVED] += good(first + 1, rest - 1) || good(first - 1, rest + 1);
    cases[EXCHANGED] += good(rest, first);
    cases[SUM_2_7] += is_power(first / 4) && first / 4 < 128 && sum == 4 * 128;
    cases[SUM_2_30] += is_power(first / 4) && sum == (size_t)4 << 30;
    cases[CUT_TO_32_BITS] += good((uint32_t)first, (uint32_t)rest);
    cases[SUM_WRAPS_64] += sum < first && is_power(first) && is_memory(sum);
}

/* Which of several faults is told. */
static void count_order(uint64_t *cases, const attempt *t, second_answer a)
{
    const buffer *program = &t->lent[S_PROGRAM];
    bool in_program = a.verdict == SIZE && a.part == 1;
    bool in_memory = a.verdict == SIZE && a.part == 2;
    cases[PROGRAM_FIRST] += in_program;
    cases[BEFORE_EXECUTION] += in_memory && t->lent[S_EXECUTION].len % unit_of(EXECUTION) != 0;
    cases[BEFORE_EXTENSIONS] += in_memory && t->lent[S_EXTENSIONS].len % unit_of(EXTENSIONS) != 0;
    cases[BEFORE_WORD] += in_memory && load_word(program->bytes) >= P;
}

/* ---- words and cells ---- */

static uint32_t cell_of(const attempt *t, uint32_t index)
{
    size_t at = unit_of(MEMORY) * index, first = t->lent[S_PUBLIC].len;
    return at < first ? load_word(t->lent[S_PUBLIC].bytes + at)
                      : load_word(t->lent[S_REST].bytes + (at - first));
}

/* Of other parts the first word is looked at. */
static void count_word(uint64_t *cases, const attempt *t, cut c, second_answer a)
{
    uint32_t seam = (uint32_t)1 << c.k, cells = (uint32_t)1 << c.m, place = a.place;
    if (a.part == 1)
        cases[BEHIND_PROGRAM] += cell_of(t, seam) >= P;
    if (a.part != 2)
        return;
    cases[FIRST_WORD] += place == 0;
    cases[BEFORE_SEAM] += place == seam - 1;
    cases[AT_SEAM] += place == seam;
    cases[LAST_WORD] += place == cells - 1;
    cases[WORDS_IN_BOTH] += place < seam && (cell_of(t, seam) >= P || cell_of(t, cells - 1) >= P);
    cases[BEFORE_EXEC_WORD] += load_word(t->lent[S_EXECUTION].bytes) >= P;
    cases[BEFORE_EXT_WORD] += load_word(t->lent[S_EXTENSIONS].bytes) >= P;
}

/* One lookup of a row that was accepted, or by which it was refused; `off` is the
 * first cell that differs, or FIVE. */
typedef struct {
    uint32_t at, index, off;
    bool grouped; /* the row is a group's */
} met;

static void count_met(split_tally *s, cut c, met e)
{
    uint32_t seam = (uint32_t)1 << c.k, cells = (uint32_t)1 << c.m;
    uint32_t end = e.index + lookups[e.at].count;
    int outcome = e.off == FIVE && end <= cells ? CUT_TAKEN : CUT_REFUSED;
    const bool at[SPLIT_PLACES] = {
        [UP_TO_SEAM] = end == seam, [FROM_SEAM] = e.index == seam, [UP_TO_M] = end == cells,
        [ONE_PAST_M] = end == cells + 1, [FROM_M] = e.index >= cells
    };
    for (int i = 0; i < SPLIT_PLACES; i++)
        s->places[e.at][i][outcome] += at[i];
    if (e.index >= seam || end <= seam)
        return;
    uint32_t five = e.at - FIRST_OF_FIVE, place = seam - e.index - 1;
    s->across[five][place][e.off]++;
    s->grouped[five][place] += outcome == CUT_TAKEN && e.grouped;
    if (c.m <= EVERY_M)
        s->seams[c.k][place][outcome]++;
}

/* The table that a rule is of. */
static const buffer *table_of(const attempt *t, const lookup *l)
{
    return &t->lent[l->part == EXECUTION ? S_EXECUTION : S_EXTENSIONS];
}

static bool is_active(const uint8_t *ext_row)
{
    return (load_word(ext_row + 4 * X_ADD) | load_word(ext_row + 4 * X_MUL)
            | load_word(ext_row + 4 * X_PEQ)) != 0;
}

/* Every lookup of every row. */
static void count_accepted(split_tally *s, const attempt *t, cut c)
{
    for (uint32_t at = 0; at < LOOKUPS; at++) {
        const lookup *l = &lookups[at];
        const buffer *table = table_of(t, l);
        for (size_t from = 0; from < table->len; from += unit_of(l->part)) {
            const uint8_t *row = table->bytes + from;
            bool grouped = l->part == EXTENSIONS && is_active(row);
            count_met(s, c, (met){ at, load_word(row + 4 * l->index), FIVE, grouped });
        }
    }
}

/* An answer with other words than these counts for nothing. */
static void count_refused(split_tally *s, const attempt *t, cut c, second_answer a)
{
    for (uint32_t at = 0; at < LOOKUPS; at++) {
        const lookup *l = &lookups[at];
        if (a.part != (uint32_t)l->part + 1 || lookup_rules[at] != a.rule)
            continue;
        const uint8_t *row = table_of(t, l)->bytes + unit_of(l->part) * a.place;
        met e = { at, load_word(row + 4 * l->index), FIVE, false };
        uint32_t told[2] = { 0, 0 };
        bool there = (uint64_t)e.index + l->count <= (uint64_t)1 << c.m;
        for (uint32_t k = 0; k < l->count && there && e.off == FIVE; k++) {
            told[0] = cell_of(t, e.index + k);
            told[1] = load_word(row + 4 * (l->value + k));
            e.off = told[0] != told[1] ? k : FIVE;
        }
        if (there == (e.off == FIVE) || a.expected != told[0] || a.found != told[1])
            return;
        count_met(s, c, e);
        if (there && c.m <= EVERY_M)
            s->cuts[c.m][c.k][CUT_REFUSED]++;
    }
}

void count_split(split_tally *s, const attempt *t, second_answer a)
{
    size_t first = t->lent[S_PUBLIC].len, rest = t->lent[S_REST].len;
    cut c = cut_of(first, rest);
    if (a.verdict >= JUDGED_VERDICTS)
        return;
    if (c.m == 0) {
        count_order(s->cases, t, a);
        if (a.verdict == SIZE && a.part == 2) {
            count_lengths(s->cases, first, rest);
            count_rests(s, first, rest);
        }
        return;
    }
    s->taken[c.m][c.k] += a.verdict != SIZE || a.part > 2;
    if (c.m <= EVERY_M)
        s->verdicts[c.k][a.verdict]++;
    if (a.verdict == WORD)
        count_word(s->cases, t, c, a);
    if (a.verdict == EXEC || a.verdict == EXTENSION)
        count_refused(s, t, c, a);
    if (a.verdict != ACCEPTED)
        return;
    count_accepted(s, t, c);
    if (c.m <= EVERY_M)
        s->cuts[c.m][c.k][CUT_TAKEN]++;
}
