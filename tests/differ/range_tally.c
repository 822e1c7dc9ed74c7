#include "range_tally.h"

#include <inttypes.h>
#include <stdio.h>

static const char *const need_names[RANGE_NEEDS] = {
    [FIRST_IS_DEREF] = "the first is a DEREF",
    [FIRST_BETA_0] = "the first DEREF's beta is 0",
    [MIDDLE_IS_ADD] = "the second is an ADD",
    [A_IS_CELL] = "its A is a cell",
    [A_IS_X] = "its A is x",
    [B_IS_IMMEDIATE] = "its B is immediate",
    [C_NOT_IMMEDIATE] = "its C is not immediate",
    [C_NOT_FRAME] = "its C is not fp-relative",
    [LAST_IS_DEREF] = "the third is a DEREF",
    [LAST_BETA_0] = "the last DEREF's beta is 0",
    [LAST_IS_J] = "its A is j",
};

static const char *const case_names[RANGE_CASES] = {
    [BOUND_1] = "t 1",
    [BOUND_2] = "t 2",
    [BOUND_BELOW_M] = "t from 3 to M - 1",
    [BOUND_M] = "t M",
    [BOUND_ABOVE_M] = "t above M",
    [BOUND_2M_1] = "t 2M - 1",
    [BOUND_2_16] = "t 2^16",
    [BOUND_ABOVE_2_16] = "t above 2^16",
    [AT_ROW_0] = "at row 0",
    [TO_ROW_H_2] = "ends at row H - 2",
    [SAME_CELL] = "x is j",
    [OVERLAPPING] = "shares a row with another",
    [RIGHT_BEHIND] = "right behind another",
    [MOST_FINDS] = "as many as there may be",
    [FOUND_AGAIN] = "the same instructions once more",
    [FOUND_AGAIN_OTHER] = "and of another value",
    [BEHIND_JUMP] = "jumped to, in another frame",
    [FRAME_0] = "fp 0",
    [OTHER_FRAME] = "fp not 0",
    [X_WRAPS] = "fp + x wraps",
    [J_WRAPS] = "fp + j wraps",
    [COMMUTED] = "commuted",
    [TAKEN_BEFORE_ADD] = "taken jump before the ADD",
    [UNTAKEN_BEFORE_ADD] = "untaken jump before the ADD",
    [TAKEN_BEHIND_ADD] = "taken jump behind the ADD",
    [UNTAKEN_BEHIND_ADD] = "untaken jump behind the ADD",
    [TWO_ROWS_LEFT] = "cut by the last row",
    [ONE_ROW_LEFT] = "cut before the ADD by the last row",
    [ENTERED_AT_ADD] = "entered at the ADD",
    [ENTERED_AT_LAST] = "entered at the second DEREF",
    [NOT_RUN] = "never run",
    [BOUND_P] = "B p - 1",
    [FIRST_BETA_1] = "first beta 1",
    [FIRST_BETA_P_1] = "first beta p - 1",
    [LAST_BETA_1] = "second beta 1",
    [LAST_BETA_P_1] = "second beta p - 1",
    [X_ONE_MORE] = "A one above x",
    [X_ONE_LESS] = "A one below x",
    [J_ONE_MORE] = "second DEREF one above j",
    [J_ONE_LESS] = "second DEREF one below j",
    [FINDS_EXACT] = "exact room",
    [FINDS_MORE] = "more room",
    [FINDS_MORE_ODD] = "more room, but none for another",
    [FINDS_BYTE_SHORT] = "one byte short",
    [FINDS_ONE_SHORT] = "one find short",
    [FINDS_NO_ROOM] = "no room",
    [NONE_IN_NONE] = "no find in no room",
    [NONE_KEPT] = "no find in some room",
    [REFUSED_KEPT] = "refused with room for its finds",
    [REFUSED_BEFORE_LIST] = "refused without",
    [REFUSED_LOOKUP] = "refused with what a lookup found",
};

static uint32_t missing; /* so far */

static void print_count(const char *name, uint64_t count, bool first)
{
    missing += count == 0;
    printf("%s %s:%" PRIu64 "%s", first ? "" : ",", name, count,
           count == 0 ? " NOT REACHED" : "");
}

static void print_modes(const range_tally *t)
{
    static const char *const names[FORM_MODES] = { "imm", "cell", "fp" };
    char both[16];
    printf("finds by the DEREFs' C:");
    for (int i = 0; i < FORM_MODES * FORM_MODES; i++) {
        int a = i / FORM_MODES, b = i % FORM_MODES;
        snprintf(both, sizeof both, "%s.%s", names[a], names[b]);
        print_count(both, t->modes[a][b], i == 0);
    }
    printf("\n");
}

/* Each kind but the right one must stand in each of the three places. */
static void print_kinds(const range_tally *t)
{
    static const char *const names[FORM_KINDS] = { "add", "mul", "deref", "jump", "ext" };
    static const char *const places[OF_THREE] = { "first", "second", "third" };
    static const int right[OF_THREE] = { 2, 0, 2 };
    for (int i = 0; i < OF_THREE; i++) {
        bool first = true;
        printf("finds but that the %s is:", places[i]);
        for (int k = 0; k < FORM_KINDS; k++)
            if (k != right[i]) {
                print_count(names[k], t->kinds[i][k], first);
                first = false;
            }
        printf("\n");
    }
}

static void print_lengths(const range_tally *t)
{
    uint32_t reached = 0;
    for (int i = 0; i < NEXT_LENGTHS * TOLD_LENGTHS; i++)
        reached += t->lengths[i / TOLD_LENGTHS][i % TOLD_LENGTHS] != 0;
    printf("lengths of found and answer: %" PRIu32 " of %d pairs\n", reached,
           NEXT_LENGTHS * TOLD_LENGTHS);
    missing += NEXT_LENGTHS * TOLD_LENGTHS - reached;
}

bool range_report(const range_tally *t)
{
    missing = 0;
    print_modes(t);
    printf("finds but that this alone is lacking:");
    for (int i = 0; i < RANGE_NEEDS; i++)
        print_count(need_names[i], t->alone[i], i == 0);
    printf("\n");
    print_kinds(t);
    printf("ranges:");
    for (int i = 0; i < RANGE_CASES; i++)
        print_count(case_names[i], t->cases[i], i == 0);
    printf("\n");
    print_lengths(t);
    printf("ranges: %" PRIu64 " finds in %" PRIu64 " rows of %" PRIu64
           " tables, %" PRIu32 " not reached\n", t->finds, t->rows, t->tables,
           missing);
    return missing == 0;
}
