/* What is counted of range checks in accepted tables, and of their calls. */
#ifndef DIFFER_RANGE_TALLY_H
#define DIFFER_RANGE_TALLY_H

#include <stdbool.h>
#include <stdint.h>

#include "stream_tally.h"

/* What three instructions need to be a find.  Each must be lacking alone in
 * some three rows, so that one who forgets it finds too many. */
enum range_need { FIRST_IS_DEREF, FIRST_BETA_0, MIDDLE_IS_ADD, A_IS_CELL, A_IS_X,
                  B_IS_IMMEDIATE, C_NOT_IMMEDIATE, C_NOT_FRAME, LAST_IS_DEREF,
                  LAST_BETA_0, LAST_IS_J, RANGE_NEEDS };

enum { FORM_MODES = 3, FORM_KINDS = 5, OF_THREE = 3 };

/* What finds, near misses and calls must meet; names are in range_tally.c. */
enum range_case {
    BOUND_1, BOUND_2, BOUND_BELOW_M, BOUND_M, BOUND_ABOVE_M, BOUND_2M_1,
    BOUND_2_16, BOUND_ABOVE_2_16,
    AT_ROW_0, TO_ROW_H_2, SAME_CELL, OVERLAPPING, RIGHT_BEHIND, MOST_FINDS,
    FOUND_AGAIN, FOUND_AGAIN_OTHER, BEHIND_JUMP, FRAME_0, OTHER_FRAME, X_WRAPS,
    J_WRAPS,
    COMMUTED, TAKEN_BEFORE_ADD, UNTAKEN_BEFORE_ADD, TAKEN_BEHIND_ADD,
    UNTAKEN_BEHIND_ADD, TWO_ROWS_LEFT, ONE_ROW_LEFT, ENTERED_AT_ADD,
    ENTERED_AT_LAST, NOT_RUN, BOUND_P, FIRST_BETA_1, FIRST_BETA_P_1, LAST_BETA_1,
    LAST_BETA_P_1, X_ONE_MORE, X_ONE_LESS, J_ONE_MORE, J_ONE_LESS,
    FINDS_EXACT, FINDS_MORE, FINDS_MORE_ODD, FINDS_BYTE_SHORT, FINDS_ONE_SHORT,
    FINDS_NO_ROOM, NONE_IN_NONE, NONE_KEPT, REFUSED_KEPT, REFUSED_BEFORE_LIST,
    REFUSED_LOOKUP, RANGE_CASES
};

typedef struct {
    uint64_t tables, rows, finds; /* accepted; their rows; and of these */
    uint64_t modes[FORM_MODES][FORM_MODES]; /* finds by the C of both DEREFs */
    uint64_t alone[RANGE_NEEDS];
    uint64_t kinds[OF_THREE][FORM_KINDS]; /* what stands there, lacking alone */
    uint64_t cases[RANGE_CASES];
    uint64_t lengths[NEXT_LENGTHS][TOLD_LENGTHS]; /* of `found`, of `answer` */
} range_tally;

/* Prints all counts and what was not reached; true if nothing is missing. */
bool range_report(const range_tally *t);

#endif
