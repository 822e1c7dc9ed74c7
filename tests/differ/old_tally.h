/* What is counted of programs of draft 0.5.0. */
#ifndef DIFFER_OLD_TALLY_H
#define DIFFER_OLD_TALLY_H

#include <stdbool.h>
#include <stdint.h>

/* The translatable instructions but for their operands.  ADD, MUL and JUMP have
 * 4 * flag A + 2 * flag B + flag C added; DEREF has three right sides. */
enum { OLD_ADD = 0, OLD_MUL = 8, OLD_JUMP = 16, OLD_DEREF = 24,
       DEREF_GAMMA = OLD_DEREF, DEREF_CELL, DEREF_FP, OLD_FORMS };

/* What a step of one comes to: two ways to go on, or STUCK by rules 2 to 6. */
enum { STEPPED, UNTAKEN, LAST_OLD_RULE = 6, OUTCOMES };

/* Ways not to be translatable, in old_spoil.c. */
enum { REASONS = 28 };

/* What calls must meet besides; names are in old_tally.c. */
enum old_case { ONE_INSTRUCTION, LEFT_PROGRAM, RUN_STAYED, RUN_OPEN,
                WORD_BEHIND_EDITION, WORD_FIRST, WORD_LAST, SIZE_FIRST,
                EDITION_LAST, NO_OLD, NO_PROGRAM, NEITHER, OLD_LENGTH,
                PROGRAM_LENGTH, BOTH_LENGTHS, ANSWER_0, ANSWER_16, ANSWER_23,
                ANSWER_25, OLD_CASES };

typedef struct {
    uint64_t translated[OLD_FORMS];
    uint64_t dropped[OLD_FORMS]; /* with a dropped operand that is not 0 */
    uint64_t steps[OLD_FORMS][OUTCOMES];
    uint64_t reasons[REASONS];
    uint64_t cases[OLD_CASES];
} old_tally;

/* Prints all counts and what was not reached; true if nothing is missing. */
bool old_report(const old_tally *t);

#endif
