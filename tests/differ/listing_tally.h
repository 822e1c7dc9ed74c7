/* What is counted of listings. */
#ifndef DIFFER_LISTING_TALLY_H
#define DIFFER_LISTING_TALLY_H

#include <stdbool.h>
#include <stddef.h>
#include <stdint.h>

enum list_op { L_ADD, L_MUL, L_DEREF, L_JUMP, L_XADD, L_XMUL, L_XPEQ, LIST_OPS };
enum { L_IMM, L_CELL, L_FP, LIST_MODES };

/* A line but for its numbers: 54 * op + 18 * A + 6 * B + 2 * C + be, with the
 * operands' modes.  Not all of them are possible. */
enum { SHAPES = LIST_OPS * 54, POSSIBLE_SHAPES = 125 };

/* Where a reader stops: in which field, how far in it, and whether at a byte
 * that no listing has there or at the text's end. */
enum list_field { FIELD_OP, FIELD_A, FIELD_B, FIELD_C, FIELD_BE, FIELD_N, FIELDS };
enum list_stage { IN_KEY, IN_NAME, AT_FIRST_DIGIT, AFTER_ZERO, AFTER_DIGIT,
                  ABOVE_MOST, STAGES };
enum { AT_BYTE, AT_END, ENDS };

/* Numbers that must stand in each operand, and as n. */
enum { EDGE_WORDS = 6, EDGE_LENGTHS = 5 };
extern const uint32_t edge_words[EDGE_WORDS], edge_lengths[EDGE_LENGTHS];

/* Other lengths of `written` that both must be tried with. */
enum { WRITTEN_LENGTHS = 6 };
extern const size_t written_lengths[WRITTEN_LENGTHS];

/* Ways to damage a text, in listing_spoil.c. */
enum { DAMAGES = 54 };

/* What calls must meet besides; names are in listing_tally.c. */
enum list_case { LIST_EXACT, LIST_MORE, LIST_ONE_SHORT, LIST_NO_ROOM,
                 LIST_ONE_LINE, LIST_LONGEST, LIST_EMPTY, LIST_LENGTH,
                 LIST_WORD_FIRST, LIST_WORD_LAST, LIST_WORD_BEHIND,
                 LIST_SIZE_FIRST, LIST_MALFORMED_LAST, LIST_MALFORMED_FIRST,
                 READ_EXACT, READ_MORE, READ_ONE_SHORT, READ_NO_ROOM,
                 READ_EMPTY, READ_LISTING_FIRST, READ_STILL, LIST_CASES };

typedef struct {
    uint64_t listed[SHAPES], read[SHAPES]; /* lines of what was accepted */
    uint64_t words[3][EDGE_WORDS], lengths[EDGE_LENGTHS]; /* of lines read */
    uint64_t wrong[LIST_OPS][3][LIST_MODES]; /* refused for this mode */
    uint64_t stops[LIST_OPS + 1][FIELDS][STAGES][ENDS]; /* the last: no op yet */
    uint64_t columns[12]; /* of a malformed instruction */
    uint64_t damages[DAMAGES];
    uint64_t written[2][WRITTEN_LENGTHS];
    uint64_t cases[LIST_CASES];
} listing_tally;

/* Counts where a text was refused. */
void count_stop(listing_tally *t, const uint8_t *text, size_t len, size_t place);

/* Prints counts and all that was not reached; true if nothing is missing. */
bool listing_report(const listing_tally *t);

#endif
