/* What the calls of a run reached. */
#ifndef DIFFER_TALLY_H
#define DIFFER_TALLY_H

#include <stdbool.h>

#include "../second/second.h"
#include "listing_tally.h"
#include "lookup_tally.h"
#include "old_tally.h"
#include "range_tally.h"
#include "run_tally.h"
#include "split_tally.h"
#include "stream_tally.h"
#include "version_tally.h"

enum function { JUDGE, LABEL_READER, TABLER, MAKER, LABEL_WRITER, COUNT, REPORT,
                TRANSLATE, LISTER, LIST_READER, STREAM_JUMP, STREAM_HOST,
                RANGES, SPLIT, FUNCTIONS };

/* The documents' verdicts; 12 is none of them (02, M-107). */
enum { ACCEPTED, SIZE, WORD, INSTRUCTION, START, EXEC, EXTENSION, BUS, LABEL,
       STUCK, ROOM, OPEN, ANSWER = 13, GRID, EDITION, LISTING, SHORT, HOST,
       LIST, VERDICTS };

enum { LAST_EXEC_RULE = 16, LAST_EXT_RULE = 21, LAST_STUCK_RULE = 8,
       LAST_SIZE_PART = 5, LAST_PART = 4 };

/* Other lengths of the answer's buffer that each function must be tried with;
 * 16 bytes had the four numbers that there were once. */
enum { ANSWER_LENGTHS = 6 };
extern const size_t answer_lengths[ANSWER_LENGTHS];

/* What counts and reports must meet besides verdicts; names are in tally.c. */
enum grid_case { FRESH_COUNTED, CARRIED, LIMIT_TAKEN, LIMIT_PASSED, SUM_WRAPS,
                 ALL_FULL, REFUSED_FIRST, GRID_LENGTH, ANSWER_LENGTH,
                 EMPTY_REPORT, EXACT_ROOM, MORE_ROOM, ONE_BYTE_SHORT, NO_ROOM,
                 LONGEST_REPORT, REPORT_GRID_LENGTH, WRITTEN_LENGTH,
                 REPORT_ANSWER_LENGTH, GRID_CASES };

typedef struct {
    uint64_t calls[FUNCTIONS], verdicts[FUNCTIONS][VERDICTS];
    uint64_t exec[LAST_EXEC_RULE + 1], ext[LAST_EXT_RULE + 1];
    uint64_t stuck[LAST_STUCK_RULE + 1], bus[LAST_PART + 1];
    uint64_t size[FUNCTIONS][LAST_SIZE_PART + 1], word[FUNCTIONS][LAST_PART + 1];
    uint64_t place[LAST_PLACE + 1];
    uint64_t lengths[FUNCTIONS][ANSWER_LENGTHS];
    uint64_t cases[GRID_CASES];
    uint64_t forms[SECOND_COUNTERS]; /* rows that the library counted */
    old_tally olds;
    version_tally versions;
    lookup_tally lookups;
    run_tally runs;
    listing_tally listings;
    stream_tally streams;
    range_tally ranges;
    split_tally splits;
} tally;

extern const char *const function_names[FUNCTIONS];

void tally_add(tally *t, enum function f, second_answer a);
void tally_length(tally *t, enum function f, size_t answer_len);

/* forms.c: prints how many of the possible forms have rows, and which not; true
 * if all of them have and no other has. */
bool forms_report(const uint64_t rows[SECOND_COUNTERS]);

/* Prints all counts and what was not reached; true if nothing is missing, and
 * no form was counted that is not possible. */
bool tally_report(const tally *t);

#endif
