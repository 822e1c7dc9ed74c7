/* Programs for the clock: straight runs of H steps, all five kinds, an extension of N = 4 on every 16th step. */
#ifndef INPUTS_H
#define INPUTS_H

#include <stddef.h>
#include <stdint.h>

typedef struct {
    size_t height, ext_height, cells;
    size_t program_len, memory_len, exec_len, ext_len;
    uint8_t *program, *memory, *exec, *ext, *shuffled;
    size_t old_len;
    uint8_t *old; /* a program of draft 0.5.0 */
    size_t text_len;
    uint8_t *text; /* the program's listing */
} speed_input;

/* Program and memory of a run of `height` steps with a quarter as many extension rows; both tables zero. */
speed_input speed_build(unsigned height_log, unsigned ext_log, unsigned memory_log, uint64_t seed);

/* The extension table with its groups in another order, from the one that stands in `ext`. */
void speed_shuffle(speed_input *in, uint64_t seed);

/* In `shuffled` the table that stands in `ext`, but that the last group is gone: nothing pulls what the last extension
 * step pushes. */
void speed_unpull(speed_input *in);

/* Every row but the last pushes a tuple of its own; the first K - 1 of them are pulled, the last of them first. Both
 * tables are written. Of the tables refused at the bus that we know, the judge takes longest for this one. */
speed_input speed_dense(unsigned height_log, unsigned ext_log);

/* Program and memory of a run that stays on its one instruction: of all tables the judge takes least for a row of these. */
speed_input speed_halted(unsigned height_log);

/* For all instructions but the halt, range checks of the last cell, which holds 0: each second row begins one. */
void speed_check(speed_input *in);

/* In `old` a program of draft 0.5.0, of all kinds, flags and AUX words; `program` has room for its translation. */
speed_input speed_old(unsigned log);

/* Instructions of all kinds, modes and lengths, with words of any size, and in `text` their listing. */
speed_input speed_listing(unsigned log);

void speed_free(speed_input *in);

#endif
