/* Form counts over a campaign, and their report. */
#include "parts.h"
#include "text.h"

#include <string.h>

enum { ADD, MUL, DEREF, JUMP, KIND_EXTENSION };
enum { IMMEDIATE, CELL, FRAME };
enum { LONGEST_LINE = 42 }; /* deref, three cells and twenty digits */

static uint64_t load_counter(const uint8_t *grid, uint32_t i)
{
    const uint8_t *from = grid + 8 * (size_t)i;
    return load_word(from) | (uint64_t)load_word(from + 4) << 32;
}

static void store_counter(uint8_t *grid, uint32_t i, uint64_t counter)
{
    store_word(grid + 8 * (size_t)i, (uint32_t)counter);
    store_word(grid + 8 * (size_t)i + 4, (uint32_t)(counter >> 32));
}

/* Both of a well-formed instruction. */
static uint32_t kind_of(const form *f)
{
    if (is_extension(f))
        return KIND_EXTENSION;
    if (f->jump == 1)
        return JUMP;
    if (f->mul == 1)
        return MUL;
    return f->aux == 2 ? DEREF : ADD;
}

static uint32_t mode_of(uint32_t immediate, uint32_t frame)
{
    if (immediate == 1)
        return IMMEDIATE;
    return frame == 1 ? FRAME : CELL;
}

/* DEREF needs no case of its own: its fA is 0 and its fB is 1. */
static uint32_t counter_of(const form *f)
{
    return 27 * kind_of(f) + 9 * mode_of(f->fa, f->fpab)
         + 3 * mode_of(f->fb, f->fpab) + mode_of(f->fc, f->fpc);
}

/* Whether the counters and the rows pass 2^63 - 1.  Each is taken from what
 * is left below the limit, so nothing wraps whatever the counters are. */
static bool passes_limit(const uint8_t *grid, uint64_t rows)
{
    uint64_t left = (uint64_t)INT64_MAX - rows;
    for (uint32_t i = 0; i < SECOND_COUNTERS; i++) {
        uint64_t counter = load_counter(grid, i);
        if (counter > left)
            return true;
        left -= counter;
    }
    return false;
}

static second_answer count_rows(const parts *in, uint8_t *grid)
{
    uint64_t found[SECOND_COUNTERS] = { 0 };
    if (passes_limit(grid, in->exec_rows))
        return answer(GRID, 0, 0, 0);
    for (uint64_t r = 0; r < in->exec_rows; r++) {
        form f = form_at(in, load_word(in->exec + EXEC_BYTES * r));
        found[counter_of(&f)]++;
    }
    for (uint32_t i = 0; i < SECOND_COUNTERS; i++)
        store_counter(grid, i, load_counter(grid, i) + found[i]);
    return answer(ACCEPTED, 0, 0, 0);
}

/* What is left to do for a judge's answer. */
static second_answer count_judged(second_answer judged, const uint8_t *program,
                                  size_t program_len, const uint8_t *exec,
                                  size_t exec_len, uint8_t *grid)
{
    parts in = { .program = program, .instructions = program_len / FORM_BYTES,
                 .exec = exec, .exec_rows = exec_len / EXEC_BYTES };
    return judged.verdict == ACCEPTED ? count_rows(&in, grid) : judged;
}

second_answer second_count(const uint8_t *program, size_t program_len,
                           const uint8_t *memory, size_t memory_len,
                           uint64_t pc, uint64_t fp,
                           const uint8_t *exec, size_t exec_len,
                           const uint8_t *ext, size_t ext_len, uint8_t *grid)
{
    second_answer judged = second_judge(program, program_len, memory,
                                        memory_len, pc, fp, exec, exec_len,
                                        ext, ext_len);
    return count_judged(judged, program, program_len, exec, exec_len, grid);
}

second_answer second_count_sorted(const uint8_t *program, size_t program_len,
                                  const uint8_t *memory, size_t memory_len,
                                  uint64_t pc, uint64_t fp,
                                  const uint8_t *exec, size_t exec_len,
                                  const uint8_t *ext, size_t ext_len,
                                  uint8_t *grid)
{
    second_answer judged = second_judge_sorted(program, program_len, memory,
                                               memory_len, pc, fp, exec,
                                               exec_len, ext, ext_len);
    return count_judged(judged, program, program_len, exec, exec_len, grid);
}

/* The line of counter i, which is not 0; gives its length. */
static size_t write_line(uint8_t line[LONGEST_LINE], uint32_t i,
                         uint64_t counter)
{
    static const char *const kinds[] = { "add", "mul", "deref", "jump", "ext" };
    static const char *const modes[] = { "imm", "cell", "fp" };
    uint8_t *end = append(line, kinds[i / 27]);
    for (uint32_t stride = 9; stride > 0; stride /= 3) {
        end = append(end, ".");
        end = append(end, modes[i / stride % 3]);
    }
    end = append(end, "=");
    end = append_decimal(end, counter);
    end = append(end, "\n");
    return (size_t)(end - line);
}

/* Writes the report, unless to is NULL, and gives its length. */
static size_t write_report(const uint8_t *grid, uint8_t *to)
{
    uint8_t line[LONGEST_LINE];
    size_t length = 0;
    for (uint32_t i = 0; i < SECOND_COUNTERS; i++) {
        uint64_t counter = load_counter(grid, i);
        if (counter == 0)
            continue;
        size_t more = write_line(line, i, counter);
        if (to != NULL)
            memcpy(to + length, line, more);
        length += more;
    }
    return length;
}

second_answer second_report(const uint8_t *grid, uint8_t *text, size_t text_len,
                            uint64_t *written)
{
    size_t need = write_report(grid, NULL);
    *written = 0;
    if (text_len < need)
        return answer(SIZE, 5, need, 0);
    *written = write_report(grid, text);
    return answer(ACCEPTED, 0, 0, 0);
}
