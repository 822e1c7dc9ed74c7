/* Range checks (draft 0.6.0, 2.6.3) in an accepted table. */
#include "parts.h"

enum { FIND_BYTES = 8 };

static form form_of_row(const parts *in, uint64_t r)
{
    return form_at(in, load_word(in->exec + EXEC_BYTES * r));
}

/* A DEREF with beta 0.  No other kind has AUX 2, and its A is always a cell. */
static bool is_plain_deref(const form *f)
{
    return f->aux == 2 && f->b == 0;
}

/* An ADD of cell x and a cell to an immediate. */
static bool is_sum_with(uint32_t x, const form *f)
{
    return f->aux == 1 && f->fa == 0 && f->a == x && f->fb == 1 && reads_c(f);
}

/* Whether three rows from r on, all in the table, are a find; its bound.  All
 * three are in one frame, by rule 16, so offsets name cells. */
static bool find_at(const parts *in, uint64_t r, uint32_t *bound)
{
    form first = form_of_row(in, r);
    if (!is_plain_deref(&first))
        return false;
    form sum = form_of_row(in, r + 1);
    if (!is_sum_with(first.a, &sum))
        return false;
    form last = form_of_row(in, r + 2);
    *bound = sum.b + 1; /* up to p, so not modulo p */
    return is_plain_deref(&last) && last.a == sum.c;
}

/* Writes the finds, unless to is NULL, and gives their number. */
static uint64_t scan(const parts *in, uint8_t *to)
{
    uint64_t found = 0;
    for (uint64_t r = 0; r + 2 < in->exec_rows; r++) {
        uint32_t bound;
        if (!find_at(in, r, &bound))
            continue;
        if (to != NULL) {
            store_word(to + FIND_BYTES * found, (uint32_t)r);
            store_word(to + FIND_BYTES * found + 4, bound);
        }
        found++;
    }
    return found;
}

/* Where there is room for as many as a table may have, one pass does.  Of two
 * rows in a row only one is a DEREF that an ADD follows. */
static second_answer list_finds(const parts *in, uint8_t *finds, size_t len,
                                uint64_t *found)
{
    bool room_for_any = len / FIND_BYTES >= (in->exec_rows - 1) / 2;
    uint64_t number = scan(in, room_for_any ? finds : NULL);
    if (number > len / FIND_BYTES)
        return answer(LIST, 0, number, 0);
    if (!room_for_any && number != 0)
        scan(in, finds);
    *found = number;
    return answer(ACCEPTED, 0, 0, 0);
}

/* What is left to do for a judge's answer. */
static second_answer find_judged(second_answer judged, const uint8_t *program,
                                 size_t program_len, const uint8_t *exec,
                                 size_t exec_len, uint8_t *finds,
                                 size_t finds_len, uint64_t *found)
{
    parts in = { .program = program, .instructions = program_len / FORM_BYTES,
                 .exec = exec, .exec_rows = exec_len / EXEC_BYTES };
    *found = 0;
    return judged.verdict == ACCEPTED
         ? list_finds(&in, finds, finds_len, found) : judged;
}

second_answer second_ranges(const uint8_t *program, size_t program_len,
                            const uint8_t *memory, size_t memory_len,
                            uint64_t pc, uint64_t fp,
                            const uint8_t *exec, size_t exec_len,
                            const uint8_t *ext, size_t ext_len,
                            uint8_t *finds, size_t finds_len, uint64_t *found)
{
    second_answer judged = second_judge(program, program_len, memory,
                                        memory_len, pc, fp, exec, exec_len,
                                        ext, ext_len);
    return find_judged(judged, program, program_len, exec, exec_len, finds,
                       finds_len, found);
}

second_answer second_ranges_sorted(const uint8_t *program, size_t program_len,
                                   const uint8_t *memory, size_t memory_len,
                                   uint64_t pc, uint64_t fp,
                                   const uint8_t *exec, size_t exec_len,
                                   const uint8_t *ext, size_t ext_len,
                                   uint8_t *finds, size_t finds_len,
                                   uint64_t *found)
{
    second_answer judged = second_judge_sorted(program, program_len, memory,
                                               memory_len, pc, fp, exec,
                                               exec_len, ext, ext_len);
    return find_judged(judged, program, program_len, exec, exec_len, finds,
                       finds_len, found);
}
