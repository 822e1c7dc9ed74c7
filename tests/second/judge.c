/* The judge of a memory in one buffer: verdicts in number order. */
#include "parts.h"

/* Address below M and value equal to the cell. */
static bool cell_is(const parts *in, uint32_t index, uint32_t value)
{
    return index < in->cells && cell(in, index) == value;
}

static bool five_cells_are(const parts *in, uint32_t index, element value)
{
    return (uint64_t)index + 5 <= in->cells
        && element_same(five_cells(in, index), value);
}

#include "rows.h"

static second_answer judge(const parts *in, const size_t len[4], uint64_t pc,
                           uint64_t fp, bool sorted)
{
    const uint8_t *bytes[4] = { in->program, in->memory, in->exec, in->ext };
    second_answer out = second_sizes(len[0], len[1], len[2], len[3]);
    for (uint32_t i = 0; i < 4 && out.verdict == ACCEPTED; i++)
        out = second_words(i + 1, bytes[i], len[i]);
    if (out.verdict == ACCEPTED)
        out = judge_parts(in, pc, fp, sorted);
    return out;
}

second_answer second_judge(const uint8_t *program, size_t program_len,
                           const uint8_t *memory, size_t memory_len,
                           uint64_t pc, uint64_t fp,
                           const uint8_t *exec, size_t exec_len,
                           const uint8_t *ext, size_t ext_len)
{
    parts in = { program, memory, exec, ext, program_len / FORM_BYTES,
                 memory_len / 4, exec_len / EXEC_BYTES, ext_len / EXT_BYTES,
                 NULL, memory_len / 4 };
    const size_t len[4] = { program_len, memory_len, exec_len, ext_len };
    return judge(&in, len, pc, fp, false);
}

second_answer second_judge_sorted(const uint8_t *program, size_t program_len,
                                  const uint8_t *memory, size_t memory_len,
                                  uint64_t pc, uint64_t fp,
                                  const uint8_t *exec, size_t exec_len,
                                  const uint8_t *ext, size_t ext_len)
{
    parts in = { program, memory, exec, ext, program_len / FORM_BYTES,
                 memory_len / 4, exec_len / EXEC_BYTES, ext_len / EXT_BYTES,
                 NULL, memory_len / 4 };
    const size_t len[4] = { program_len, memory_len, exec_len, ext_len };
    return judge(&in, len, pc, fp, true);
}
