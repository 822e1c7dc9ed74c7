/* The judge of a memory in two buffers, which are never joined: each cell is read
 * by its number. */
#include "parts.h"

/* Address below M and value equal to the cell. */
static bool cell_is(const parts *in, uint32_t index, uint32_t value)
{
    return index < in->cells && cell_of_either(in, index) == value;
}

static bool five_cells_are(const parts *in, uint32_t index, element value)
{
    if ((uint64_t)index + 5 > in->cells)
        return false;
    for (uint32_t k = 0; k < 5; k++)
        if (cell_of_either(in, (uint64_t)index + k) != value.at[k])
            return false;
    return true;
}

#include "rows.h"

/* The first has 2^k words and the other the rest of 2^m, k below m. */
static bool cut_fits(size_t public_len, size_t rest_len)
{
    for (int m = 8; m <= 29; m++)
        for (int k = 0; k < m; k++)
            if (public_len == (uint64_t)4 << k
                && rest_len == ((uint64_t)4 << m) - ((uint64_t)4 << k))
                return true;
    return false;
}

/* WORD for the memory, whose words are counted as if joined. */
static second_answer both_words(const uint8_t *public_words, size_t public_len,
                                const uint8_t *rest, size_t rest_len)
{
    second_answer out = second_words(2, public_words, public_len);
    if (out.verdict == ACCEPTED) {
        out = second_words(2, rest, rest_len);
        if (out.verdict == WORD)
            out.place += (uint32_t)(public_len / 4);
    }
    return out;
}

/* len has the program's length, the two of the memory and the tables'. */
static second_answer judge_split(const parts *in, const size_t len[5],
                                 uint64_t pc, uint64_t fp, bool sorted)
{
    /* no part has length 0, so it stands for two that do not fit */
    size_t joined = cut_fits(len[1], len[2]) ? len[1] + len[2] : 0;
    second_answer out = second_sizes(len[0], joined, len[3], len[4]);
    if (out.verdict == ACCEPTED)
        out = second_words(1, in->program, len[0]);
    if (out.verdict == ACCEPTED)
        out = both_words(in->memory, len[1], in->rest, len[2]);
    if (out.verdict == ACCEPTED)
        out = second_words(3, in->exec, len[3]);
    if (out.verdict == ACCEPTED)
        out = second_words(4, in->ext, len[4]);
    if (out.verdict == ACCEPTED)
        out = judge_parts(in, pc, fp, sorted);
    return out;
}

second_answer second_judge_split(const uint8_t *program, size_t program_len,
                                 const uint8_t *public_words, size_t public_len,
                                 const uint8_t *rest, size_t rest_len,
                                 uint64_t pc, uint64_t fp,
                                 const uint8_t *exec, size_t exec_len,
                                 const uint8_t *ext, size_t ext_len)
{
    parts in = { program, public_words, exec, ext, program_len / FORM_BYTES,
                 public_len / 4 + rest_len / 4, exec_len / EXEC_BYTES,
                 ext_len / EXT_BYTES, rest, public_len / 4 };
    const size_t len[5] = { program_len, public_len, rest_len, exec_len,
                            ext_len };
    return judge_split(&in, len, pc, fp, false);
}

second_answer second_judge_split_sorted(
    const uint8_t *program, size_t program_len, const uint8_t *public_words,
    size_t public_len, const uint8_t *rest, size_t rest_len, uint64_t pc,
    uint64_t fp, const uint8_t *exec, size_t exec_len, const uint8_t *ext,
    size_t ext_len)
{
    parts in = { program, public_words, exec, ext, program_len / FORM_BYTES,
                 public_len / 4 + rest_len / 4, exec_len / EXEC_BYTES,
                 ext_len / EXT_BYTES, rest, public_len / 4 };
    const size_t len[5] = { program_len, public_len, rest_len, exec_len,
                            ext_len };
    return judge_split(&in, len, pc, fp, true);
}
