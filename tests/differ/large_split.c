/* A memory of 2^22 words, cut behind each power of two, under tables of many rows. */
#include <inttypes.h>
#include <stdio.h>
#include <stdlib.h>
#include <string.h>

#include "../speed/inputs.h"
#include "library.h"
#include "tries.h"

enum { LARGE_ROWS = 14, LARGE_CELLS = 22, FREE_CELL = 1 << 17 };

/* The library and the second on the two buffers, and the library on the two joined; both buffers are copies, so that
 * neither is followed by the other. */
static bool judge_cut(const speed_input *in, unsigned k, uint32_t verdict)
{
    uint8_t told[ANSWER_BYTES] = {0}, want[ANSWER_BYTES], whole[ANSWER_BYTES] = {0};
    size_t public_len = (size_t)4 << k, rest_len = in->memory_len - public_len;
    uint8_t *first = malloc(public_len), *rest = malloc(rest_len);
    if (first == NULL || rest == NULL)
        abort();
    memcpy(first, in->memory, public_len);
    memcpy(rest, in->memory + public_len, rest_len);
    uint32_t got = uisnabar_judge_split(in->program, in->program_len, first, public_len, rest, rest_len, 0, 0, in->exec,
                                        in->exec_len, in->ext, in->ext_len, told, sizeof told);
    second_answer a = second_judge_split_sorted(in->program, in->program_len, first, public_len, rest, rest_len, 0, 0,
                                                in->exec, in->exec_len, in->ext, in->ext_len);
    uint32_t joined = uisnabar_judge(in->program, in->program_len, in->memory, in->memory_len, 0, 0, in->exec,
                                     in->exec_len, in->ext, in->ext_len, whole, sizeof whole);
    store_answer(want, a);
    free(first);
    free(rest);
    bool good = got == verdict && a.verdict == verdict && joined == verdict
        && memcmp(told, want, sizeof told) == 0 && memcmp(told, whole, sizeof told) == 0;
    if (!good)
        printf("large, cut behind 2^%u words: verdict %" PRIu32 ", second %" PRIu32 " part %" PRIu32 " place %" PRIu32
               ", joined %" PRIu32 ": DIFFERENCE\n", k, got, a.verdict, a.part, a.place, joined);
    return good;
}

static uint8_t *cell_at(const speed_input *in, size_t at)
{
    return in->memory + 4 * at;
}

/* The last rows look up the seam's cell and five cells across it, which are right; then the last of these is off, then
 * the execution row's is too, and then the seam's cell is no word. */
static bool judge_seam(const speed_input *in, unsigned k)
{
    size_t seam = (size_t)1 << k, from = seam < 3 ? 0 : seam - 3;
    uint8_t *exec = in->exec + in->exec_len - 32, *ext = in->ext + in->ext_len - 120;
    uint32_t word = load_word(cell_at(in, seam)), last = load_word(cell_at(in, from + 4));
    store_word(exec + 4 * ADDR_C, (uint32_t)seam);
    store_word(exec + 4 * VALUE_C, word);
    store_word(ext + 4 * X_IDX_R, (uint32_t)from);
    memcpy(ext + 4 * X_RES, cell_at(in, from), 20);
    memcpy(ext + 4 * X_COMP, cell_at(in, from), 20);
    bool good = judge_cut(in, k, ACCEPTED);
    store_word(ext + 4 * (X_RES + 4), word_add(last, 1));
    good &= judge_cut(in, k, EXTENSION);
    store_word(exec + 4 * VALUE_C, word_add(word, 1));
    good &= judge_cut(in, k, EXEC);
    store_word(cell_at(in, seam), P);
    good &= judge_cut(in, k, WORD);
    store_word(cell_at(in, seam), word);
    return good;
}

bool try_large_splits(void)
{
    speed_input in = speed_build(LARGE_ROWS, LARGE_ROWS - 2, LARGE_CELLS, 1);
    source random = { .state = LARGE_CELLS };
    for (size_t at = FREE_CELL; at < in.cells; at++)
        store_word(cell_at(&in, at), 1 + below(&random, P - 1));
    bool good = second_table(in.program, in.program_len, in.memory, in.memory_len, 0, 0, in.exec, in.exec_len, in.ext,
                             in.ext_len).verdict == ACCEPTED;
    for (unsigned k = 0; k < LARGE_CELLS; k++)
        good &= judge_seam(&in, k);
    speed_free(&in);
    printf("large: memories in two buffers, H 2^%d, m %d%s\n", LARGE_ROWS, LARGE_CELLS, good ? "" : ": DIFFERENCE");
    return good;
}
