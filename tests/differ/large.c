/* Tables of 16,383 and of 32,767 groups: in another order than the pushes, the judge's bus is settled by several rounds, and where it does
 * not balance by several windows. Each is counted too. */
#include <inttypes.h>
#include <stdio.h>
#include <string.h>

#include "../speed/inputs.h"
#include "library.h"
#include "tries.h"

enum { GROUP = 4 * 120 };

typedef struct {
    const char *name;
    uint32_t verdict; /* both must give it */
} expected;

/* The library's count gives the same answer, and from a fresh grid all rows or none. */
static bool counts(const speed_input *in, const uint8_t *ext, const uint8_t answer[ANSWER_BYTES],
                   const uint8_t mirror[SECOND_GRID_BYTES])
{
    uint8_t told[ANSWER_BYTES] = {0}, bytes[SECOND_GRID_BYTES] = {0};
    uint32_t verdict = uisnabar_count(in->program, in->program_len, in->memory, in->memory_len, 0, 0, in->exec, in->exec_len, ext,
                                      in->ext_len, bytes, sizeof bytes, told, sizeof told);
    grid g;
    grid_load(&g, bytes);
    return verdict == load_word(answer) && memcmp(told, answer, sizeof told) == 0 && memcmp(bytes, mirror, sizeof bytes) == 0
        && total_of(&g).low == (verdict == ACCEPTED ? in->height : 0);
}

/* Both judges and both counts on the input with this extension table; false where they differ or the verdict is another. A count from a fresh
 * grid has the judge's answer, so the second judges once. */
static bool judge_both(const speed_input *in, const uint8_t *ext, expected e)
{
    uint8_t first[ANSWER_BYTES] = {0}, second[ANSWER_BYTES], mirror[SECOND_GRID_BYTES] = {0};
    uint32_t verdict = uisnabar_judge(in->program, in->program_len, in->memory, in->memory_len, 0, 0, in->exec, in->exec_len, ext,
                                      in->ext_len, first, sizeof first);
    second_answer a = second_count_sorted(in->program, in->program_len, in->memory, in->memory_len, 0, 0, in->exec, in->exec_len, ext,
                                          in->ext_len, mirror);
    store_answer(second, a);
    bool good = verdict == a.verdict && verdict == e.verdict && memcmp(first, second, sizeof first) == 0;
    bool counted = counts(in, ext, second, mirror);
    printf("large, %s: verdict %" PRIu32 ", second %" PRIu32 " part %" PRIu32 " place %" PRIu32 "%s%s\n", e.name, verdict, a.verdict, a.part,
           a.place, good ? "" : ": DIFFERENCE", counted ? "" : ": DIFFERENCE IN THE COUNT");
    return good && counted;
}

/* The last words of both tables are off, and the last row looks up the last cells. */
static bool lookups_both(const speed_input *in)
{
    uint8_t *exec = in->exec + in->exec_len - 32, *ext = in->ext + in->ext_len - 120, before[2][120];
    memcpy(before[0], exec, 32);
    memcpy(before[1], ext, 120);
    store_word(exec + 4 * ADDR_C, (uint32_t)in->cells - 1);
    store_word(exec + 4 * VALUE_C, P - 1);
    store_word(ext + 4 * X_IDX_R, (uint32_t)in->cells - 5);
    memcpy(ext + 4 * X_RES, in->memory + 4 * (in->cells - 5), 20);
    store_word(ext + 4 * (X_RES + 4), P - 1);
    bool good = judge_both(in, in->ext, (expected){"the last execution row looks up the last cell", EXEC});
    memcpy(exec, before[0], 32);
    good &= judge_both(in, in->ext, (expected){"the last extension row looks up the last cells", EXTENSION});
    memcpy(ext, before[1], 120);
    return good;
}

static bool try_size(unsigned height_log)
{
    speed_input in = speed_build(height_log, height_log - 2, height_log + 2, 1);
    uint32_t tabled = second_table(in.program, in.program_len, in.memory, in.memory_len, 0, 0, in.exec, in.exec_len, in.ext, in.ext_len)
                          .verdict;
    printf("large: H 2^%u, K 2^%u\n", height_log, height_log - 2);
    bool good = tabled == ACCEPTED;
    good &= judge_both(&in, in.ext, (expected){"in order", ACCEPTED});
    good &= lookups_both(&in);
    speed_shuffle(&in, 2);
    good &= judge_both(&in, in.shuffled, (expected){"shuffled", ACCEPTED});
    /* a late group once more, in the place of another */
    memcpy(in.shuffled + (size_t)GROUP * 9000, in.shuffled + (size_t)GROUP * 12000, GROUP);
    good &= judge_both(&in, in.shuffled, (expected){"shuffled, one group twice", BUS});
    speed_unpull(&in);
    good &= judge_both(&in, in.shuffled, (expected){"last push unequal", BUS});
    /* the last group in the place of the first: its pull is one too many, and the first's push is not pulled */
    memcpy(in.shuffled, in.ext, in.ext_len);
    memcpy(in.shuffled, in.ext + (size_t)GROUP * (in.height / 16 - 2), GROUP);
    good &= judge_both(&in, in.shuffled, (expected){"first push unequal", BUS});
    speed_free(&in);
    return good;
}

/* Every row pushes and few are pulled; and the same rows, all of them but one balanced by a table of the same height. */
static bool try_dense(unsigned height_log, unsigned ext_log)
{
    speed_input in = speed_dense(height_log, ext_log);
    printf("large: H 2^%u, K 2^%u, each row pushes\n", height_log, ext_log);
    bool good = judge_both(&in, in.ext, (expected){"each row pushes", height_log == ext_log ? ACCEPTED : BUS});
    /* the padding row pulls too, a tuple whose last cell is no push's */
    store_word(in.ext + 120 * (in.ext_height - 1) + 4 * 1, 1);
    store_word(in.ext + 120 * (in.ext_height - 1) + 4 * 7, (uint32_t)in.cells - 6);
    good &= judge_both(&in, in.ext, (expected){"and a pull that no row pushes", BUS});
    speed_free(&in);
    return good;
}

/* Groups for three rounds, and for twice as many; and rows that all push, where the last pull alone is unequal and where pushes are. */
bool try_large(void)
{
    bool good = try_size(18);
    good &= try_size(19);
    good &= try_dense(14, 14);
    good &= try_dense(16, 14);
    good &= try_large_olds();
    good &= try_large_listings();
    good &= try_large_ranges();
    return try_large_splits() && good;
}
