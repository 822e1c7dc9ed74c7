/* Old programs through the proved code, for tests/editions.py: from standard input to standard output.
 *
 * A case is five numbers of 8 bytes, little-endian: the lengths of old, program and memory, pc and fp; then the bytes
 * of old and of memory. For each it writes the translation's answer and program; the answer and the execution table of
 * the tabler on that program; and the judge's answer. What is not called, or writes nothing, leaves bytes 0xa5. */
#include <stdbool.h>
#include <stdio.h>
#include <string.h>

#include "../differ/library.h"
#include "../second/word.h"

enum { OLD, PROGRAM, MEMORY, PC, FP, NUMBERS };
enum { ROWS = 256, MOST = 1 << 16, FILL = 0xa5 };

static uint8_t old[MOST], program[MOST], memory[MOST], exec[32 * ROWS], ext[120 * ROWS];
static uint8_t answers[3][UISNABAR_ANSWER_BYTES];

static bool read_numbers(uint64_t n[NUMBERS])
{
    uint8_t bytes[8 * NUMBERS];
    if (fread(bytes, 1, sizeof bytes, stdin) != sizeof bytes)
        return false;
    for (int i = 0; i < NUMBERS; i++)
        n[i] = load_word(bytes + 8 * i) | (uint64_t)load_word(bytes + 8 * i + 4) << 32;
    return true;
}

/* Whether what a call returns is what its answer says. */
static bool told(const uint8_t *answer, uint32_t returned)
{
    return load_word(answer) == returned;
}

/* Translates, and where that is accepted tables and judges. */
static bool work(const uint64_t n[NUMBERS])
{
    uint32_t verdict = uisnabar_translate(old, n[OLD], program, n[PROGRAM], answers[0], sizeof answers[0]);
    if (verdict != UISNABAR_ACCEPTED || !told(answers[0], verdict))
        return told(answers[0], verdict);
    verdict = probe_table(program, n[PROGRAM], memory, n[MEMORY], n[PC], n[FP], exec, sizeof exec, ext, sizeof ext,
                          answers[1], sizeof answers[1]);
    if (verdict != UISNABAR_ACCEPTED || !told(answers[1], verdict))
        return told(answers[1], verdict);
    verdict = uisnabar_judge(program, n[PROGRAM], memory, n[MEMORY], n[PC], n[FP], exec, sizeof exec, ext, sizeof ext,
                             answers[2], sizeof answers[2]);
    return told(answers[2], verdict);
}

static void fill(void)
{
    memset(program, FILL, sizeof program);
    memset(exec, FILL, sizeof exec);
    memset(ext, FILL, sizeof ext);
    memset(answers, FILL, sizeof answers);
}

static void write_all(const uint64_t n[NUMBERS])
{
    fwrite(answers[0], 1, sizeof answers[0], stdout);
    fwrite(program, 1, n[PROGRAM], stdout);
    fwrite(answers[1], 1, sizeof answers[1], stdout);
    fwrite(exec, 1, sizeof exec, stdout);
    fwrite(answers[2], 1, sizeof answers[2], stdout);
}

/* Ends with 2 where a case has no room or is cut, 1 where a call returns another verdict than it writes. */
int main(void)
{
    uint64_t n[NUMBERS];
    while (read_numbers(n)) {
        if (n[OLD] > MOST || n[PROGRAM] > MOST || n[MEMORY] > MOST || fread(old, 1, n[OLD], stdin) != n[OLD]
            || fread(memory, 1, n[MEMORY], stdin) != n[MEMORY])
            return 2;
        fill();
        if (!work(n))
            return 1;
        write_all(n);
    }
    return ferror(stdin) || fflush(stdout) != 0 ? 2 : 0;
}
