/* Judges what `./bench table` wrote: program, memory and both tables on standard input, at m = 10 and H = K = 256.
 * Exit status: 0 accepted, 1 refused, 2 could not.
 *
 *     ./bench lib
 *     cc -Iinclude -o driver examples/driver.c target/staticlib/libuisnabar.a
 *     ./bench table shelf/seed-0.label | ./driver
 *
 * Where the library is installed: cc -o driver driver.c $(pkg-config --cflags --libs uisnabar)
 */
#include <stdio.h>

#include "uisnabar.h"

enum { MEMORY = 4096, EXEC = 32 * 256, EXT = 120 * 256, PROGRAM = 48 * 125 };

static uint32_t number(const uint8_t *at)
{
    return (uint32_t)at[0] | (uint32_t)at[1] << 8 | (uint32_t)at[2] << 16 | (uint32_t)at[3] << 24;
}

int main(void)
{
    static uint8_t parts[PROGRAM + MEMORY + EXEC + EXT + 1];
    uint8_t answer[UISNABAR_ANSWER_BYTES];
    size_t got = fread(parts, 1, sizeof parts, stdin);
    if (got < MEMORY + EXEC + EXT || got == sizeof parts) {
        fprintf(stderr, "not what the table program writes: %zu bytes\n", got);
        return 2;
    }
    size_t program_len = got - MEMORY - EXEC - EXT;
    const uint8_t *memory = parts + program_len, *exec = memory + MEMORY, *ext = exec + EXEC;
    uint32_t verdict = uisnabar_judge(parts, program_len, memory, MEMORY, 0, 0, exec, EXEC, ext, EXT, answer, sizeof answer);
    if (verdict == UISNABAR_ANSWER) /* nothing was written, so there is no number to print */
        puts(uisnabar_name(verdict));
    else
        printf("%s part %u place %u rule %u expected %u found %u\n", uisnabar_name(verdict), number(answer + 4), number(answer + 8),
               number(answer + 12), number(answer + 16), number(answer + 20));
    if (fflush(stdout) != 0)
        return 2;
    return verdict == UISNABAR_ACCEPTED ? 0 : 1;
}
