/* Range checks through the proved code, for tests/ranges.py: from standard input to standard output.
 *
 * A case is ten numbers of 8 bytes, little-endian: whether parts follow, 1, or are those of the case before, 0; the
 * start, pc and fp; and the lengths of the four parts, of `finds`, `found` and `answer`. Then the parts, if they
 * follow. It writes the verdict returned and a room for each of the three buffers, which stands in its middle; bytes
 * that no call wrote are 0xa5. */
#include <stdbool.h>
#include <stdio.h>
#include <string.h>

#include "../differ/library.h"
#include "../second/word.h"

enum { FOLLOW, PC, FP, PROGRAM, MEMORY, EXEC, EXT, FINDS, FOUND, ANSWER, NUMBERS };
enum { MOST = 1 << 20, PARTS = 4, BEFORE = 16, FILL = 0xa5 };

static uint8_t parts[PARTS][MOST], rooms[NUMBERS][MOST];

static bool read_case(uint64_t n[NUMBERS])
{
    uint8_t bytes[8 * NUMBERS];
    bool good = fread(bytes, 1, sizeof bytes, stdin) == sizeof bytes;
    for (int i = 0; i < NUMBERS && good; i++) {
        n[i] = load_word(bytes + 8 * i) | (uint64_t)load_word(bytes + 8 * i + 4) << 32;
        good = i < PROGRAM || n[i] <= MOST - 2 * BEFORE;
    }
    for (int i = 0; i < PARTS && good && n[FOLLOW] == 1; i++)
        good = fread(parts[i], 1, n[PROGRAM + i], stdin) == n[PROGRAM + i];
    return good;
}

static void write_room(int which, uint64_t len)
{
    fwrite(rooms[which], 1, len + 2 * BEFORE, stdout);
}

static void one_case(const uint64_t n[NUMBERS])
{
    uint8_t verdict[4];
    for (int i = FINDS; i <= ANSWER; i++)
        memset(rooms[i], FILL, n[i] + 2 * BEFORE);
    store_word(verdict, uisnabar_ranges(parts[0], n[PROGRAM], parts[1], n[MEMORY], n[PC], n[FP], parts[2], n[EXEC],
                                        parts[3], n[EXT], rooms[FINDS] + BEFORE, n[FINDS], rooms[FOUND] + BEFORE,
                                        n[FOUND], rooms[ANSWER] + BEFORE, n[ANSWER]));
    fwrite(verdict, 1, sizeof verdict, stdout);
    for (int i = FINDS; i <= ANSWER; i++)
        write_room(i, n[i]);
}

/* Ends with 2 where a case has no room or is cut. */
int main(void)
{
    uint64_t n[NUMBERS];
    int next;
    while ((next = getchar()) != EOF && ungetc(next, stdin) == next && read_case(n))
        one_case(n);
    return next != EOF || ferror(stdin) || fflush(stdout) != 0 ? 2 : 0;
}
