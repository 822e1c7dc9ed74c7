/* Jumps and hosts through the proved code, for tests/streams.py: from standard input to standard output.
 *
 * A case is six numbers of 8 bytes, little-endian: what is asked, a state, two numbers, and the lengths of `next` and
 * `answer`. Asked for a jump, a host or two jumps, the second from where the first went, it writes the verdict that
 * the last call returned and a room for each of the two buffers, which stands in its middle; bytes that no call wrote
 * are 0xa5. Asked to walk, it jumps from the state by every number up to the first and advances beside it one by one,
 * and writes how many jumps differ, the least number of draws that does, and the state after the last advance. */
#include <stdbool.h>
#include <stdio.h>
#include <string.h>

#include "../differ/library.h"
#include "../second/word.h"

enum { ASKED, STATE, FIRST, SECOND, NEXT, ANSWER, NUMBERS };
enum { JUMP, HOST, TWICE, WALK };
enum { FIXED = 64, BEFORE = 16, FILL = 0xa5 };

static uint8_t next[FIXED], answer[FIXED];

static uint64_t load_number(const uint8_t *from)
{
    return load_word(from) | (uint64_t)load_word(from + 4) << 32;
}

static bool read_numbers(uint64_t n[NUMBERS])
{
    uint8_t bytes[8 * NUMBERS];
    if (fread(bytes, 1, sizeof bytes, stdin) != sizeof bytes)
        return false;
    for (int i = 0; i < NUMBERS; i++)
        n[i] = load_number(bytes + 8 * i);
    return n[NEXT] <= FIXED - 2 * BEFORE && n[ANSWER] <= FIXED - 2 * BEFORE;
}

static void write_number(uint64_t number)
{
    uint8_t bytes[8];
    store_word(bytes, (uint32_t)number);
    store_word(bytes + 4, (uint32_t)(number >> 32));
    fwrite(bytes, 1, sizeof bytes, stdout);
}

/* One call, in buffers that no call has written. */
static uint32_t call(uint64_t asked, uint64_t state, uint64_t number, size_t next_len, size_t answer_len)
{
    memset(next, FILL, sizeof next);
    memset(answer, FILL, sizeof answer);
    return (asked == HOST ? uisnabar_host : uisnabar_jump)(state, number, next + BEFORE, next_len, answer + BEFORE,
                                                           answer_len);
}

static void single(const uint64_t n[NUMBERS])
{
    uint32_t verdict = call(n[ASKED], n[STATE], n[FIRST], n[NEXT], n[ANSWER]);
    if (n[ASKED] == TWICE)
        verdict = call(JUMP, load_number(next + BEFORE), n[SECOND], n[NEXT], n[ANSWER]);
    write_number(verdict);
    fwrite(next, 1, sizeof next, stdout);
    fwrite(answer, 1, sizeof answer, stdout);
}

/* Whether a jump gives that state, and says that it is accepted. */
static bool jumps_to(uint64_t from, uint64_t draws, uint64_t to)
{
    static const uint8_t accepted[UISNABAR_ANSWER_BYTES];
    uint32_t verdict = call(JUMP, from, draws, UISNABAR_NEXT_BYTES, UISNABAR_ANSWER_BYTES);
    return verdict == UISNABAR_ACCEPTED && load_number(next + BEFORE) == to
        && memcmp(answer + BEFORE, accepted, sizeof accepted) == 0;
}

static void walk(const uint64_t n[NUMBERS])
{
    uint64_t state = n[STATE], differing = 0, least = 0;
    for (uint64_t draws = 0; draws <= n[FIRST]; draws++) {
        if (!jumps_to(n[STATE], draws, state) && differing++ == 0)
            least = draws;
        state = state * 6364136223846793005u + 1442695040888963407u;
    }
    write_number(differing);
    write_number(least);
    write_number(state);
}

/* Ends with 2 where a case has no room or is cut. */
int main(void)
{
    uint64_t n[NUMBERS];
    while (read_numbers(n))
        (n[ASKED] == WALK ? walk : single)(n);
    return !feof(stdin) || fflush(stdout) != 0 ? 2 : 0;
}
