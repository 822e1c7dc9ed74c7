/* Programs and listings through the proved code, for tests/listings.py: from standard input to standard output.
 *
 * A case is five numbers of 8 bytes, little-endian: what is asked, the length of what is read, and those of the room
 * for what is written, of `written` and of `answer`; then the bytes that are read. Asked to list or to read, it writes
 * the verdict returned and the three buffers; bytes that no call wrote are 0xa5. Asked for all cuts, or all changes of
 * a byte, it reads each such text, in the room and with buffers of the right length, and writes of each the answer and
 * `written`, and where it is accepted the room. */
#include <stdbool.h>
#include <stdio.h>
#include <string.h>

#include "../differ/library.h"
#include "../second/word.h"

enum { ASKED, LENGTH, ROOM, WRITTEN, ANSWER, NUMBERS };
enum { LIST, READ, CUTS, CHANGES };
enum { MOST = 1 << 20, FIXED = 64, FILL = 0xa5 };

static uint8_t from[MOST], room[MOST], filled[MOST], written[FIXED], answer[FIXED];

static bool read_numbers(uint64_t n[NUMBERS])
{
    uint8_t bytes[8 * NUMBERS];
    if (fread(bytes, 1, sizeof bytes, stdin) != sizeof bytes)
        return false;
    for (int i = 0; i < NUMBERS; i++)
        n[i] = load_word(bytes + 8 * i) | (uint64_t)load_word(bytes + 8 * i + 4) << 32;
    return n[LENGTH] <= MOST && n[ROOM] <= MOST && n[WRITTEN] <= FIXED && n[ANSWER] <= FIXED
        && fread(from, 1, n[LENGTH], stdin) == n[LENGTH];
}

static void fill(const uint64_t n[NUMBERS])
{
    memset(room, FILL, n[ROOM]);
    memset(written, FILL, sizeof written);
    memset(answer, FILL, sizeof answer);
}

/* One call, whose verdict may be that nothing is written. */
static bool single(const uint64_t n[NUMBERS])
{
    uint8_t verdict[4];
    fill(n);
    store_word(verdict, (n[ASKED] == LIST ? uisnabar_list : uisnabar_read_listing)(
                            from, n[LENGTH], room, n[ROOM], written, n[WRITTEN], answer, n[ANSWER]));
    fwrite(verdict, 1, sizeof verdict, stdout);
    fwrite(answer, 1, n[ANSWER], stdout);
    fwrite(written, 1, n[WRITTEN], stdout);
    fwrite(room, 1, n[ROOM], stdout);
    return true;
}

/* One text of a sweep; false where the verdict returned is another than the one written, or a refusal wrote. */
static bool read_one(const uint64_t n[NUMBERS], size_t length)
{
    fill(n);
    uint32_t verdict = uisnabar_read_listing(from, length, room, n[ROOM], written, UISNABAR_WRITTEN_BYTES, answer,
                                             UISNABAR_ANSWER_BYTES);
    fwrite(answer, 1, UISNABAR_ANSWER_BYTES, stdout);
    fwrite(written, 1, UISNABAR_WRITTEN_BYTES, stdout);
    if (verdict == UISNABAR_ACCEPTED)
        fwrite(room, 1, n[ROOM], stdout);
    return load_word(answer) == verdict && (verdict == UISNABAR_ACCEPTED || memcmp(room, filled, n[ROOM]) == 0);
}

static bool sweep(const uint64_t n[NUMBERS])
{
    bool good = true;
    for (size_t at = 0; n[ASKED] == CUTS && at <= n[LENGTH]; at++)
        good = read_one(n, at) && good;
    for (size_t at = 0; n[ASKED] == CHANGES && at < n[LENGTH]; at++) {
        uint8_t was = from[at];
        for (int byte = 0; byte < 256; byte++) {
            from[at] = (uint8_t)byte;
            good = read_one(n, n[LENGTH]) && good;
        }
        from[at] = was;
    }
    return good;
}

/* Ends with 2 where a case has no room or is cut, 1 where a call did what no answer tells. */
int main(void)
{
    uint64_t n[NUMBERS];
    memset(filled, FILL, sizeof filled);
    while (read_numbers(n))
        if (!(n[ASKED] <= READ ? single : sweep)(n))
            return 1;
    return !feof(stdin) || fflush(stdout) != 0 ? 2 : 0;
}
