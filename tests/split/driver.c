/* The judge of two buffers through the proved code, for tests/split.py: from standard input to standard output.
 *
 * A case is nine numbers of 8 bytes, little-endian: which parts follow, a bit for each, the others being those of the
 * case before; the start, pc and fp; and the lengths of program, public words, rest, both tables and `answer`. Then the
 * parts that follow. With one bit more the memory's two lengths are any, and its bytes are not there: another length
 * must be bad, so that none is read. It writes the verdict returned, a byte that counts the parts whose rooms have
 * changed, and the answer's room. A buffer stands in the middle of its room; bytes that no case and no call wrote are
 * 0xa5. */
#include <stdbool.h>
#include <stdio.h>
#include <string.h>

#include "../differ/library.h"
#include "../second/word.h"

enum { FOLLOW, PC, FP, PROGRAM, PUBLIC, REST, EXEC, EXT, ANSWER, NUMBERS };
enum { ROOM = 1 << 18, PARTS = ANSWER - PROGRAM, BEFORE = 16, FILL = 0xa5 };
enum { NOT_THERE = 1 << PARTS };

static uint8_t parts[PARTS][ROOM], kept[PARTS][ROOM], told[ROOM];

/* The bytes behind a part are not those of a longer one before, which a read too far would find right. */
static bool read_part(int part, uint64_t len)
{
    memset(parts[part], FILL, ROOM);
    bool good = fread(parts[part] + BEFORE, 1, len, stdin) == len;
    memcpy(kept[part], parts[part], ROOM);
    return good;
}

static bool has_room(const uint64_t n[NUMBERS], int which)
{
    bool any = (n[FOLLOW] & NOT_THERE) != 0 && (which == PUBLIC || which == REST);
    return any || n[which] <= ROOM - 2 * BEFORE;
}

static bool read_case(uint64_t n[NUMBERS])
{
    uint8_t bytes[8 * NUMBERS];
    bool good = fread(bytes, 1, sizeof bytes, stdin) == sizeof bytes;
    for (int i = 0; i < NUMBERS && good; i++) {
        n[i] = load_word(bytes + 8 * i) | (uint64_t)load_word(bytes + 8 * i + 4) << 32;
        good = i < PROGRAM || has_room(n, i);
    }
    for (int i = 0; i < PARTS && good; i++)
        if ((n[FOLLOW] >> i & 1) != 0)
            good = read_part(i, n[PROGRAM + i]);
    return good;
}

/* A part of no bytes has no pointer either. */
static const uint8_t *lent(const uint64_t n[NUMBERS], int which)
{
    return n[which] == 0 ? NULL : parts[which - PROGRAM] + BEFORE;
}

static void one_case(const uint64_t n[NUMBERS])
{
    uint8_t verdict[4];
    int changed = 0;
    memset(told, FILL, n[ANSWER] + 2 * BEFORE);
    store_word(verdict, uisnabar_judge_split(lent(n, PROGRAM), n[PROGRAM], lent(n, PUBLIC), n[PUBLIC], lent(n, REST),
                                             n[REST], n[PC], n[FP], lent(n, EXEC), n[EXEC], lent(n, EXT), n[EXT],
                                             told + BEFORE, n[ANSWER]));
    for (int i = 0; i < PARTS; i++)
        changed += memcmp(parts[i], kept[i], ROOM) != 0;
    fwrite(verdict, 1, sizeof verdict, stdout);
    putchar(changed);
    fwrite(told, 1, n[ANSWER] + 2 * BEFORE, stdout);
}

/* Ends with 2 where a case has no room or is cut. */
int main(void)
{
    uint64_t n[NUMBERS];
    int next;
    while ((next = getchar()) != EOF && ungetc(next, stdin) == next && read_case(n))
        one_case(n);
    return next != EOF || ferror(stdin) || fflush(stdout) != 0 ? 2 : 0;
}
