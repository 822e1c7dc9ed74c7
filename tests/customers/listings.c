/* What a driver reads of uisnabar_list and uisnabar_read_listing, byte for byte: lines and words by hand from documents
 * 01 and 02, buffers of every length, and which refusal is told first. Each fault is a line; the last line has the
 * counts. */
#include <stdio.h>
#include <stdlib.h>
#include <string.h>

#include "uisnabar.h"

#define LONGEST "op=xmul a=cell:2130706432 b=cell:2130706432 c=cell:2130706432 be=1 n=1048576\n"
enum { P = 2130706433, TOP = P - 1, INSTRUCTION = 48, MOST = 1 << 20, UNTOUCHED = 0xa5, ROOM = 1200, SMALL = 40 };

static const struct {
    const char *line;
    uint32_t words[12];
} pairs[] = {
    {"op=add a=cell:1 b=imm:2 c=fp:3\n", {1, 2, 3, 0, 1, 0, 1, 0, 0, 0, 1, 0}},
    {"op=mul a=imm:0 b=cell:2130706432 c=imm:10\n", {0, TOP, 10, 1, 0, 1, 0, 0, 1, 0, 0, 0}},
    {"op=deref a=cell:4 b=imm:5 c=cell:6\n", {4, 5, 6, 0, 1, 0, 0, 0, 0, 0, 2, 0}},
    {"op=jump a=imm:1 b=imm:0 c=fp:0\n", {1, 0, 0, 1, 1, 0, 1, 0, 0, 1, 0, 0}},
    {"op=xadd a=imm:1 b=cell:2 c=imm:3 be=0 n=3\n", {1, 2, 3, 1, 0, 1, 0, 0, 0, 0, 0, 100}},
    {"op=xmul a=fp:1 b=fp:2 c=cell:3 be=1 n=4\n", {1, 2, 3, 0, 0, 0, 0, 1, 0, 0, 0, 138}},
    {"op=xpeq a=cell:1 b=imm:2 c=fp:3 be=0 n=3\n", {1, 2, 3, 0, 1, 0, 1, 0, 0, 0, 0, 112}},
    {LONGEST, {TOP, TOP, TOP, 0, 0, 0, 0, 0, 0, 0, 0, 33554442}},
};
enum { PAIRS = sizeof pairs / sizeof pairs[0] };

typedef uint32_t called(const uint8_t *from, size_t from_len, uint8_t *to, size_t to_len, uint8_t *written, size_t written_len,
                        uint8_t *answer, size_t answer_len);
struct bytes {
    const void *at;
    size_t len;
};
static struct bytes text, program; /* all pairs in a row */
static unsigned tried, faults;

static void check(const char *name, size_t number, int holds)
{
    tried++;
    if (!holds && ++faults)
        printf("%s, %zu\n", name, number);
}

static void put(uint8_t *at, uint64_t number, int bytes)
{
    for (int i = 0; i < bytes; i++)
        at[i] = (uint8_t)(number >> 8 * i);
}

/* the verdict, the answer, how many bytes were written, and every byte of a buffer of so many, at no alignment */
static void asked(const char *name, called *call, struct bytes from, size_t room, uint32_t verdict, uint32_t part, uint32_t place,
                  struct bytes wanted)
{
    uint8_t to[ROOM], answer[SMALL], written[SMALL], to_be[ROOM], answer_to_be[SMALL], written_to_be[SMALL];
    memset(to, UNTOUCHED, ROOM), memset(answer, UNTOUCHED, SMALL), memset(written, UNTOUCHED, SMALL);
    memset(to_be, UNTOUCHED, ROOM), memset(answer_to_be, UNTOUCHED, SMALL), memset(written_to_be, UNTOUCHED, SMALL);
    if (wanted.len > 0)
        memcpy(to_be + 1, wanted.at, wanted.len);
    memset(answer_to_be + 1, 0, UISNABAR_ANSWER_BYTES);
    put(answer_to_be + 1, verdict, 4), put(answer_to_be + 5, part, 4), put(answer_to_be + 9, place, 4);
    put(written_to_be + 1, wanted.len, 8);
    uint32_t returned = call(from.at, from.len, to + 1, room, written + 1, UISNABAR_WRITTEN_BYTES, answer + 1, UISNABAR_ANSWER_BYTES);
    check(name, room, returned == verdict && memcmp(to, to_be, ROOM) == 0 && memcmp(answer, answer_to_be, SMALL) == 0 &&
                          memcmp(written, written_to_be, SMALL) == 0);
}

/* each length of the two buffers that have one: all but it are ANSWER, whatever is handed in, and nothing is written */
static void lengths(const char *name, called *call, struct bytes from)
{
    uint8_t held[3 * SMALL], kept[3 * SMALL];
    memset(kept, UNTOUCHED, sizeof kept);
    for (size_t written = 0; written <= SMALL; written++)
        for (size_t answer = 0; answer <= SMALL; answer++) {
            memset(held, UNTOUCHED, sizeof held);
            uint32_t verdict = call(from.at, from.len, held, SMALL, held + SMALL, written, held + 2 * SMALL, answer);
            int fit = written == UISNABAR_WRITTEN_BYTES && answer == UISNABAR_ANSWER_BYTES;
            check(name, 100 * written + answer,
                  fit ? verdict != UISNABAR_ANSWER : verdict == UISNABAR_ANSWER && memcmp(held, kept, sizeof held) == 0);
        }
}

/* a listing and its program into buffers of every length: SHORT with the bytes needed, or whole, later bytes kept */
static void rooms(const char *name, struct bytes listing, struct bytes words)
{
    static const struct bytes none;
    for (size_t room = 0; room + 2 < ROOM; room++) {
        int fits = room >= listing.len;
        asked(name, uisnabar_list, words, room, fits ? 0 : UISNABAR_SHORT, 0, fits ? 0 : (uint32_t)listing.len, fits ? listing : none);
        fits = room >= words.len;
        asked(name, uisnabar_read_listing, listing, room, fits ? 0 : UISNABAR_SHORT, 0, fits ? 0 : (uint32_t)words.len, fits ? words : none);
    }
}

/* a program whose last instruction has a word changed, or is cut, for a buffer without room: what is told first */
static void refused(size_t word, uint32_t value, size_t cut, uint32_t verdict, uint32_t place)
{
    uint8_t bad[ROOM];
    memcpy(bad, program.at, program.len);
    put(bad + program.len - INSTRUCTION + 4 * word, value, 4);
    asked("a bad program", uisnabar_list, (struct bytes){bad, program.len - cut}, 0, verdict, 1, place, (struct bytes){NULL, 0});
}

static void unlisted(const char *line, uint32_t place)
{
    asked(line, uisnabar_read_listing, (struct bytes){line, strlen(line)}, 0, UISNABAR_LISTING, 0, place, (struct bytes){NULL, 0});
}

/* as many of the longest lines as there may be, in exactly the bytes that the header says, one less, and a line more */
static void most(void)
{
    size_t line = sizeof LONGEST - 1, len = line * MOST, size = (size_t)INSTRUCTION * MOST;
    uint8_t *listing = malloc(len + line), *words = malloc(size), *back = malloc(len), answer[24], written[8];
    if (!listing || !words || !back)
        exit(2);
    for (size_t i = 0; i <= MOST; i++)
        memcpy(listing + i * line, LONGEST, line);
    check("the longest line", line, line == UISNABAR_LINE_BYTES);
    check("2^20 lines", 0, uisnabar_read_listing(listing, len, words, size, written, 8, answer, 24) == UISNABAR_ACCEPTED);
    check("a byte less", 0, uisnabar_list(words, size, back, len - 1, written, 8, answer, 24) == UISNABAR_SHORT);
    check("2^20 lines back", 0, uisnabar_list(words, size, back, len, written, 8, answer, 24) == UISNABAR_ACCEPTED);
    check("their bytes", 0, memcmp(back, listing, len) == 0);
    check("a line more", 0, uisnabar_read_listing(listing, len + line, words, size, written, 8, answer, 24) == UISNABAR_LISTING);
    put(written, len, 4);
    check("its place", 0, memcmp(answer + 8, written, 4) == 0);
    free(listing), free(words), free(back);
}

int main(void)
{
    static char lines[ROOM];
    static uint8_t words[PAIRS][INSTRUCTION];
    for (int i = 0; i < PAIRS; i++) {
        strcat(lines, pairs[i].line);
        for (int k = 0; k < 12; k++)
            put(words[i] + 4 * k, pairs[i].words[k], 4);
        rooms(pairs[i].line, (struct bytes){pairs[i].line, strlen(pairs[i].line)}, (struct bytes){words[i], INSTRUCTION});
    }
    text = (struct bytes){lines, strlen(lines)}, program = (struct bytes){words, sizeof words};
    rooms("all", text, program);
    lengths("list", uisnabar_list, program), lengths("list nothing", uisnabar_list, (struct bytes){NULL, 0});
    lengths("read", uisnabar_read_listing, text), lengths("read nothing", uisnabar_read_listing, (struct bytes){NULL, 0});
    refused(3, P, 1, UISNABAR_SIZE, 0);
    refused(0, P, INSTRUCTION * PAIRS, UISNABAR_SIZE, 0);
    refused(11, P, 0, UISNABAR_WORD, 12 * PAIRS - 1);
    refused(11, 1, 0, UISNABAR_INSTRUCTION, PAIRS - 1);
    unlisted("", 0), unlisted("\n", 0), unlisted("op=add a=cell:1 b=imm:2 c=fp:3", 30), unlisted("op=add a=fp:1", 9);
    unlisted("op=add a=cell:1 b=imm:2 c=fp:3\r\n", 30), unlisted("op=add a=cell:1 b=imm:2 c=fp:3\n\n", 31);
    most();
    printf("%u tried, %u faults\n", tried, faults);
    return faults > 0;
}
