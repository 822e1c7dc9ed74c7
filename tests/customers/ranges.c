/* What a driver reads of uisnabar_ranges, byte for byte: tables by hand from document 01, finds by hand from document
 * 02, buffers of every length, and which refusal is told first. Each fault is a line; the last has the counts. */
#include <stdio.h>
#include <string.h>

#include "uisnabar.h"

enum { CELLS = 256, ROWS = 256, UNTOUCHED = 0xa5, ROOM = 8 * ROWS + 64, SMALL = 40, NONE = -1 };
enum { THREE = 10, SIX = 11, EMPTY = 12 }; /* cells that hold 3, 6 and 0, as all others do */

/* A, B, C, fA, fB, fC, fpC, fpAB, MUL, JUMP, AUX, DATA; what cells 3, 6 and 0 hold is 0, and so is C of a DEREF */
#define DEREF(cell, beta) {cell, beta, 0, 0, 1, 1, 0, 0, 0, 0, 2, 0}
#define ADD(a, sum, c) {a, sum, c, 0, 1, 0, 0, 0, 0, 0, 1, 0}

static uint32_t program[ROWS][12], memory[CELLS], exec[ROWS][8], ext[ROWS][30], length;
static unsigned tried, faults;

static void check(const char *name, size_t number, int holds)
{
    tried++;
    if (!holds && ++faults)
        printf("%s, %zu\n", name, number);
}

static void put(uint8_t *at, uint64_t number, int bytes)
{
    for (int i = 0; i < bytes; i++)
        at[i] = (uint8_t)(number >> 8 * i);
}

/* the row of an instruction; an operand that is no cell looks up cell 0 */
static void step(uint32_t row, uint32_t pc)
{
    const uint32_t *i = program[pc];
    uint32_t a = i[3] ? 0 : i[0], c = i[5] + i[6] ? 0 : i[2], b = i[10] == 2 ? memory[a] + i[1] : i[4] ? 0 : i[1];
    uint32_t words[8] = {pc, 0, a, b, c, memory[a], memory[b], memory[c]};
    memcpy(exec[row], words, sizeof words);
}

/* accepted tables of some instructions that do not jump, and of a jump to itself behind them */
static void lay(const uint32_t (*instructions)[12], uint32_t count)
{
    const uint32_t halt[12] = {1, count, 0, 1, 1, 0, 1, 0, 0, 1, 0, 0}, padding[30] = {[0] = 1, [4] = 1};
    memcpy(program, instructions, 48 * count);
    memcpy(program[count], halt, sizeof halt);
    memset(memory, 0, sizeof memory);
    memory[THREE] = 3, memory[SIX] = 6, length = 48 * (count + 1);
    for (uint32_t row = 0; row < ROWS; row++) {
        step(row, row < count ? row : count);
        memcpy(ext[row], padding, sizeof padding);
    }
}

static uint32_t called(uint8_t *finds, size_t room, uint8_t *found, size_t found_len, uint8_t *answer, size_t answer_len)
{
    const uint8_t *p = (const uint8_t *)program, *m = (const uint8_t *)memory, *x = (const uint8_t *)exec, *e = (const uint8_t *)ext;
    return uisnabar_ranges(p, length, m, sizeof memory, 0, 0, x, sizeof exec, e, sizeof ext, finds, room, found, found_len, answer,
                           answer_len);
}

/* the verdict, the answer, the number, and every byte of a buffer of so many, at no alignment */
static void asked(const char *name, size_t room, const uint32_t answered[6], const uint32_t (*wanted)[2], uint32_t count)
{
    static uint8_t finds[ROOM], finds_to_be[ROOM];
    uint8_t answer[SMALL], found[SMALL], answer_to_be[SMALL], found_to_be[SMALL];
    memset(finds, UNTOUCHED, ROOM), memset(answer, UNTOUCHED, SMALL), memset(found, UNTOUCHED, SMALL);
    memset(finds_to_be, UNTOUCHED, ROOM), memset(answer_to_be, UNTOUCHED, SMALL), memset(found_to_be, UNTOUCHED, SMALL);
    for (uint32_t i = 0; i < count; i++)
        put(finds_to_be + 1 + 8 * i, wanted[i][0], 4), put(finds_to_be + 5 + 8 * i, wanted[i][1], 4);
    for (int i = 0; i < 6; i++)
        put(answer_to_be + 1 + 4 * i, answered[i], 4);
    put(found_to_be + 1, count, 8);
    uint32_t returned = called(finds + 1, room, found + 1, UISNABAR_FOUND_BYTES, answer + 1, UISNABAR_ANSWER_BYTES);
    check(name, room, returned == answered[0] && memcmp(finds, finds_to_be, ROOM) == 0 && memcmp(answer, answer_to_be, SMALL) == 0 &&
                          memcmp(found, found_to_be, SMALL) == 0);
}

/* the tables as they stand into buffers of every length: LIST with the number of finds, or whole, later bytes kept */
static void finds(const char *name, const uint32_t (*wanted)[2], uint32_t count)
{
    const uint32_t accepted[6] = {0}, list[6] = {UISNABAR_LIST, 0, count};
    for (size_t room = 0; room + 2 < ROOM; room++)
        if (room < (size_t)UISNABAR_FIND_BYTES * count)
            asked(name, room, list, NULL, 0);
        else
            asked(name, room, accepted, wanted, count);
}

/* each length of the two buffers that have one: all but it are ANSWER, whatever is handed in, and nothing is written */
static void lengths(const char *name, uint32_t verdict)
{
    uint8_t held[3 * SMALL], kept[3 * SMALL];
    memset(kept, UNTOUCHED, sizeof kept);
    for (size_t found = 0; found <= SMALL; found++)
        for (size_t answer = 0; answer <= SMALL; answer++) {
            memset(held, UNTOUCHED, sizeof held);
            uint32_t told = called(held, 8, held + SMALL, found, held + 2 * SMALL, answer);
            int fit = found == UISNABAR_FOUND_BYTES && answer == UISNABAR_ANSWER_BYTES;
            check(name, 100 * found + answer, fit ? told == verdict : told == UISNABAR_ANSWER && memcmp(held, kept, sizeof held) == 0);
        }
}

/* three instructions, found with this bound, or not at all */
static void three(const char *name, const uint32_t (*instructions)[12], int bound)
{
    const uint32_t wanted[1][2] = {{0, (uint32_t)bound}};
    lay(instructions, 3);
    finds(name, wanted, bound != NONE);
}

static void one(void)
{
    three("a check", (const uint32_t[][12]){DEREF(THREE, 0), ADD(THREE, 9, SIX), DEREF(SIX, 0)}, 10);
    lengths("lengths", UISNABAR_ACCEPTED);
    three("below 1", (const uint32_t[][12]){DEREF(EMPTY, 0), ADD(EMPTY, 0, EMPTY), DEREF(EMPTY, 0)}, 1);
    three("of one cell", (const uint32_t[][12]){DEREF(SIX, 0), ADD(SIX, 12, SIX), DEREF(SIX, 0)}, 13);
    three("another beta first", (const uint32_t[][12]){DEREF(THREE, 1), ADD(THREE, 9, SIX), DEREF(SIX, 0)}, NONE);
    three("another beta last", (const uint32_t[][12]){DEREF(THREE, 0), ADD(THREE, 9, SIX), DEREF(SIX, 1)}, NONE);
    three("another cell first", (const uint32_t[][12]){DEREF(EMPTY, 0), ADD(THREE, 9, SIX), DEREF(SIX, 0)}, NONE);
    three("another cell last", (const uint32_t[][12]){DEREF(THREE, 0), ADD(THREE, 9, SIX), DEREF(THREE, 0)}, NONE);
    three("cells exchanged", (const uint32_t[][12]){DEREF(THREE, 0), ADD(SIX, 9, THREE), DEREF(SIX, 0)}, NONE);
    three("x as C alone", (const uint32_t[][12]){DEREF(THREE, 0), ADD(SIX, 9, THREE), DEREF(THREE, 0)}, NONE);
    three("a cell as B", (const uint32_t[][12]){DEREF(SIX, 0), {SIX, SIX, EMPTY, [10] = 1}, DEREF(EMPTY, 0)}, NONE);
    three("an immediate as A", (const uint32_t[][12]){DEREF(THREE, 0), {THREE, THREE + 6, SIX, 1, 1, [10] = 1}, DEREF(SIX, 0)}, NONE);
    three("an immediate as C", (const uint32_t[][12]){DEREF(THREE, 0), {THREE, 3 + SIX, SIX, 0, 1, 1, [10] = 1}, DEREF(SIX, 0)}, NONE);
    three("a MUL", (const uint32_t[][12]){DEREF(THREE, 0), {THREE, 18, SIX, 0, 1, [8] = 1}, DEREF(SIX, 0)}, NONE);
    three("no DEREF", (const uint32_t[][12]){ADD(THREE, 9, SIX), ADD(THREE, 9, SIX), DEREF(SIX, 0)}, NONE);
    lengths("lengths, nothing found", UISNABAR_ACCEPTED);
}

/* as many as a table may have: each DEREF but the first and the last is of two checks */
static void most(void)
{
    static uint32_t instructions[ROWS - 1][12], wanted[ROWS][2];
    const uint32_t deref[12] = DEREF(THREE, 0), add[12] = ADD(THREE, 6, THREE);
    uint32_t count = ROWS / 2 - 1;
    for (uint32_t i = 0; i < ROWS - 1; i++)
        memcpy(instructions[i], i % 2 ? add : deref, sizeof deref);
    for (uint32_t i = 0; i < count; i++)
        wanted[i][0] = 2 * i, wanted[i][1] = 7;
    lay((const uint32_t(*)[12])instructions, ROWS - 1);
    finds("as many as there may be", (const uint32_t(*)[2])wanted, count);
    lengths("lengths, LIST", UISNABAR_LIST);
}

/* the judge's own answers first, whatever the buffer's length */
static void refused(const char *name, const uint32_t answered[6])
{
    for (size_t room = 0; room < 100; room++)
        asked(name, room, answered, NULL, 0);
    lengths(name, answered[0]);
}

int main(void)
{
    one();
    most();
    exec[2][5] = 7;
    refused("a lookup", (const uint32_t[6]){UISNABAR_EXEC, 3, 2, 2, 3, 7});
    length = 0;
    refused("no program", (const uint32_t[6]){UISNABAR_SIZE, 1});
    printf("%u tried, %u faults\n", tried, faults);
    return faults > 0;
}
