/* What a driver reads of a refused lookup, byte for byte, from the judge and from the counting call: tables that are
 * accepted, by hand from documents 01 and 02, in which a word or two are changed. Each fault is a line; the last line has
 * the counts. */
#include <stdio.h>
#include <string.h>

#include "uisnabar.h"

enum { CELLS = 256, ROWS = 256, HELD = 1000, TOP = 2130706432, UNTOUCHED = 0xa5, ROOM = 40 };

/* an instruction that jumps to itself, in its own frame: it reads no cell, so that its rows may look up any */
static const uint32_t program[12] = {[0] = 1, [3] = 1, [4] = 1, [6] = 1, [9] = 1};
static uint32_t memory[CELLS], exec[ROWS][8], ext[ROWS][30];
static unsigned tried, faults;

/* cell i holds HELD + i. Execution rows look up cells 7, 8 and 9, extension rows, all padding, 20, 30 and 40 on. */
static void lay(void)
{
    static const uint32_t step[8] = {0, 0, 7, 8, 9, HELD + 7, HELD + 8, HELD + 9};
    uint32_t group[30] = {[0] = 1, [4] = 1, [5] = 20, [6] = 30, [7] = 40, [9] = HELD + 20};
    for (uint32_t k = 0; k < 5; k++) {
        group[10 + k] = HELD + 20 + k;
        group[15 + k] = HELD + 30 + k;
        group[20 + k] = group[25 + k] = HELD + 40 + k;
    }
    for (uint32_t i = 0; i < CELLS; i++)
        memory[i] = HELD + i;
    for (int row = 0; row < ROWS; row++) {
        memcpy(exec[row], step, sizeof step);
        memcpy(ext[row], group, sizeof group);
    }
}

/* the judge, or the counting call, with an answer of so many bytes; words of this machine are as the library's */
static uint32_t asked(int counting, uint8_t *answer, size_t len)
{
    static uint8_t grid[UISNABAR_GRID_BYTES];
    const uint8_t *p = (const uint8_t *)program, *m = (const uint8_t *)memory, *x = (const uint8_t *)exec, *e = (const uint8_t *)ext;
    memset(grid, 0, sizeof grid);
    if (counting)
        return uisnabar_count(p, sizeof program, m, sizeof memory, 0, 0, x, sizeof exec, e, sizeof ext, grid, sizeof grid, answer, len);
    return uisnabar_judge(p, sizeof program, m, sizeof memory, 0, 0, x, sizeof exec, e, sizeof ext, answer, len);
}

/* whether a call returns the verdict and writes these bytes, none before them and none after them */
static void called(const char *name, int counting, size_t len, uint32_t verdict, const uint8_t *bytes, size_t written)
{
    uint8_t answer[ROOM], wanted[ROOM];
    memset(answer, UNTOUCHED, sizeof answer);
    memset(wanted, UNTOUCHED, sizeof wanted);
    memcpy(wanted + 1, bytes, written); /* no buffer need be aligned */
    uint32_t returned = asked(counting, answer + 1, len);
    tried++;
    if (returned == verdict && memcmp(answer, wanted, sizeof answer) == 0)
        return;
    faults++;
    printf("%s, %s, %zu bytes: %s and", name, counting ? "count" : "judge", len, uisnabar_name(returned));
    for (size_t i = 0; i < sizeof answer; i++)
        printf(" %02x", answer[i]);
    putchar('\n');
}

/* the tables as they stand are answered so; an answer of another length hears ANSWER, whatever the tables are */
static void told(const char *name, uint32_t verdict, uint32_t part, uint32_t place, uint32_t rule, uint32_t expected, uint32_t found)
{
    static const size_t others[] = {0, 16, 20, 23, 25, 32};
    const uint32_t numbers[6] = {verdict, part, place, rule, expected, found};
    uint8_t bytes[24];
    for (int i = 0; i < 24; i++)
        bytes[i] = (uint8_t)(numbers[i / 4] >> 8 * (i % 4));
    for (int counting = 0; counting < 2; counting++) {
        called(name, counting, UISNABAR_ANSWER_BYTES, verdict, bytes, sizeof bytes);
        for (size_t i = 0; i < sizeof others / sizeof others[0]; i++)
            called(name, counting, others[i], UISNABAR_ANSWER, bytes, 0);
    }
    lay();
}

static void one_cell(uint32_t row, uint32_t word)
{
    exec[row][5] = word;
    told("rule 2", 5, 3, row, 2, HELD + 7, word);
    exec[row][6] = word;
    told("rule 3", 5, 3, row, 3, HELD + 8, word);
    exec[row][7] = word;
    told("rule 4", 5, 3, row, 4, HELD + 9, word);
    ext[row][9] = word;
    told("rule 18", 6, 4, row, 18, HELD + 20, word);
}

/* rules 19 to 21: the first of the five words that differs, and the last of them too */
static void five_cells(uint32_t rule, uint32_t column, uint32_t first)
{
    for (uint32_t k = 0; k < 5; k++) {
        ext[9][column + 4] = 77;
        ext[9][column + k] = 66;
        told("five cells", 6, 4, 9, rule, HELD + first + k, 66);
    }
}

/* a cell that is not below M: both are 0, of five cells also where the first of them, in range, differs */
static void out_of_range(uint32_t far)
{
    for (uint32_t rule = 2; rule <= 4; rule++) {
        exec[9][rule] = far;
        told("a far cell", 5, 3, 9, rule, 0, 0);
    }
    ext[9][5] = far;
    told("a far cell", 6, 4, 9, 18, 0, 0);
    ext[9][5] = 252;
    ext[9][9] = HELD + 252;
    told("cells 252 to 256", 6, 4, 9, 19, 0, 0);
    ext[9][6] = 252;
    told("cells 252 to 256", 6, 4, 9, 20, 0, 0);
    ext[9][7] = far;
    told("far cells", 6, 4, 9, 21, 0, 0);
    ext[9][6] = 251;
    told("the last five cells", 6, 4, 9, 20, HELD + 251, HELD + 30);
}

int main(void)
{
    lay();
    told("accepted", 0, 0, 0, 0, 0, 0);
    one_cell(0, 0);
    one_cell(9, TOP);
    one_cell(ROWS - 1, 0x01020304);
    memory[8] = 0;
    told("a cell of 0", 5, 3, 0, 3, 0, HELD + 8);
    five_cells(19, 10, 20);
    five_cells(20, 15, 30);
    five_cells(21, 25, 40);
    out_of_range(CELLS);
    out_of_range(TOP);
    ext[9][4] = 2;
    told("no lookup", 6, 4, 9, 17, 0, 0);
    printf("%u tried, %u faults\n", tried, faults);
    return faults > 0;
}
