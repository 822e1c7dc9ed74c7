/* What a driver reads of uisnabar_judge_split, byte for byte: tables by hand from document 01, cut as document 02's
 * M-109 has it and otherwise. C and C++. Bytes before and behind each of the two buffers cannot be read. Each fault is
 * a line; the last has the counts. */
#define _DEFAULT_SOURCE
#include <stdio.h>
#include <stdlib.h>
#include <string.h>
#include <sys/mman.h>

#include "uisnabar.h"

enum { CELLS = 256, ROWS = 256, UNTOUCHED = 0xa5, SMALL = 40, PAGE = 4096, LONGEST = 1100, MEMORY = 4 * CELLS };
enum { ADDR_A = 2, VALUE_A = 5, V_A_BASE = 9, COMP = 20, ROW = 9, FRAME = 3 }; /* columns, a row, and each row's fp */
#define P 2130706433u

static uint32_t program[12] = {1, 0, 0, 1, 1, 0, 1, 0, 0, 1, 0, 0}; /* a jump to itself, whose rows may look up any cells */
static uint32_t memory[LONGEST], exec[ROWS][8], ext[ROWS][30];
static size_t program_len = sizeof program, exec_len = sizeof exec, ext_len = sizeof ext;
static uint64_t pc, fp = FRAME;
static uint8_t *public_page, *rest_page;
static unsigned tried, faults;

struct six {
    uint32_t verdict, part, place, rule, expected, found;
};
static const struct six accepted = {UISNABAR_ACCEPTED, 0, 0, 0, 0, 0}, lengths = {UISNABAR_SIZE, 2, 0, 0, 0, 0};

static void check(const char *name, size_t number, int holds)
{
    tried++;
    if (!holds && ++faults)
        printf("%s, %zu\n", name, number);
}

static void *reserved(size_t len)
{
    void *at = mmap(NULL, len, PROT_NONE, MAP_PRIVATE | MAP_ANONYMOUS | MAP_NORESERVE, -1, 0);
    if (at == MAP_FAILED)
        exit(2);
    return at;
}

/* a page between two that cannot be read */
static uint8_t *page(void)
{
    uint8_t *at = (uint8_t *)reserved(3 * PAGE) + PAGE;
    if (mprotect(at, PAGE, PROT_READ | PROT_WRITE) != 0)
        exit(2);
    return at;
}

/* accepted tables: no two cells hold the same, and extension rows are padding of cells 20 on */
static void lay(void)
{
    for (uint32_t cell = 0; cell < LONGEST; cell++)
        memory[cell] = 1000 + cell;
    for (int row = 0; row < ROWS; row++) {
        const uint32_t step[8] = {0, FRAME, 7, 8, 9, memory[7], memory[8], memory[9]};
        memcpy(exec[row], step, sizeof step);
        ext[row][0] = ext[row][4] = 1; /* start, len */
        ext[row][5] = ext[row][6] = ext[row][7] = 20, ext[row][V_A_BASE] = memory[20];
        for (int at = 10; at < 30; at++)
            ext[row][at] = memory[20 + at % 5];
    }
}

static const uint8_t *bytes_of(const void *words) { return (const uint8_t *)words; }

static uint32_t called(const uint8_t *public_words, size_t public_len, const uint8_t *rest, size_t rest_len, uint8_t *answer, size_t len)
{
    return uisnabar_judge_split(bytes_of(program), program_len, public_words, public_len, rest, rest_len, pc, fp, bytes_of(exec), exec_len,
                                bytes_of(ext), ext_len, answer, len);
}

/* the verdict, the six numbers at no alignment, and nothing beside them */
static int answers(const uint8_t *public_words, size_t public_len, const uint8_t *rest, size_t rest_len, const struct six *wanted)
{
    const uint32_t numbers[6] = {wanted->verdict, wanted->part, wanted->place, wanted->rule, wanted->expected, wanted->found};
    uint8_t answer[SMALL], to_be[SMALL];
    memset(answer, UNTOUCHED, SMALL), memset(to_be, UNTOUCHED, SMALL);
    for (int i = 0; i < UISNABAR_ANSWER_BYTES; i++)
        to_be[1 + i] = (uint8_t)(numbers[i / 4] >> 8 * (i % 4));
    uint32_t returned = called(public_words, public_len, rest, rest_len, answer + 1, UISNABAR_ANSWER_BYTES);
    return returned == wanted->verdict && memcmp(answer, to_be, SMALL) == 0;
}

/* so many bytes of a memory of 256 cells in the first: each buffer at its page's end, then at its beginning */
static void asked(const char *name, size_t number, size_t public_len, const struct six *wanted)
{
    size_t rest_len = MEMORY - public_len;
    uint8_t *public_late = public_page + PAGE - public_len, *rest_late = rest_page + PAGE - rest_len;
    memcpy(public_late, memory, public_len), memcpy(rest_page, bytes_of(memory) + public_len, rest_len);
    check(name, number, answers(public_late, public_len, rest_page, rest_len, wanted));
    memcpy(public_page, memory, public_len), memcpy(rest_late, bytes_of(memory) + public_len, rest_len);
    check(name, number, answers(public_page, public_len, rest_late, rest_len, wanted));
}

/* at every m', and by the judge on the two joined */
static void at_each_cut(const char *name, size_t number, struct six wanted)
{
    const uint32_t numbers[6] = {wanted.verdict, wanted.part, wanted.place, wanted.rule, wanted.expected, wanted.found};
    uint8_t answer[UISNABAR_ANSWER_BYTES];
    uisnabar_judge(bytes_of(program), program_len, bytes_of(memory), MEMORY, pc, fp, bytes_of(exec), exec_len, bytes_of(ext), ext_len,
                   answer, sizeof answer);
    check(name, number, memcmp(answer, numbers, sizeof answer) == 0); /* x86-64 has the lowest byte first */
    for (size_t public_len = 4; public_len < MEMORY; public_len *= 2)
        asked(name, number, public_len, &wanted);
}

static int fits(size_t public_len, size_t rest_len)
{
    for (int m = 8; m <= 29; m++)
        for (int log = 0; log < m; log++)
            if (public_len == (size_t)4 << log && public_len + rest_len == (size_t)4 << m)
                return 1;
    return 0;
}

/* each pair of lengths up to some, of a memory that is as long as they ask for */
static void pairs(void)
{
    for (size_t public_len = 0; public_len <= LONGEST; public_len++) {
        uint8_t *late = public_page + PAGE - public_len;
        memcpy(late, memory, public_len), memcpy(rest_page, bytes_of(memory) + public_len, LONGEST);
        for (size_t rest_len = 0; rest_len <= LONGEST; rest_len++)
            check("a pair of lengths", 10000 * public_len + rest_len,
                  answers(public_len ? late : NULL, public_len, rest_len ? rest_page : NULL, rest_len,
                          fits(public_len, rest_len) ? &accepted : &lengths));
    }
}

/* the longest, of which nothing may be read: WORD of the program is told where the lengths fit, and SIZE where not */
static void limits(void)
{
    const struct six word = {UISNABAR_WORD, 1, 11, 0, 0, 0};
    const size_t most = (size_t)4 << 29;
    const uint8_t *far = (const uint8_t *)reserved(2 * most);
    program[11] = P;
    for (size_t public_len = 4; public_len <= 2 * most; public_len *= 2)
        for (size_t total = most / 2; total <= 2 * most; total += most / 4)
            if (public_len <= total)
                check("a limit", total / public_len,
                      answers(far, public_len, far, total - public_len, fits(public_len, total - public_len) ? &word : &lengths));
    program[11] = 0;
}

/* p and more in each cell, and in two */
static void words(void)
{
    for (uint32_t cell = 0; cell < CELLS; cell++) {
        const struct six word = {UISNABAR_WORD, 2, cell, 0, 0, 0};
        memory[cell] = P;
        at_each_cut("a word", cell, word);
        memory[CELLS - 1] = UINT32_MAX;
        at_each_cut("a word, and the last", cell, word);
        memory[cell] = 1000 + cell, memory[CELLS - 1] = 1000 + CELLS - 1;
    }
}

/* each cell looked up, as it is and as another; and the first that there is not */
static void cells(void)
{
    for (uint32_t cell = 0; cell < CELLS; cell++) {
        const struct six other = {UISNABAR_EXEC, 3, ROW, 2, memory[cell], 5};
        exec[ROW][ADDR_A] = cell, exec[ROW][VALUE_A] = memory[cell];
        at_each_cut("a cell", cell, accepted);
        exec[ROW][VALUE_A] = 5;
        at_each_cut("another cell", cell, other);
    }
    const struct six none = {UISNABAR_EXEC, 3, ROW, 2, 0, 0};
    exec[ROW][ADDR_A] = CELLS;
    at_each_cut("no cell", CELLS, none);
}

/* each five cells looked up by a rule, as they are and with one of them another; and those that end beyond the last */
static void five_cells(uint32_t rule, int number, int column)
{
    uint32_t *row = ext[ROW];
    for (uint32_t first = 0; first + 4 < CELLS; first++) {
        row[number] = first, row[V_A_BASE] = memory[row[5]]; /* rule 18 is of the first of rule 19's */
        memcpy(row + column, memory + first, 20), memcpy(row + COMP, memory + row[7], 20);
        at_each_cut("five cells", first, accepted);
        for (uint32_t at = 0; at < 5; at++) {
            const struct six other = {UISNABAR_EXTENSION, 4, ROW, rule, memory[first + at], 5};
            row[column + at] = 5;
            at_each_cut("another of five cells", first, other);
            row[column + at] = memory[first + at];
        }
    }
    const struct six none = {UISNABAR_EXTENSION, 4, ROW, rule, 0, 0};
    row[number] = CELLS - 4, row[V_A_BASE] = memory[row[5]];
    at_each_cut("five cells, not all there", CELLS, none);
}

static void fives(void)
{
    five_cells(19, 5, 10);
    lay();
    five_cells(20, 6, 15);
    lay();
    five_cells(21, 7, 25);
}

/* the lowest part of bad length is told, part 2 where another pair is handed in, whichever parts behind it are bad */
static void order(void)
{
    for (unsigned bad = 1; bad < 16; bad++) {
        struct six wanted = {UISNABAR_SIZE, 0, 0, 0, 0, 0};
        program_len -= bad & 1, exec_len -= bad >> 2 & 1, ext_len -= bad >> 3;
        wanted.part = bad & 1 ? 1 : bad & 2 ? 2 : bad & 4 ? 3 : 4;
        asked("the order of the parts", bad, bad & 2 ? 12 : 16, &wanted);
        program_len = sizeof program, exec_len = sizeof exec, ext_len = sizeof ext;
    }
}

/* every length of the answer but its own is ANSWER, whatever is handed in, and nothing is written */
static void answer_lengths(size_t public_len, uint32_t verdict)
{
    uint8_t held[SMALL], kept[SMALL];
    memset(kept, UNTOUCHED, SMALL);
    for (size_t len = 0; len < SMALL; len++) {
        memset(held, UNTOUCHED, SMALL);
        uint32_t told = called(bytes_of(memory), public_len, bytes_of(memory) + public_len, MEMORY - public_len, held, len);
        int nothing = told == UISNABAR_ANSWER && memcmp(held, kept, SMALL) == 0;
        check("the answer's length", len, len == UISNABAR_ANSWER_BYTES ? told == verdict : nothing);
    }
}

/* 64 bits of each start number count */
static void starts(void)
{
    const struct six start = {UISNABAR_START, 0, 0, 0, 0, 0};
    pc = (uint64_t)1 << 32;
    at_each_cut("a start, pc", 0, start);
    pc = 0, fp += (uint64_t)1 << 32;
    at_each_cut("a start, fp", 0, start);
    fp = FRAME;
}

int main(void)
{
    void (*const groups[])(void) = {pairs, limits, order, starts, words, cells, fives};
    public_page = page(), rest_page = page();
    lay();
    answer_lengths(64, UISNABAR_ACCEPTED);
    answer_lengths(12, UISNABAR_SIZE);
    for (size_t i = 0; i < sizeof groups / sizeof groups[0]; i++) {
        lay();
        groups[i]();
    }
    printf("%u tried, %u faults\n", tried, faults);
    return faults > 0;
}
