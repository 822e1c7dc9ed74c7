/* The stack that each exported function uses: the most over calls that take each of its ways, on a thread whose stack was painted before.
 * Ends with 1 where one that customers call uses more than the header says. */
#include <stdio.h>
#include <stdlib.h>
#include <string.h>

#include "../differ/library.h"
#include "../speed/inputs.h"
#include "paint.h"

enum { GROUP = 4 * 120, LISTED = 1 << 10 };

static speed_input in, old;
static size_t public_len; /* of the memory's bytes, where it comes in two buffers */
static uint8_t answer[UISNABAR_ANSWER_BYTES], recipe[UISNABAR_RECIPE_BYTES], text[64], grid[UISNABAR_GRID_BYTES];
static uint8_t report_text[UISNABAR_REPORT_BYTES], written[UISNABAR_WRITTEN_BYTES], next[UISNABAR_NEXT_BYTES];
static uint8_t finds[UISNABAR_FIND_BYTES], found[UISNABAR_FOUND_BYTES];
static size_t finds_len = sizeof finds;
static uint8_t listing[UISNABAR_LINE_BYTES * LISTED], listed[48 * LISTED]; /* a program of so many instructions */
static size_t listing_len;
static int above; /* a call that is exported used more than the header says */

static void *nothing(void *ext)
{
    return ext;
}

static void *judge(void *ext)
{
    uisnabar_judge(in.program, in.program_len, in.memory, in.memory_len, 0, 0, in.exec, in.exec_len, ext, in.ext_len, answer, sizeof answer);
    return NULL;
}

static void *judge_split(void *ext)
{
    uisnabar_judge_split(in.program, in.program_len, in.memory, public_len, in.memory + public_len, in.memory_len - public_len, 0, 0,
                         in.exec, in.exec_len, ext, in.ext_len, answer, sizeof answer);
    return NULL;
}

static void *count(void *ext)
{
    uisnabar_count(in.program, in.program_len, in.memory, in.memory_len, 0, 0, in.exec, in.exec_len, ext, in.ext_len, grid, sizeof grid,
                   answer, sizeof answer);
    return NULL;
}

static void *ranges(void *ext)
{
    uisnabar_ranges(in.program, in.program_len, in.memory, in.memory_len, 0, 0, in.exec, in.exec_len, ext, in.ext_len, finds, finds_len,
                    found, sizeof found, answer, sizeof answer);
    return NULL;
}

static void *report(void *room)
{
    uisnabar_report(grid, sizeof grid, report_text, *(size_t *)room, written, sizeof written, answer, sizeof answer);
    return NULL;
}

static void *translate(void *len)
{
    uisnabar_translate(old.old, *(size_t *)len, old.program, old.program_len, answer, sizeof answer);
    return NULL;
}

static void *list(void *room)
{
    uisnabar_list(listed, sizeof listed, listing, *(size_t *)room, written, sizeof written, answer, sizeof answer);
    return NULL;
}

static void *read_listing(void *room)
{
    uisnabar_read_listing(listing, listing_len, listed, *(size_t *)room, written, sizeof written, answer, sizeof answer);
    return NULL;
}

static void *jump(void *draws)
{
    uisnabar_jump(~UINT64_C(0), *(uint64_t *)draws, next, sizeof next, answer, sizeof answer);
    return NULL;
}

static void *host(void *number)
{
    uisnabar_host(~UINT64_C(0), *(uint64_t *)number, next, sizeof next, answer, sizeof answer);
    return NULL;
}

static size_t write_label(const uint32_t *version)
{
    return probe_write(*version, ~UINT64_C(0), 29, 124, text, sizeof text, answer, sizeof answer);
}

static void *label(void *version)
{
    uisnabar_label(text, write_label(version), answer, sizeof answer, recipe, sizeof recipe);
    return NULL;
}

static void *writer(void *version)
{
    write_label(version);
    return NULL;
}

static void *tabler(void *unused)
{
    probe_table(in.program, in.program_len, in.memory, in.memory_len, 0, 0, in.exec, in.exec_len, in.ext, in.ext_len, answer, sizeof answer);
    return unused;
}

/* Of a seed whose first eight draws version 2 throws away. */
static void *maker(void *version)
{
    static uint8_t program[48 * 125], memory[4 << 10];
    probe_make(*(uint32_t *)version, UINT64_C(0x00ffdb37cb0c5f43), 10, 124, program, sizeof program, memory,
               sizeof memory, answer, sizeof answer);
    return NULL;
}

static size_t most(size_t a, size_t b)
{
    return a > b ? a : b;
}

/* With another word in a table, which a lookup must tell. */
static size_t off_by_one(void *(*work)(void *), uint8_t *word, uint8_t verdict)
{
    *word ^= 1;
    size_t used = touched(work, in.ext);
    *word ^= 1;
    if (answer[0] != verdict) {
        printf("no lookup was refused\n");
        exit(2);
    }
    return used;
}

/* On the last rows: a lookup of one cell, and one of five. */
static size_t over_lookups(void *(*work)(void *))
{
    size_t used = off_by_one(work, in.exec + in.exec_len - 4, UISNABAR_EXEC);
    return most(used, off_by_one(work, in.ext + in.ext_len - 4, UISNABAR_EXTENSION));
}

/* Tables in order, in another order, and with one group in the place of another, so that the bus takes every way. */
static size_t over_tables(void *(*work)(void *))
{
    size_t used = most(touched(work, in.ext), over_lookups(work));
    speed_shuffle(&in, 2);
    used = most(used, touched(work, in.shuffled));
    memcpy(in.shuffled + (size_t)GROUP * 900, in.shuffled + (size_t)GROUP * 1200, GROUP);
    return most(used, touched(work, in.shuffled));
}

/* With one public word, so that padding looks five cells up in both buffers, and with as many as there may be. */
static size_t of_split(void)
{
    public_len = 4;
    size_t used = over_tables(judge_split);
    public_len = in.memory_len / 2;
    return most(used, over_tables(judge_split));
}

/* With recipes of either version. */
static size_t over_versions(void *(*work)(void *))
{
    uint32_t versions[] = {1, 2};
    return most(touched(work, &versions[0]), touched(work, &versions[1]));
}

/* From a fresh grid, and from a full one that is refused. */
static size_t of_count(void)
{
    memset(grid, 0, sizeof grid);
    size_t used = over_tables(count);
    memset(grid, 0xff, sizeof grid);
    return most(used, over_tables(count));
}

/* With a range check, of the last cell, which holds 0, for the first three instructions: found, and without room. */
static size_t of_ranges(void)
{
    uint32_t cell = (uint32_t)in.cells - 1, word; /* what cell 0 holds, to which 0 leads */
    memcpy(&word, in.memory, sizeof word);
    const uint32_t code[3][12] = {{cell, 0, word, 0, 1, 1, [10] = 2}, {cell, 0, cell, 0, 1, [10] = 1}, {cell, 0, word, 0, 1, 1, [10] = 2}};
    memcpy(in.program, code, sizeof code);
    tabler(NULL);
    size_t used = over_tables(ranges);
    finds_len--;
    used = most(used, touched(ranges, in.ext));
    if (answer[0] != UISNABAR_LIST) {
        printf("no range check was found\n");
        exit(2);
    }
    return used;
}

/* The longest report, and one that has no room. */
static size_t of_report(void)
{
    size_t rooms[] = {sizeof report_text, sizeof report_text - 1};
    memset(grid, 0xff, sizeof grid);
    return most(touched(report, &rooms[0]), touched(report, &rooms[1]));
}

/* A translation, then EDITION and WORD at the last word, then SIZE. */
static size_t of_translate(void)
{
    size_t whole = old.old_len, cut = whole - 1;
    size_t used = touched(translate, &whole);
    old.old[whole - 4] = 1;
    used = most(used, touched(translate, &whole));
    old.old[whole - 1] = 0xff;
    used = most(used, touched(translate, &whole));
    return most(used, touched(translate, &cut));
}

/* A listing, SHORT, then INSTRUCTION and WORD at the last word. */
static size_t of_list(void)
{
    size_t whole = sizeof listing, none = 0;
    size_t used = most(touched(list, &whole), touched(list, &none));
    uint8_t *last = listed + sizeof listed - 4, kept[4];
    memcpy(kept, last, sizeof kept);
    last[0] |= 1;
    used = most(used, touched(list, &whole));
    last[3] = 0xff;
    used = most(used, touched(list, &whole));
    memcpy(last, kept, sizeof kept);
    return used;
}

/* The listing of the same program read back, SHORT, then LISTING at the text's end and at its last byte. */
static size_t of_read_listing(void)
{
    size_t whole = sizeof listed, none = 0;
    list(&(size_t){sizeof listing});
    listing_len = (size_t)written[0] | (size_t)written[1] << 8 | (size_t)written[2] << 16;
    size_t used = most(touched(read_listing, &whole), touched(read_listing, &none));
    listing[listing_len - 1] = '\r';
    used = most(used, touched(read_listing, &whole));
    listing_len--;
    return most(used, touched(read_listing, &whole));
}

/* The first number and the last: of draws, or of hosts with one that is refused. */
static size_t over_numbers(void *(*work)(void *), uint64_t last)
{
    uint64_t numbers[] = {0, last, ~UINT64_C(0)};
    size_t used = most(touched(work, &numbers[0]), touched(work, &numbers[1]));
    return most(used, touched(work, &numbers[2]));
}

static void line(const char *name, size_t used, size_t start)
{
    printf("%s: %zu bytes of stack\n", name, used - start);
}

/* A line for a call that customers make, and how much the header lets it use. */
static void exported(const char *name, size_t used, size_t start, size_t most_used)
{
    line(name, used, start);
    if (used - start <= most_used)
        return;
    printf("%s: MORE than the header says, %zu\n", name, most_used);
    above = 1;
}

int main(void)
{
    lay_stack();
    in = speed_build(15, 13, 17, 1);
    old = speed_old(12);
    memcpy(listed, in.program, sizeof listed);
    size_t start = touched(nothing, NULL);
    line("tabler", touched(tabler, NULL), start);
    exported("uisnabar_judge", over_tables(judge), start, UISNABAR_STACK_BYTES);
    exported("uisnabar_judge_split", of_split(), start, UISNABAR_STACK_BYTES);
    exported("uisnabar_count", of_count(), start, UISNABAR_COUNT_STACK_BYTES);
    exported("uisnabar_ranges", of_ranges(), start, UISNABAR_STACK_BYTES);
    exported("uisnabar_report", of_report(), start, UISNABAR_STACK_BYTES);
    exported("uisnabar_translate", of_translate(), start, UISNABAR_STACK_BYTES);
    exported("uisnabar_list", of_list(), start, UISNABAR_STACK_BYTES);
    exported("uisnabar_read_listing", of_read_listing(), start, UISNABAR_STACK_BYTES);
    exported("uisnabar_jump", over_numbers(jump, UINT64_C(1) << 63), start, UISNABAR_STACK_BYTES);
    exported("uisnabar_host", over_numbers(host, UISNABAR_HOSTS - 1), start, UISNABAR_STACK_BYTES);
    exported("uisnabar_label", over_versions(label), start, UISNABAR_STACK_BYTES);
    line("label writer", over_versions(writer), start);
    line("maker", over_versions(maker), start);
    speed_free(&in);
    speed_free(&old);
    return above;
}
