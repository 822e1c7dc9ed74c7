/* Which lengths the library takes of each buffer that has one length, and the header's names and figures, each on a
 * line. */
#include <stdio.h>
#include <stdlib.h>
#include <string.h>

#include "uisnabar.h"

enum { MOST = 1200, UNTOUCHED = 0xa5, NUMBERS = 1000 /* verdicts are below it */ };

static char text[] = "v=1\nseed=0123456789abcdef\nm=29\nn=124\n";
enum { VERSION = 2 }; /* the byte of it that is its version */
/* an instruction of draft 0.5.0 and of draft 0.6.0: an ADD of cells 1 and 3 that gives cell 2 */
static const uint8_t old[56] = {[0] = 1, [4] = 2, [8] = 3, [24] = 1}, program[48] = {[0] = 1, [4] = 2, [8] = 3, [40] = 1};
static struct {
    uint8_t answer[MOST], recipe[MOST], grid[MOST], written[MOST], program[MOST], next[MOST], found[MOST];
} lent;

/* Calls in which one buffer has the length and the others have theirs. */
static uint32_t judge_answer(size_t len)
{
    return uisnabar_judge(NULL, 0, NULL, 0, 0, 0, NULL, 0, NULL, 0, lent.answer, len);
}

static uint32_t split_answer(size_t len)
{
    return uisnabar_judge_split(NULL, 0, NULL, 0, NULL, 0, 0, 0, NULL, 0, NULL, 0, lent.answer, len);
}

static uint32_t count_grid(size_t len)
{
    return uisnabar_count(NULL, 0, NULL, 0, 0, 0, NULL, 0, NULL, 0, lent.grid, len, lent.answer, UISNABAR_ANSWER_BYTES);
}

static uint32_t count_answer(size_t len)
{
    return uisnabar_count(NULL, 0, NULL, 0, 0, 0, NULL, 0, NULL, 0, lent.grid, UISNABAR_GRID_BYTES, lent.answer, len);
}

static uint32_t ranges_found(size_t len)
{
    return uisnabar_ranges(NULL, 0, NULL, 0, 0, 0, NULL, 0, NULL, 0, NULL, 0, lent.found, len, lent.answer, UISNABAR_ANSWER_BYTES);
}

static uint32_t ranges_answer(size_t len)
{
    return uisnabar_ranges(NULL, 0, NULL, 0, 0, 0, NULL, 0, NULL, 0, NULL, 0, lent.found, UISNABAR_FOUND_BYTES, lent.answer, len);
}

static uint32_t report_grid(size_t len)
{
    return uisnabar_report(lent.grid, len, NULL, 0, lent.written, UISNABAR_WRITTEN_BYTES, lent.answer, UISNABAR_ANSWER_BYTES);
}

static uint32_t report_written(size_t len)
{
    return uisnabar_report(lent.grid, UISNABAR_GRID_BYTES, NULL, 0, lent.written, len, lent.answer, UISNABAR_ANSWER_BYTES);
}

static uint32_t report_answer(size_t len)
{
    return uisnabar_report(lent.grid, UISNABAR_GRID_BYTES, NULL, 0, lent.written, UISNABAR_WRITTEN_BYTES, lent.answer, len);
}

static uint32_t translate_answer(size_t len)
{
    return uisnabar_translate(old, sizeof old, lent.program, sizeof program, lent.answer, len);
}

static uint32_t jump_next(size_t len) { return uisnabar_jump(1, 2, lent.next, len, lent.answer, UISNABAR_ANSWER_BYTES); }

static uint32_t jump_answer(size_t len) { return uisnabar_jump(1, 2, lent.next, UISNABAR_NEXT_BYTES, lent.answer, len); }

static uint32_t host_next(size_t len) { return uisnabar_host(1, UISNABAR_HOSTS, lent.next, len, lent.answer, UISNABAR_ANSWER_BYTES); }

static uint32_t host_answer(size_t len) { return uisnabar_host(1, UISNABAR_HOSTS, lent.next, UISNABAR_NEXT_BYTES, lent.answer, len); }

static uint32_t label_answer(size_t len)
{
    return uisnabar_label((const uint8_t *)text, sizeof text - 1, lent.answer, len, lent.recipe, UISNABAR_RECIPE_BYTES);
}

static uint32_t label_recipe(size_t len)
{
    return uisnabar_label((const uint8_t *)text, sizeof text - 1, lent.answer, UISNABAR_ANSWER_BYTES, lent.recipe, len);
}

/* Whether so many bytes hold still what they held first. */
static int untouched(const void *from, size_t len)
{
    const uint8_t *bytes = from;
    for (size_t i = 0; i < len; i++)
        if (bytes[i] != UNTOUCHED)
            return 0;
    return 1;
}

/* Each length but one is ANSWER with nothing written; the one is printed. */
static void lengths(const char *name, uint32_t (*call)(size_t len))
{
    for (size_t len = 0; len <= MOST; len++) {
        memset(&lent, UNTOUCHED, sizeof lent);
        uint32_t verdict = call(len);
        if (verdict != UISNABAR_ANSWER)
            printf("length %s %zu %s\n", name, len, uisnabar_name(verdict));
        else if (!untouched(&lent, sizeof lent))
            printf("length %s %zu written on ANSWER\n", name, len);
    }
}

/* An old program into a new one's buffer of each length: those that are no SIZE, and what is written where it may not be. */
static void rooms(const char *name, const uint8_t *from, size_t from_len)
{
    for (size_t len = 0; len <= MOST; len++) {
        memset(&lent, UNTOUCHED, sizeof lent);
        uint32_t verdict = uisnabar_translate(from, from_len, lent.program, len, lent.answer, UISNABAR_ANSWER_BYTES);
        if (verdict != UISNABAR_SIZE)
            printf("room %s %zu %s place %d\n", name, len, uisnabar_name(verdict), lent.answer[8]);
        size_t kept = verdict == UISNABAR_ACCEPTED ? sizeof program : 0;
        if (memcmp(lent.program, program, kept) != 0 || !untouched(lent.program + kept, MOST - kept))
            printf("room %s %zu other bytes written\n", name, len);
    }
}

/* No instruction, one, and as many as there may be and one more, with a buffer that fits each; all words are 0. */
static void most(void)
{
    static const size_t counts[] = {0, 1, 1 << 20, (1 << 20) + 1};
    for (int i = 0; i < 4; i++) {
        uint8_t *from = calloc(counts[i] + 1, sizeof old), *to = calloc(counts[i] + 1, sizeof program);
        uint32_t verdict = from && to ? uisnabar_translate(from, counts[i] * sizeof old, to, counts[i] * sizeof program, lent.answer,
                                                           UISNABAR_ANSWER_BYTES)
                                      : UISNABAR_ANSWER;
        printf("instructions %zu %s part %d\n", counts[i], uisnabar_name(verdict), lent.answer[4]);
        free(from), free(to);
    }
}

static void translations(void)
{
    uint8_t three[3 * sizeof old] = {0}; /* the second is not translatable */
    memcpy(three, old, sizeof old);
    memcpy(three + 2 * sizeof old, old, sizeof old);
    rooms("one", old, sizeof old);
    rooms("three", three, sizeof three);
    rooms("cut", three, sizeof three - 1);
    most();
}

/* What the longest report needs, and whether a buffer of so many bytes is taken and one of a byte less is not. */
static void longest(void)
{
    static uint8_t report[UISNABAR_REPORT_BYTES];
    memset(&lent, 0xff, sizeof lent);
    for (size_t less = 0; less < 2; less++) {
        uint32_t verdict = uisnabar_report(lent.grid, UISNABAR_GRID_BYTES, report, sizeof report - less, lent.written,
                                           UISNABAR_WRITTEN_BYTES, lent.answer, UISNABAR_ANSWER_BYTES);
        printf("longest %s written %d place %d\n", uisnabar_name(verdict), lent.written[0] | lent.written[1] << 8,
               lent.answer[8] | lent.answer[9] << 8);
    }
}

/* A label of each version, known or not: the answer, and the recipe byte by byte. */
static void labels(void)
{
    for (text[VERSION] = '0'; text[VERSION] <= '3'; text[VERSION]++) {
        memset(&lent, UNTOUCHED, sizeof lent);
        uint32_t verdict = label_recipe(UISNABAR_RECIPE_BYTES);
        printf("label v=%c %s place %d recipe ", text[VERSION], uisnabar_name(verdict), lent.answer[8]);
        for (size_t i = 0; i < UISNABAR_RECIPE_BYTES; i++)
            printf("%02x", lent.recipe[i]);
        puts(untouched(lent.recipe + UISNABAR_RECIPE_BYTES, MOST - UISNABAR_RECIPE_BYTES) ? "" : " and beyond");
    }
}

int main(void)
{
    lengths("judge's answer", judge_answer);
    lengths("judge_split's answer", split_answer);
    lengths("count's grid", count_grid);
    lengths("count's answer", count_answer);
    lengths("ranges' found", ranges_found);
    lengths("ranges' answer", ranges_answer);
    lengths("report's grid", report_grid);
    lengths("report's written", report_written);
    lengths("report's answer", report_answer);
    lengths("translate's answer", translate_answer);
    lengths("jump's next", jump_next);
    lengths("jump's answer", jump_answer);
    lengths("host's next", host_next);
    lengths("host's answer", host_answer);
    for (text[VERSION] = '1'; text[VERSION] <= '2'; text[VERSION]++) {
        lengths("label's answer", label_answer);
        lengths("label's recipe", label_recipe);
    }
    labels();
    longest();
    translations();
    for (uint32_t verdict = 0; verdict < NUMBERS; verdict++)
        if (strcmp(uisnabar_name(verdict), "unknown") != 0)
            printf("verdict %u %s\n", (unsigned)verdict, uisnabar_name(verdict));
    printf("answer %d\nrecipe %d\ngrid %d\nwritten %d\nreport %d\n", UISNABAR_ANSWER_BYTES, UISNABAR_RECIPE_BYTES, UISNABAR_GRID_BYTES,
           UISNABAR_WRITTEN_BYTES, UISNABAR_REPORT_BYTES);
    printf("found %d\nfind %d\n", UISNABAR_FOUND_BYTES, UISNABAR_FIND_BYTES);
    printf("line %d\nnext %d\nhosts %d\n", UISNABAR_LINE_BYTES, UISNABAR_NEXT_BYTES, UISNABAR_HOSTS);
    printf("stack %d\ncount_stack %d\nversion %s\n", UISNABAR_STACK_BYTES, UISNABAR_COUNT_STACK_BYTES, UISNABAR_VERSION);
    return 0;
}
