/* Listings of 2^20 lines, the most that there may be, and of more; and rooms of
 * more than 2^32 bytes. */
#define _DEFAULT_SOURCE
#include <inttypes.h>
#include <stdio.h>
#include <stdlib.h>
#include <string.h>
#include <sys/mman.h>

#include "library.h"
#include "listings.h"
#include "tries.h"

enum { MOST = 1 << 20, FILL = 0x5a, BEHIND = 64 };

/* A program and its text; which of them both read, and what each writes. */
typedef struct {
    uint8_t *program, *text, *from, *out[2];
    size_t program_len, text_len, len, room;
    bool listing;
} large;

static size_t out_bytes(void)
{
    return (size_t)LONGEST_LINE * (MOST + 1) + BEHIND;
}

/* Lines of all shapes by chance, or the longest alone; one more than there may
 * be stands behind them. */
static void fill_large(large *l, bool longest)
{
    source random = { 1 };
    listed one = { .op = L_XPEQ, .modes = { L_CELL, L_CELL, L_CELL },
                   .words = { P - 1, P - 1, P - 1 }, .be = 1, .n = MOST_N };
    size_t end = 0;
    for (uint32_t i = 0; i <= MOST; i++) {
        if (!longest)
            some_lines(&random, &one, 1);
        l->text_len = end;
        l->program_len = unit_of(PROGRAM) * i;
        store_listed(&one, l->program + l->program_len);
        end += print_line(&one, l->text + end, NULL);
    }
}

static bool open_large(large *l)
{
    l->program = malloc(unit_of(PROGRAM) * (MOST + 1));
    l->text = malloc(out_bytes());
    l->out[0] = malloc(out_bytes());
    l->out[1] = malloc(out_bytes());
    return l->program != NULL && l->text != NULL && l->out[0] != NULL && l->out[1] != NULL;
}

static void close_large(large *l)
{
    free(l->program);
    free(l->text);
    free(l->out[0]);
    free(l->out[1]);
}

/* Both from the same bytes; false where they differ or the answer is another. */
static bool large_both(large *l, const char *name, uint32_t verdict, size_t place)
{
    uint8_t answer[ANSWER_BYTES] = { 0 }, right[ANSWER_BYTES], written[WRITTEN_BYTES] = { 0xff };
    uint64_t length;
    memset(l->out[0], FILL, l->room + BEHIND);
    memset(l->out[1], FILL, l->room + BEHIND);
    uint32_t returned = (l->listing ? uisnabar_list : uisnabar_read_listing)(
        l->from, l->len, l->out[0], l->room, written, sizeof written, answer, sizeof answer);
    second_answer a = (l->listing ? second_list : second_read_listing)(l->from, l->len, l->out[1],
                                                                      l->room, &length);
    store_answer(right, a);
    bool good = returned == verdict && a.verdict == verdict && a.place == place
             && memcmp(answer, right, sizeof right) == 0 && load_word(written) == length
             && load_word(written + 4) == 0 && memcmp(l->out[0], l->out[1], l->room + BEHIND) == 0;
    printf("large, %s, %s: verdict %" PRIu32 ", second %" PRIu32 " place %" PRIu32
           ", written %" PRIu64 "%s\n", l->listing ? "lister" : "listing reader", name, returned,
           a.verdict, a.place, length, good ? "" : ": DIFFERENCE");
    return good;
}

static bool same_bytes(const large *l, const uint8_t *wanted, size_t len)
{
    bool same = memcmp(l->out[0], wanted, len) == 0;
    if (!same)
        printf("large: other bytes than it was made of: DIFFERENCE\n");
    return same;
}

static bool list_large(large *l)
{
    l->listing = true;
    l->from = l->program;
    l->len = l->program_len;
    l->room = l->text_len;
    bool good = large_both(l, "2^20 instructions", ACCEPTED, 0);
    good &= same_bytes(l, l->text, l->text_len);
    l->room = l->text_len - 1;
    good &= large_both(l, "a byte short", SHORT, l->text_len);
    l->room = l->text_len;
    l->len = l->program_len + unit_of(PROGRAM);
    good &= large_both(l, "one instruction too many", SIZE, 0);
    l->len = l->program_len;
    uint8_t *last = l->program + l->program_len - 4;
    uint32_t was = load_word(last);
    store_word(last, 1);
    good &= large_both(l, "the last malformed", INSTRUCTION, MOST - 1);
    store_word(last, P);
    good &= large_both(l, "the last word too large", WORD, FORM_WORDS * MOST - 1);
    store_word(last, was);
    return good;
}

static size_t line_length(const uint8_t *line)
{
    return (size_t)((const uint8_t *)memchr(line, '\n', LONGEST_LINE) - line) + 1;
}

static bool read_large(large *l)
{
    size_t all = l->text_len;
    l->listing = false;
    l->from = l->text;
    l->len = all;
    l->room = l->program_len;
    bool good = large_both(l, "2^20 lines", ACCEPTED, 0);
    good &= same_bytes(l, l->program, l->program_len);
    l->room = l->program_len - 1;
    good &= large_both(l, "a byte short", SHORT, l->program_len);
    l->room = l->program_len + unit_of(PROGRAM);
    l->len = all - 1;
    good &= large_both(l, "without the last LF", LISTING, all - 1);
    l->len = all + 1;
    good &= large_both(l, "with an o behind", LISTING, all);
    l->len = all + line_length(l->text + all);
    good &= large_both(l, "one line too many", LISTING, all);
    uint8_t *end = l->text + all - 1;
    *end = '\r';
    good &= large_both(l, "the last LF a CR", LISTING, all - 1);
    *end = '\n';
    return good;
}

/* A room that is none in its low 32 bits; no more than its first bytes are
 * touched. */
static bool try_wide(large *l, bool listing)
{
    size_t room = ((size_t)1 << 32) + 5, line = line_length(l->text), form = unit_of(PROGRAM);
    uint8_t *wide = mmap(NULL, room, PROT_READ | PROT_WRITE,
                         MAP_PRIVATE | MAP_ANONYMOUS | MAP_NORESERVE, -1, 0);
    uint8_t answer[ANSWER_BYTES], written[WRITTEN_BYTES];
    if (wide == MAP_FAILED) {
        printf("skipped: a room of more than 2^32 bytes, for want of address space\n");
        return true;
    }
    uint32_t returned = (listing ? uisnabar_list : uisnabar_read_listing)(
        listing ? l->program : l->text, listing ? form : line, wide, room, written, sizeof written,
        answer, sizeof answer);
    bool good = returned == ACCEPTED
             && memcmp(wide, listing ? l->text : l->program, listing ? line : form) == 0;
    printf("large, %s in 2^32 + 5 bytes: verdict %" PRIu32 "%s\n",
           listing ? "lister" : "listing reader", returned, good ? "" : ": DIFFERENCE");
    munmap(wide, room);
    return good;
}

bool try_large_listings(void)
{
    large l = { .listing = true };
    if (!open_large(&l)) {
        printf("large: no room for listings\n");
        return false;
    }
    fill_large(&l, false);
    bool good = list_large(&l);
    good &= read_large(&l);
    good &= try_wide(&l, true);
    good &= try_wide(&l, false);
    fill_large(&l, true);
    good &= l.text_len == (size_t)LONGEST_LINE * MOST;
    good &= list_large(&l);
    good &= read_large(&l);
    close_large(&l);
    return good;
}
