/* Old programs of 2^20 instructions, the most that there may be, and of one more. */
#include <inttypes.h>
#include <stdio.h>
#include <stdlib.h>
#include <string.h>

#include "library.h"
#include "olds.h"
#include "tries.h"

enum { MOST = 1 << 20, FILL = 0x5a };

typedef struct {
    uint8_t *old, *program, *mirror;
    uint32_t count;
} large;

static bool open_large(large *l)
{
    source random = { 1 };
    l->old = malloc((size_t)OLD_UNIT * (MOST + 1));
    l->program = malloc(unit_of(PROGRAM) * (MOST + 1));
    l->mirror = malloc(unit_of(PROGRAM) * (MOST + 1));
    if (l->old == NULL || l->program == NULL || l->mirror == NULL)
        return false;
    olds one = { .count = 1 };
    for (uint32_t i = 0; i <= MOST; i++) {
        some_old(&random, 1 << 20, one.words[0]);
        store_olds(&one, l->old + (size_t)OLD_UNIT * i);
    }
    return true;
}

/* Both from the same bytes; false where they differ or the verdict is another. */
static bool translate_both(large *l, const char *name, uint32_t verdict,
                           uint32_t place)
{
    size_t old_len = (size_t)OLD_UNIT * l->count, len = unit_of(PROGRAM) * l->count;
    uint8_t answer[ANSWER_BYTES] = { 0 }, wanted[ANSWER_BYTES];
    memset(l->program, FILL, len);
    memset(l->mirror, FILL, len);
    uint32_t returned = uisnabar_translate(l->old, old_len, l->program, len,
                                           answer, sizeof answer);
    second_answer a = second_translate(l->old, old_len, l->mirror, len);
    store_answer(wanted, a);
    bool good = returned == verdict && a.verdict == verdict && a.place == place
             && memcmp(answer, wanted, sizeof wanted) == 0
             && memcmp(l->program, l->mirror, len) == 0;
    printf("large, %" PRIu32 " old instructions, %s: verdict %" PRIu32 ", second %"
           PRIu32 " place %" PRIu32 "%s\n", l->count, name, returned, a.verdict,
           a.place, good ? "" : ": DIFFERENCE");
    return good;
}

bool try_large_olds(void)
{
    large l = { .count = MOST };
    if (!open_large(&l)) {
        printf("large: no room for old programs\n");
        return false;
    }
    uint8_t *last = l.old + (size_t)OLD_UNIT * (MOST - 1);
    bool good = translate_both(&l, "translatable", ACCEPTED, 0);
    l.count = MOST + 1;
    good &= translate_both(&l, "one too many", SIZE, 0);
    l.count = MOST;
    store_word(last + 4 * O_AUX_2, 1);
    good &= translate_both(&l, "the last not translatable", EDITION, MOST - 1);
    store_word(last + 4 * O_AUX_2, P);
    good &= translate_both(&l, "the last word too large", WORD, OLD_WORDS * MOST - 1);
    store_word(l.old + 4 * O_AUX_2, 1);
    good &= translate_both(&l, "and the first not translatable", WORD,
                           OLD_WORDS * MOST - 1);
    free(l.old);
    free(l.program);
    free(l.mirror);
    return good;
}
