#include "call.h"

#include <inttypes.h>
#include <stdarg.h>
#include <stdio.h>
#include <string.h>

#include "library.h"
#include "lookups.h"
#include "thread.h"
#include "versions.h"

_Static_assert(UISNABAR_ANSWER_BYTES == ANSWER_BYTES
               && UISNABAR_RECIPE_BYTES == RECIPE_BYTES
               && UISNABAR_WRITTEN_BYTES == WRITTEN_BYTES
               && UISNABAR_NEXT_BYTES == NEXT_BYTES
               && UISNABAR_FOUND_BYTES == FOUND_BYTES
               && UISNABAR_GRID_BYTES == SECOND_GRID_BYTES,
               "the header's lengths are the documents'");

/* The call on its way to the library. */
typedef struct {
    const attempt *t;
    const slot *s;
    uint32_t returned;
} library_call;

bool differ_open(differ *d, uint64_t seed, bool paged)
{
    memset(d, 0, sizeof *d);
    d->seed = seed;
    d->paged = paged;
    d->random.state = seed;
    d->filler.state = ~seed;
    for (int i = 0; i < SLOTS; i++)
        if (!slot_open(&d->slots[i]))
            return false;
    watch_faults();
    d->stack = paged ? thread_stack() : NULL;
    return !paged || d->stack != NULL;
}

void note(differ *d, const char *format, ...)
{
    size_t left = sizeof d->what - d->what_len;
    va_list rest;
    va_start(rest, format);
    int written = vsnprintf(d->what + d->what_len, left, format, rest);
    va_end(rest);
    if (written > 0)
        d->what_len += (size_t)written < left ? (size_t)written : left - 1;
}

void note_back(differ *d, size_t len)
{
    d->what_len = len;
    d->what[len] = 0;
}

/* The functions that are for tests only. */
static uint32_t call_probe(const attempt *t, const slot *s)
{
    second_recipe r = t->recipe;
    switch (t->function) {
    case TABLER:
        return probe_table(s[0].lent, s[0].len, s[1].lent, s[1].len, t->pc,
                           t->fp, s[2].lent, s[2].len, s[3].lent, s[3].len,
                           s[4].lent, s[4].len);
    case MAKER:
        return probe_make(r.version, r.seed, r.m, r.n, s[0].lent, s[0].len,
                          s[1].lent, s[1].len, s[2].lent, s[2].len);
    default:
        return probe_write(r.version, r.seed, r.m, r.n, s[0].lent, s[0].len,
                           s[1].lent, s[1].len);
    }
}

static uint32_t call_listing_pair(const attempt *t, const slot *s)
{
    return (t->function == LISTER ? uisnabar_list : uisnabar_read_listing)(
        s[0].lent, s[0].len, s[1].lent, s[1].len, s[2].lent, s[2].len,
        s[3].lent, s[3].len);
}

static uint32_t call_stream_pair(const attempt *t, const slot *s)
{
    return (t->function == STREAM_JUMP ? uisnabar_jump : uisnabar_host)(
        t->state, t->number, s[0].lent, s[0].len, s[1].lent, s[1].len);
}

/* Both judges, count and finder of ranges. */
static uint32_t call_on_tables(const attempt *t, const slot *s)
{
    switch (t->function) {
    case JUDGE:
        return uisnabar_judge(s[0].lent, s[0].len, s[1].lent, s[1].len, t->pc,
                              t->fp, s[2].lent, s[2].len, s[3].lent, s[3].len,
                              s[4].lent, s[4].len);
    case COUNT:
        return uisnabar_count(s[0].lent, s[0].len, s[1].lent, s[1].len, t->pc,
                              t->fp, s[2].lent, s[2].len, s[3].lent, s[3].len,
                              s[4].lent, s[4].len, s[5].lent, s[5].len);
    case SPLIT:
        return uisnabar_judge_split(s[0].lent, s[0].len, s[1].lent, s[1].len,
                                    s[2].lent, s[2].len, t->pc, t->fp,
                                    s[3].lent, s[3].len, s[4].lent, s[4].len,
                                    s[5].lent, s[5].len);
    default:
        return uisnabar_ranges(s[0].lent, s[0].len, s[1].lent, s[1].len, t->pc,
                               t->fp, s[2].lent, s[2].len, s[3].lent, s[3].len,
                               s[4].lent, s[4].len, s[5].lent, s[5].len,
                               s[6].lent, s[6].len);
    }
}

static void call_library(void *at)
{
    library_call *c = at;
    const slot *s = c->s;
    switch (c->t->function) {
    case JUDGE:
    case COUNT:
    case RANGES:
    case SPLIT:
        c->returned = call_on_tables(c->t, s);
        break;
    case LABEL_READER:
        c->returned = uisnabar_label(s[0].lent, s[0].len, s[1].lent, s[1].len,
                                     s[2].lent, s[2].len);
        break;
    case REPORT:
        c->returned = uisnabar_report(s[0].lent, s[0].len, s[1].lent, s[1].len,
                                      s[2].lent, s[2].len, s[3].lent, s[3].len);
        break;
    case TRANSLATE:
        c->returned = uisnabar_translate(s[0].lent, s[0].len, s[1].lent,
                                         s[1].len, s[2].lent, s[2].len);
        break;
    case LISTER:
    case LIST_READER:
        c->returned = call_listing_pair(c->t, s);
        break;
    case STREAM_JUMP:
    case STREAM_HOST:
        c->returned = call_stream_pair(c->t, s);
        break;
    default:
        c->returned = call_probe(c->t, s);
    }
}

static void print_answer(const char *who, uint32_t returned, size_t len,
                         const uint8_t *bytes)
{
    printf("  %s: returned %" PRIu32, who, returned);
    for (size_t i = 0; len == ANSWER_BYTES && i < NUMBERS; i++)
        printf("%s %" PRIu32, i == 0 ? ", answer" : "",
               load_word(bytes + 4 * i));
    printf("\n");
}

static void print_difference(differ *d, const attempt *t, uint32_t got,
                             uint32_t want)
{
    const slot *told = &d->slots[answer_slot(t->function)];
    printf("difference: seed %" PRIu64 ", call %" PRIu64 ", %s\n", d->seed,
           d->calls, function_names[t->function]);
    print_answer("library", got, told->len, told->lent);
    print_answer("second", want, told->len, told->mirror);
    for (int i = 0; i < SLOTS; i++) {
        size_t at = 0;
        const char *fault = slot_fault(&d->slots[i], &at);
        if (fault != NULL)
            printf("  buffer %d of %zu bytes: %s %zu\n", i, d->slots[i].len,
                   fault, at);
    }
    printf("  tried: %s\n", d->what);
}

second_answer compare(differ *d, const attempt *t)
{
    library_call c = { t, d->slots, 0 };
    uint32_t want;
    size_t at;
    for (int i = 0; i < SLOTS; i++) {
        const buffer *b = &t->lent[i];
        if (b->borrowed)
            slot_borrow(&d->slots[i], b->bytes, b->len);
        else
            slot_lend(&d->slots[i], &d->filler, d->paged, b->bytes, b->len);
    }
    d->calls++;
    d->extra += t->extra || t->function >= COUNT; /* see more_calls */
    prepare_fault(d);
    if (d->paged)
        call_on_thread(d, call_library, &c);
    else
        call_library(&c);
    second_answer a = wanted(t, d->slots, &want);
    tally_add(&d->reached, t->function, a);
    tally_length(&d->reached, t->function, t->lent[answer_slot(t->function)].len);
    count_versions(&d->reached.versions, t, a);
    count_lookup(&d->reached.lookups, t, a);
    bool same = c.returned == want;
    for (int i = 0; i < SLOTS; i++)
        same = same && slot_fault(&d->slots[i], &at) == NULL;
    if (!same && d->differences++ < FULL_DIFFERENCES)
        print_difference(d, t, c.returned, want);
    return a;
}

void differs(differ *d, const char *how)
{
    if (d->differences++ < FULL_DIFFERENCES)
        printf("difference: seed %" PRIu64 ", call %" PRIu64 ", %s\n"
               "  tried: %s\n", d->seed, d->calls, how, d->what);
}
