/* One compared call: the library and the second get the same bytes. */
#ifndef DIFFER_CALL_H
#define DIFFER_CALL_H

#include "../second/second.h"
#include "lend.h"
#include "tally.h"

enum { SLOTS = 7, FULL_DIFFERENCES = 10, NUMBERS = 6, ANSWER_BYTES = 4 * NUMBERS,
       RECIPE_BYTES = 20, WRITTEN_BYTES = 8, NEXT_BYTES = 8, FOUND_BYTES = 8 };

/* A buffer at entry; bytes NULL stands for random bytes. */
typedef struct {
    uint8_t *bytes;
    size_t len;
    bool borrowed; /* see slot_borrow */
} buffer;

/* What is to be tried.  Buffers stand in the order of the parameters, the
 * answer's last but for the label reader, whose recipe comes after it. */
typedef struct {
    enum function function;
    uint64_t pc, fp;      /* judges, count, finder and tabler */
    second_recipe recipe; /* maker and writer */
    uint64_t state, number; /* jump and host: a seed, and draws or a host */
    buffer lent[SLOTS];
    bool sorted;          /* the bus would be slow to count */
    bool extra;           /* beside the calls that are asked for */
} attempt;

typedef struct {
    uint64_t seed, limit, differences;
    uint64_t calls, extra; /* all of them; those beside what is asked for */
    source random; /* for what is tried */
    source filler; /* for random bytes and where buffers stand */
    bool paged;
    uint8_t *stack; /* of the thread, paged */
    slot slots[SLOTS];
    tally reached;
    char what[1200]; /* what is tried, in words */
    size_t what_len;
} differ;

/* False if the machine gives no room. */
bool differ_open(differ *d, uint64_t seed, bool paged);

/* Adds to the words on what is tried; takes back all but the first len. */
void note(differ *d, const char *format, ...);
void note_back(differ *d, size_t len);

/* More calls are asked for.  Counts, reports, translations with what is tabled
 * of these, listings, streams, range checks, memories in two buffers and recipes'
 * runs come beside, so that they take the place of no other. */
static inline bool more_calls(const differ *d)
{
    return d->calls - d->extra < d->limit;
}

/* Which slot the answer is in. */
int answer_slot(enum function f);

/* The answer's bytes. */
void store_answer(uint8_t to[ANSWER_BYTES], second_answer a);

/* wanted.c: what the caller must be told, with all mirrors as the buffers must
 * end.  ANSWER is the C call's own, so the second knows nothing of it. */
second_answer wanted(const attempt *t, const slot *s, uint32_t *returned);

/* Calls both, compares everything, counts what was reached; gives the second's
 * answer.  The slots then hold what the library left. */
second_answer compare(differ *d, const attempt *t);

/* A difference that no comparison of bytes tells. */
void differs(differ *d, const char *how);

#endif
