/* Buffers as the library gets them: each stands alone, with guard bytes or an
 * untouchable page at its ends, and has a mirror for the second. */
#ifndef DIFFER_LEND_H
#define DIFFER_LEND_H

#include <stddef.h>

#include "random.h"

enum { CAPACITY = (4 << 20) + (64 << 10) };

typedef struct {
    uint8_t *room;   /* CAPACITY bytes between two pages that fault */
    uint8_t *spare;  /* CAPACITY bytes for the mirror */
    uint8_t *lent;   /* what the library gets */
    uint8_t *mirror; /* what the second gets; the two must end equal */
    size_t len;
} slot;

/* False if the machine gives no room. */
bool slot_open(slot *s);

/* Whether a read of the byte before a room, and of the one behind it, faults. */
bool pages_fault(void);

/* Fills both copies: from bytes, or at random where bytes is NULL.  Paged, the
 * first or last byte stands at a page that faults. */
void slot_lend(slot *s, source *random, bool paged, const uint8_t *bytes,
               size_t len);

/* Lends bytes that no write can reach and that are too many to copy. */
void slot_borrow(slot *s, uint8_t *bytes, size_t len);

/* NULL if the copies are equal and the guards whole; else what is not, and
 * the byte. */
const char *slot_fault(const slot *s, size_t *at);

#endif
