/* Memories in two buffers: calls on a world that is cut somewhere. */
#ifndef DIFFER_SPLITS_H
#define DIFFER_SPLITS_H

#include "builder.h"

/* Where the buffers of such a call stand. */
enum { S_PROGRAM, S_PUBLIC, S_REST, S_EXECUTION, S_EXTENSIONS, S_ANSWER };

/* split_count.c: m and k of two lengths in bytes; m is 0 where they are none of a
 * memory that is cut behind 2^k of its 2^m words. */
typedef struct {
    uint32_t m, k;
} cut;

cut cut_of(size_t public_len, size_t rest_len);

/* Counts what a call met, by the bytes that were handed in. */
void count_split(split_tally *s, const attempt *t, second_answer a);

/* splits.c: a call on a world whose memory's first bytes are the public ones and
 * the next ones the rest, whatever its own length is. */
attempt split_of(differ *d, const world *w, size_t public_len, size_t rest_len);

/* Compares the call and, where its lengths are good, its answer with the
 * library's on the two joined.  The rest's bytes must follow the public ones. */
second_answer compare_split(differ *d, const attempt *t);

/* The same for such a world, with an answer of the right length; cut behind 2^k
 * words. */
second_answer call_split(differ *d, const world *w, size_t public_len,
                         size_t rest_len);
second_answer call_cut(differ *d, const world *w, uint32_t k);

/* A call on a world that rounds.c has, cut by chance. */
void try_split(differ *d, const world *w);

/* A run that halts at once, so that every row of both tables may look up any
 * cell; its memory has no two words alike but by chance, and no 0. */
void build_halted(differ *d, world *w, uint32_t m);

/* split_cells.c: lookups and words about the seam and the end of a memory of 2^m
 * words.  `right` and `other` are worlds to work in. */
void try_split_cells(differ *d, world *right, world *other, uint32_t m, uint32_t k);

/* split_groups.c: groups across the seam, and each verdict from there. */
void try_split_groups(differ *d, world *right, world *other, uint32_t m, uint32_t k);

/* split_lengths.c: lengths that are good and not, and which part comes first. */
void try_split_lengths(differ *d, world *right, world *other);

#endif
