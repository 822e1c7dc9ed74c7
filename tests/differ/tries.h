/* What is tried, by function. */
#ifndef DIFFER_TRIES_H
#define DIFFER_TRIES_H

#include "grids.h"
#include "world.h"

/* labels.c: a label, valid or not, to the reader. */
void try_label(differ *d);

/* recipes.c: a recipe, in range or not, to the writer and to the maker. */
second_recipe some_recipe(source *random, bool in_range);
size_t some_answer_length(source *random);
size_t some_recipe_length(source *random);
void try_writer(differ *d);
void try_maker(differ *d);

/* counts.c: a count of a world's tables, from some grid or a campaign's; one
 * with a grid given, which is then as the library left it; a grid's report. */
void try_count(differ *d, const world *w);
second_answer count_world(differ *d, const world *w, size_t grid_len,
                          size_t answer_len, grid *g);
void try_report(differ *d);
void report_grid(differ *d, const grid *g);

/* Whether the campaign's total is the rows of what was accepted. */
void end_campaign(differ *d);

/* answers.c: each function with answer buffers of other lengths. */
void try_answers(differ *d);

/* forms.c: a program that has every form, against the numbers it was made of. */
bool forms_open(void);
void try_forms(differ *d);

/* translations.c: an old program to the translation, as it is or spoilt; once
 * every flag, opcode and AUX word, 0, 1 or another. */
void try_translation(differ *d);
void try_every_old(differ *d);

/* old_runs.c: an old program's run beside its translation's. */
bool old_runs_open(void);
void try_old_runs(differ *d);

/* listing_tries.c: a program to the lister or a text to its reader, as it is,
 * spoilt or damaged; listing_sweeps.c: once every cut, byte, mode, room and
 * instruction. */
void try_listing(differ *d);
void try_listing_sweeps(differ *d);

/* streams.c: jumps and hosts by chance with the laws between them; once every
 * width of a number, edge of a host and length of a buffer. */
void try_stream(differ *d);
void try_stream_edges(differ *d);

/* ranges.c: range checks in a world made for them; once every way to lack one,
 * room and length of a buffer. */
bool ranges_open(void);
void try_range_world(differ *d);
void try_range_edges(differ *d);

/* splits.c: once, memories in two buffers: every cut of small ones, lookups and
 * words about the seam, lengths. */
bool splits_open(void);
void try_split_edges(differ *d);

/* large.c: tables of many groups; false where the two differ. */
bool try_large(void);

/* large_old.c: old programs of as many instructions as there may be. */
bool try_large_olds(void);

/* large_listing.c: listings of as many lines as there may be. */
bool try_large_listings(void);

/* large_ranges.c: a table of nothing but range checks. */
bool try_large_ranges(void);

/* large_split.c: a large memory in two buffers. */
bool try_large_splits(void);

/* limits.c: lengths at the largest of each part and just above. */
void try_limits(differ *d);

/* rounds.c: one world through tabler and judge in many ways. */
bool rounds_open(void);
void try_world(differ *d);

#endif
