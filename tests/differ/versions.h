/* Both versions of a recipe, in labels and numbers. */
#ifndef DIFFER_VERSIONS_H
#define DIFFER_VERSIONS_H

#include "call.h"

/* Counts what a call reached of them, from what was lent and the second's
 * answer. */
void count_versions(version_tally *v, const attempt *t, second_answer a);

/* Every cut of a label, byte for its version and length of the recipe's buffer,
 * every version to maker and writer, every seed of seeds.h before every cell. */
void try_versions(differ *d);

#endif
