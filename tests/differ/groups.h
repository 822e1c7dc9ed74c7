/* Inside damage_ext.c and damage_groups.c only. */
#ifndef DIFFER_GROUPS_H
#define DIFFER_GROUPS_H

#include "world.h"

/* The rows up to the last that has an operation. */
uint32_t busy_groups(const world *w);

/* Mostly a row of a group, sometimes one of the padding. */
uint32_t some_ext_row(differ *d, const world *w);

/* Groups moved, doubled, dropped or invented. */
void damage_groups(differ *d, world *w);

#endif
