/* A thread whose stack was painted before, and how much of it some work touched. */
#ifndef PAINT_H
#define PAINT_H

#include <stddef.h>

/* Ends the program with 2 where there is no room for the stack, or no thread. */
void lay_stack(void);

/* How many bytes from the stack's top on a thread with this work touched. */
size_t touched(void *(*work)(void *), void *with);

#endif
