/* What a fault in a call prints, and calls on a thread with a 32 KiB stack
 * that faults below its end. */
#ifndef DIFFER_THREAD_H
#define DIFFER_THREAD_H

#include "call.h"

/* NULL if the machine gives no room. */
uint8_t *thread_stack(void);

/* From now on a fault prints the call that prepare_fault was last told of and
 * ends the program with 1. */
void watch_faults(void);
void prepare_fault(const differ *d);

/* Calls work(task) on a thread. */
void call_on_thread(differ *d, void (*work)(void *), void *task);

#endif
