#define _DEFAULT_SOURCE
#include "thread.h"

#include <inttypes.h>
#include <pthread.h>
#include <signal.h>
#include <stdio.h>
#include <stdlib.h>
#include <string.h>
#include <sys/mman.h>
#include <unistd.h>

enum { STACK = 32 << 10 };

typedef struct {
    void (*work)(void *);
    void *task;
} errand;

/* Written before each call, since a handler may not format. */
static char last_words[1400];

/* The handler cannot run on the stack that may have run out. */
static uint8_t handler_stack[64 << 10];

uint8_t *thread_stack(void)
{
    size_t page = (size_t)sysconf(_SC_PAGESIZE);
    uint8_t *all = mmap(NULL, STACK + page, PROT_NONE,
                        MAP_PRIVATE | MAP_ANONYMOUS, -1, 0);
    if (all == MAP_FAILED
        || mprotect(all + page, STACK, PROT_READ | PROT_WRITE) != 0)
        return NULL;
    return all + page;
}

static void on_fault(int signal_number)
{
    (void)signal_number;
    ssize_t written = write(STDOUT_FILENO, last_words, strlen(last_words));
    _exit(written < 0 ? 2 : 1);
}

static void *run_errand(void *at)
{
    errand *e = at;
    stack_t other = { .ss_sp = handler_stack, .ss_size = sizeof handler_stack };
    sigaltstack(&other, NULL);
    e->work(e->task);
    return NULL;
}

void watch_faults(void)
{
    struct sigaction act = { .sa_handler = on_fault, .sa_flags = SA_ONSTACK };
    sigaction(SIGSEGV, &act, NULL);
    sigaction(SIGBUS, &act, NULL);
}

void prepare_fault(const differ *d)
{
    snprintf(last_words, sizeof last_words,
             "fault: seed %" PRIu64 ", call %" PRIu64 "\n  tried: %s\n",
             d->seed, d->calls, d->what);
    fflush(stdout);
}

void call_on_thread(differ *d, void (*work)(void *), void *task)
{
    errand e = { work, task };
    pthread_attr_t attributes;
    pthread_t thread;
    if (pthread_attr_init(&attributes) != 0
        || pthread_attr_setstack(&attributes, d->stack, STACK) != 0
        || pthread_create(&thread, &attributes, run_errand, &e) != 0
        || pthread_join(thread, NULL) != 0) {
        fprintf(stderr, "differ: no thread with a stack of %d bytes\n", STACK);
        exit(2);
    }
    pthread_attr_destroy(&attributes);
}
