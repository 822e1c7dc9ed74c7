#define _DEFAULT_SOURCE
#include "paint.h"

#include <pthread.h>
#include <stdint.h>
#include <stdlib.h>
#include <string.h>
#include <sys/mman.h>

enum { ROOM = 256 << 10, PAINT = 0xa5 };

static uint8_t *stack;

void lay_stack(void)
{
    stack = mmap(NULL, ROOM, PROT_READ | PROT_WRITE, MAP_PRIVATE | MAP_ANONYMOUS, -1, 0);
    if (stack == MAP_FAILED)
        exit(2);
}

size_t touched(void *(*work)(void *), void *with)
{
    pthread_attr_t attributes;
    pthread_t thread;
    memset(stack, PAINT, ROOM);
    if (pthread_attr_init(&attributes) != 0 || pthread_attr_setstack(&attributes, stack, ROOM) != 0
        || pthread_create(&thread, &attributes, work, with) != 0 || pthread_join(thread, NULL) != 0)
        exit(2);
    pthread_attr_destroy(&attributes);
    size_t at = 0;
    while (at < ROOM && stack[at] == PAINT)
        at++;
    return ROOM - at;
}
