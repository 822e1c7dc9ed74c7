#define _DEFAULT_SOURCE
#include "lend.h"

#include <signal.h>
#include <stdlib.h>
#include <string.h>
#include <sys/mman.h>
#include <sys/wait.h>
#include <unistd.h>

enum { GUARD = 64 };

static uint8_t guard_byte(size_t i)
{
    return (uint8_t)(0x5a + 37 * i);
}

bool slot_open(slot *s)
{
    size_t page = (size_t)sysconf(_SC_PAGESIZE);
    uint8_t *all = mmap(NULL, CAPACITY + 2 * page, PROT_NONE,
                        MAP_PRIVATE | MAP_ANONYMOUS, -1, 0);
    s->spare = calloc(1, CAPACITY);
    if (all == MAP_FAILED || s->spare == NULL)
        return false;
    s->room = all + page;
    return mprotect(s->room, CAPACITY, PROT_READ | PROT_WRITE) == 0;
}

enum { FAULTED = 77 };

static void faulted(int signal)
{
    (void)signal;
    _exit(FAULTED);
}

static bool read_faults(const volatile uint8_t *byte)
{
    pid_t child = fork();
    if (child == 0) {
        signal(SIGSEGV, faulted);
        signal(SIGBUS, faulted);
        _exit(*byte == 0 ? 0 : 1);
    }
    int status;
    return child > 0 && waitpid(child, &status, 0) == child && WIFEXITED(status) && WEXITSTATUS(status) == FAULTED;
}

bool pages_fault(void)
{
    slot s;
    return slot_open(&s) && read_faults(s.room - 1) && read_faults(s.room + CAPACITY) && !read_faults(s.room);
}

/* The guard bytes there is room for before and after the buffer. */
static size_t guards_before(const slot *s)
{
    size_t free_bytes = (size_t)(s->lent - s->room);
    return free_bytes < GUARD ? free_bytes : GUARD;
}

static size_t guards_after(const slot *s)
{
    size_t free_bytes = (size_t)(s->room + CAPACITY - s->lent) - s->len;
    return free_bytes < GUARD ? free_bytes : GUARD;
}

static void fill(slot *s, source *random, const uint8_t *bytes)
{
    if (s->len != 0 && bytes != NULL)
        memcpy(s->lent, bytes, s->len);
    for (size_t i = 0; i < s->len && bytes == NULL; i += 8) {
        uint64_t number = next_number(random);
        memcpy(s->lent + i, &number, s->len - i < 8 ? s->len - i : 8);
    }
    if (s->len != 0)
        memcpy(s->mirror, s->lent, s->len);
}

void slot_lend(slot *s, source *random, bool paged, const uint8_t *bytes,
               size_t len)
{
    s->len = len;
    s->mirror = s->spare;
    if (len == 0 && (paged || once_in(random, 2))) {
        s->lent = NULL;
        return;
    }
    if (!paged) /* at any alignment */
        s->lent = s->room + GUARD + below(random, 16);
    else
        s->lent = once_in(random, 2) ? s->room : s->room + CAPACITY - len;
    for (size_t i = 0; i < guards_before(s); i++)
        s->lent[-1 - (ptrdiff_t)i] = guard_byte(i);
    for (size_t i = 0; i < guards_after(s); i++)
        s->lent[len + i] = guard_byte(i);
    fill(s, random, bytes);
}

void slot_borrow(slot *s, uint8_t *bytes, size_t len)
{
    s->lent = s->mirror = bytes;
    s->len = len;
}

const char *slot_fault(const slot *s, size_t *at)
{
    if (s->lent == NULL || s->lent == s->mirror)
        return NULL;
    for (*at = 0; *at < guards_before(s); ++*at)
        if (s->lent[-1 - (ptrdiff_t)*at] != guard_byte(*at))
            return "bytes before";
    for (*at = 0; *at < guards_after(s); ++*at)
        if (s->lent[s->len + *at] != guard_byte(*at))
            return "bytes after";
    if (memcmp(s->lent, s->mirror, s->len) == 0)
        return NULL;
    *at = 0;
    while (s->lent[*at] == s->mirror[*at])
        ++*at;
    return "byte";
}
