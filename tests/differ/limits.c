/* The largest lengths and the next ones.  No byte of the large part need be
 * read, since the program's first word is refused once all lengths are good;
 * only a large program is read, and that takes a moment.  An old program is
 * read whole: its zeros are words, and only its first instruction is refused. */
#define _DEFAULT_SOURCE
#include "listings.h"
#include "olds.h"
#include "tries.h"

#include <stdio.h>
#include <sys/mman.h>

static const size_t most[PARTS] = { (size_t)1 << 20, (size_t)1 << 29,
                                    (size_t)1 << 25, (size_t)1 << 20 };

static const enum function functions[] = { JUDGE, TABLER, COUNT, RANGES };

static void try_limit(differ *d, enum function f, int part, size_t count,
                      uint8_t *zeros)
{
    static uint8_t bytes[PARTS][256 * 4 * EXT_WORDS];
    attempt t = { .function = f, .lent = { { NULL, 0, false } } };
    for (int i = 0; i < PARTS; i++)
        t.lent[i] = (buffer){ bytes[i], 256 * unit_of(i), false };
    store_word(bytes[PROGRAM], P);
    t.lent[part] = (buffer){ zeros, unit_of(part) * count, true };
    t.lent[PARTS].len = f == COUNT ? SECOND_GRID_BYTES : 0;
    t.lent[PARTS + 1].len = f == RANGES ? FOUND_BYTES : 0;
    t.lent[answer_slot(f)].len = ANSWER_BYTES;
    note_back(d, 0);
    note(d, "part %d with %zu of %zu bytes", part + 1, count, unit_of(part));
    compare(d, &t);
}

/* Instructions of zeros have no opcode. */
static void try_old_limit(differ *d, size_t count, uint8_t *zeros)
{
    attempt t = { .function = TRANSLATE };
    t.lent[0] = (buffer){ zeros, OLD_UNIT * count, true };
    t.lent[1] = (buffer){ zeros + OLD_UNIT * count, unit_of(PROGRAM) * count,
                          true };
    t.lent[2].len = ANSWER_BYTES;
    note_back(d, 0);
    note(d, "%zu old instructions of zeros", count);
    compare(d, &t);
}

/* Zeros are no instruction, and no byte of a listing is one. */
static void try_list_limit(differ *d, enum function f, size_t len, uint8_t *zeros)
{
    attempt t = { .function = f };
    t.lent[0] = (buffer){ zeros, len, true };
    t.lent[1] = (buffer){ zeros, len, true };
    t.lent[2].len = WRITTEN_BYTES;
    t.lent[3].len = ANSWER_BYTES;
    note_back(d, 0);
    note(d, "%zu bytes of zeros to the %s", len, function_names[f]);
    compare(d, &t);
}

/* A write to these bytes faults, so nothing has to be compared. */
void try_limits(differ *d)
{
    size_t bytes = 2 * most[MEMORY] * unit_of(MEMORY);
    uint8_t *zeros = mmap(NULL, bytes, PROT_READ,
                          MAP_PRIVATE | MAP_ANONYMOUS | MAP_NORESERVE, -1, 0);
    if (zeros == MAP_FAILED) {
        printf("skipped: the largest lengths, for want of address space\n");
        return;
    }
    for (int part = 0; part < PARTS; part++) {
        size_t next = part == PROGRAM ? most[part] + 1 : 2 * most[part];
        for (int i = 0; i < 8 && more_calls(d); i++)
            try_limit(d, functions[i / 2], part,
                      i % 2 == 0 ? most[part] : next, zeros);
    }
    try_old_limit(d, most[PROGRAM], zeros);
    try_old_limit(d, most[PROGRAM] + 1, zeros);
    try_list_limit(d, LISTER, unit_of(PROGRAM) * most[PROGRAM], zeros);
    try_list_limit(d, LISTER, unit_of(PROGRAM) * (most[PROGRAM] + 1), zeros);
    try_list_limit(d, LIST_READER, bytes, zeros);
    munmap(zeros, bytes);
}
