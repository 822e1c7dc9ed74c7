#ifndef CALLS_H
#define CALLS_H

#include <stddef.h>
#include <stdint.h>

#include "inputs.h"

typedef struct {
    speed_input *in;
    const uint8_t *ext; /* the extension table that is judged */
    uint64_t seed;
    uint32_t m, n, version;
    uint8_t text[64]; /* a label */
    size_t text_len;
    size_t calls;    /* so many calls are timed as one */
    uint32_t wanted; /* the verdict that each must give */
    unsigned bits;   /* of the draws, or of the host */
    size_t public;   /* so many of the memory's bytes are public */
} job;

typedef uint32_t (*call)(job *j);

/* Ends the program where a verdict is another than was wanted. */
void expect(uint32_t verdict, uint32_t wanted, const char *what);

/* The label of a recipe of the job's version with m 10 in `text`; its length. */
size_t write_label(job *j, uint32_t n);

uint32_t library_judge(job *j);
uint32_t library_split(job *j);
uint32_t second_judges(job *j);
uint32_t second_sorts(job *j);
uint32_t library_count(job *j);
uint32_t second_counts(job *j);
uint32_t library_ranges(job *j);
uint32_t second_finds(job *j);
uint32_t library_table(job *j);
uint32_t second_tables(job *j);
uint32_t library_make(job *j);
uint32_t second_makes(job *j);
uint32_t library_translate(job *j);
uint32_t second_translates(job *j);
uint32_t library_list(job *j);
uint32_t second_lists(job *j);
uint32_t library_read_listing(job *j);
uint32_t second_reads_listing(job *j);
uint32_t library_label(job *j);
uint32_t second_label(job *j);
uint32_t library_jump(job *j);
uint32_t second_jumps(job *j);
uint32_t library_host(job *j);
uint32_t second_hosts(job *j);
uint32_t library_whole(job *j);
uint32_t second_whole(job *j);

#endif
