/* What is timed: the calls of both implementations, on one set of buffers. */
#include "calls.h"

#include <stdio.h>
#include <stdlib.h>
#include <string.h>

#include "../differ/library.h"
#include "../differ/random.h"
#include "../second/second.h"

static uint8_t answer[UISNABAR_ANSWER_BYTES], recipe[UISNABAR_RECIPE_BYTES], grid[SECOND_GRID_BYTES];
static uint8_t written[UISNABAR_WRITTEN_BYTES], found[UISNABAR_FOUND_BYTES], next[UISNABAR_NEXT_BYTES];
static source numbers;

void expect(uint32_t verdict, uint32_t wanted, const char *what)
{
    uint32_t n[6];
    if (verdict != wanted) {
        memcpy(n, answer, sizeof n);
        printf("%s has another answer: verdict %u, part %u, place %u, rule %u, expected %u, found %u\n", what, n[0], n[1], n[2], n[3],
               n[4], n[5]);
        exit(1);
    }
}

static void put_word(uint8_t *at, uint32_t word)
{
    for (int k = 0; k < 4; k++)
        at[k] = (uint8_t)(word >> 8 * k);
}

/* the second implementation's answer in bytes, as the library's calls fill them: x86-64 has the lowest byte first */
static uint32_t told(second_answer a)
{
    _Static_assert(sizeof a == sizeof answer, "six numbers of four bytes");
    memcpy(answer, &a, sizeof a);
    return a.verdict;
}

uint32_t library_judge(job *j)
{
    speed_input *in = j->in;
    return uisnabar_judge(in->program, in->program_len, in->memory, in->memory_len, 0, 0, in->exec, in->exec_len, j->ext, in->ext_len,
                          answer, sizeof answer);
}

/* both buffers where the whole memory stands, so that the same bytes are read */
uint32_t library_split(job *j)
{
    speed_input *in = j->in;
    return uisnabar_judge_split(in->program, in->program_len, in->memory, j->public, in->memory + j->public, in->memory_len - j->public,
                                0, 0, in->exec, in->exec_len, j->ext, in->ext_len, answer, sizeof answer);
}

uint32_t second_judges(job *j)
{
    speed_input *in = j->in;
    return told(second_judge(in->program, in->program_len, in->memory, in->memory_len, 0, 0, in->exec, in->exec_len, j->ext, in->ext_len));
}

uint32_t second_sorts(job *j)
{
    speed_input *in = j->in;
    return told(second_judge_sorted(in->program, in->program_len, in->memory, in->memory_len, 0, 0, in->exec, in->exec_len, j->ext,
                                    in->ext_len));
}

/* the grid fills up from call to call, and is never near its limit */
uint32_t library_count(job *j)
{
    speed_input *in = j->in;
    return uisnabar_count(in->program, in->program_len, in->memory, in->memory_len, 0, 0, in->exec, in->exec_len, j->ext, in->ext_len,
                          grid, sizeof grid, answer, sizeof answer);
}

uint32_t second_counts(job *j)
{
    speed_input *in = j->in;
    return told(second_count(in->program, in->program_len, in->memory, in->memory_len, 0, 0, in->exec, in->exec_len, j->ext, in->ext_len,
                             grid));
}

/* finds go where the shuffled table stands later, which is longer than all that there may be */
uint32_t library_ranges(job *j)
{
    speed_input *in = j->in;
    return uisnabar_ranges(in->program, in->program_len, in->memory, in->memory_len, 0, 0, in->exec, in->exec_len, j->ext, in->ext_len,
                           in->shuffled, in->ext_len, found, sizeof found, answer, sizeof answer);
}

uint32_t second_finds(job *j)
{
    speed_input *in = j->in;
    uint64_t count;
    return told(second_ranges(in->program, in->program_len, in->memory, in->memory_len, 0, 0, in->exec, in->exec_len, j->ext, in->ext_len,
                              in->shuffled, in->ext_len, &count));
}

uint32_t library_table(job *j)
{
    speed_input *in = j->in;
    return probe_table(in->program, in->program_len, in->memory, in->memory_len, 0, 0, in->exec, in->exec_len, in->ext, in->ext_len,
                       answer, sizeof answer);
}

uint32_t second_tables(job *j)
{
    speed_input *in = j->in;
    return told(second_table(in->program, in->program_len, in->memory, in->memory_len, 0, 0, in->exec, in->exec_len, in->ext, in->ext_len));
}

uint32_t library_make(job *j)
{
    speed_input *in = j->in;
    return probe_make(j->version, j->seed, j->m, j->n, in->program, 48 * (j->n + 1), in->memory, (size_t)4 << j->m,
                      answer, sizeof answer);
}

uint32_t second_makes(job *j)
{
    speed_input *in = j->in;
    second_recipe r = {j->seed, j->m, j->n, j->version};
    return told(second_make(r, in->program, 48 * (j->n + 1), in->memory, (size_t)4 << j->m));
}

uint32_t library_translate(job *j)
{
    speed_input *in = j->in;
    return uisnabar_translate(in->old, in->old_len, in->program, in->program_len, answer, sizeof answer);
}

uint32_t second_translates(job *j)
{
    speed_input *in = j->in;
    return told(second_translate(in->old, in->old_len, in->program, in->program_len));
}

uint32_t library_list(job *j)
{
    speed_input *in = j->in;
    return uisnabar_list(in->program, in->program_len, in->text, in->text_len, written, sizeof written, answer,
                         sizeof answer);
}

uint32_t second_lists(job *j)
{
    speed_input *in = j->in;
    uint64_t length;
    return told(second_list(in->program, in->program_len, in->text, in->text_len, &length));
}

uint32_t library_read_listing(job *j)
{
    speed_input *in = j->in;
    return uisnabar_read_listing(in->text, in->text_len, in->program, in->program_len, written, sizeof written, answer,
                                 sizeof answer);
}

uint32_t second_reads_listing(job *j)
{
    speed_input *in = j->in;
    uint64_t length;
    return told(second_read_listing(in->text, in->text_len, in->program, in->program_len, &length));
}

/* labels of every seed in turn, so that no call can be left out */
static void next_seed(job *j)
{
    j->text[10 + j->seed % 15] = (uint8_t)('0' + j->seed % 10);
    j->seed++;
}

uint32_t library_label(job *j)
{
    next_seed(j);
    return uisnabar_label(j->text, j->text_len, answer, sizeof answer, recipe, sizeof recipe);
}

uint32_t second_label(job *j)
{
    second_recipe r;
    next_seed(j);
    second_answer a = second_read_label(j->text, j->text_len, &r);
    put_word(recipe, (uint32_t)r.seed);
    put_word(recipe + 4, (uint32_t)(r.seed >> 32));
    put_word(recipe + 8, r.m);
    put_word(recipe + 12, r.n);
    put_word(recipe + 16, r.version);
    return told(a);
}

/* another number each time, from where the last call went, so that no two run at once; the number's own time is of both */
static uint64_t some_number(const job *j)
{
    return next_number(&numbers) >> (64 - j->bits);
}

static uint32_t gone_on(job *j, uint32_t verdict)
{
    memcpy(&j->seed, next, sizeof next);
    return verdict;
}

uint32_t library_jump(job *j)
{
    return gone_on(j, uisnabar_jump(j->seed, some_number(j), next, sizeof next, answer, sizeof answer));
}

uint32_t second_jumps(job *j)
{
    uint64_t state = second_jump(j->seed, some_number(j));
    memcpy(next, &state, sizeof next);
    return gone_on(j, told((second_answer){.verdict = 0}));
}

uint32_t library_host(job *j)
{
    return gone_on(j, uisnabar_host(j->seed, some_number(j), next, sizeof next, answer, sizeof answer));
}

uint32_t second_hosts(job *j)
{
    uint64_t state;
    second_answer a = second_host(j->seed, some_number(j), &state);
    memcpy(next, &state, sizeof next);
    return gone_on(j, told(a));
}

/* a recipe made, tabled and judged at H = K = 256, another seed each time */
uint32_t library_whole(job *j)
{
    j->seed++;
    uint32_t made = library_make(j), tabled = library_table(j);
    return made | tabled | library_judge(j);
}

uint32_t second_whole(job *j)
{
    j->seed++;
    uint32_t made = second_makes(j), tabled = second_tables(j);
    return made | tabled | second_judges(j);
}

size_t write_label(job *j, uint32_t n)
{
    return probe_write(j->version, 0x0123456789abcdef, 10, n, j->text, sizeof j->text, answer, sizeof answer);
}
