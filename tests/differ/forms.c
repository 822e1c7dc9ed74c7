/* Which forms there are, and programs that reach each of them so and so often. */
#include <inttypes.h>
#include <stdio.h>
#include <string.h>

#include "builder.h"
#include "grids.h"
#include "tries.h"

enum { POSSIBLE = 50, TIMES = 3, MEMORY_LOG = 12 };

static world all; /* every form */

/* Counter 27 * kind + 9 * A + 3 * B + C. */
static uint32_t kind_of(uint32_t counter)
{
    return counter / 27;
}

static void modes_of(uint32_t counter, uint32_t modes[3])
{
    modes[OP_A] = counter / 9 % 3;
    modes[OP_B] = counter / 3 % 3;
    modes[OP_C] = counter % 3;
}

/* Whether a well-formed instruction has the form. */
static bool possible(uint32_t counter)
{
    uint32_t modes[3];
    modes_of(counter, modes);
    bool frame_a = modes[OP_A] == FRAME, frame_b = modes[OP_B] == FRAME;
    switch (kind_of(counter)) {
    case KIND_ADD:
    case KIND_MUL:
        return !frame_a && !frame_b;
    case KIND_DEREF:
        return modes[OP_A] == CELL && modes[OP_B] == IMMEDIATE;
    case KIND_JUMP:
        return !frame_a && !frame_b && modes[OP_C] != IMMEDIATE;
    default:
        return frame_a == frame_b; /* one flag is for both */
    }
}

static void print_form(uint32_t counter)
{
    static const char *const kinds[] = { "add", "mul", "deref", "jump", "ext" };
    static const char *const names[] = { "imm", "cell", "fp" };
    uint32_t modes[3];
    modes_of(counter, modes);
    printf(" %s.%s.%s.%s", kinds[kind_of(counter)], names[modes[OP_A]],
           names[modes[OP_B]], names[modes[OP_C]]);
}

/* Of the forms that are possible, or are not, those that have rows, or have
 * none: their number, and their names after `title` unless it is NULL. */
static uint32_t list(const uint64_t *rows, bool those_possible, bool counted,
                     const char *title)
{
    uint32_t length = 0;
    for (uint32_t i = 0; i < SECOND_COUNTERS; i++) {
        if (possible(i) != those_possible || (rows[i] != 0) != counted)
            continue;
        if (title != NULL && length == 0)
            printf("%s:", title);
        if (title != NULL)
            print_form(i);
        length++;
    }
    if (title != NULL && length != 0)
        printf("\n");
    return length;
}

bool forms_report(const uint64_t rows[SECOND_COUNTERS])
{
    uint32_t right = list(rows, true, true, NULL);
    uint32_t wrong = list(rows, false, true, "forms counted that cannot be");
    list(rows, true, false, "forms not reached");
    printf("forms reached: %" PRIu32 " of the %d possible, %" PRIu32
           " of the other %d\n", right, POSSIBLE, wrong,
           SECOND_COUNTERS - POSSIBLE);
    return right == POSSIBLE && wrong == 0;
}

/* A legal step of the form; false if there was no room for it. */
static bool put_form_of(builder *b, uint32_t counter)
{
    uint32_t modes[3], before = b->count, frame = b->fp;
    bool taken = once_in(b->random, 2);
    modes_of(counter, modes);
    switch (kind_of(counter)) {
    case KIND_ADD:
    case KIND_MUL:
        put_arithmetic_in(b, kind_of(counter) == KIND_MUL, modes);
        break;
    case KIND_DEREF:
        put_deref_in(b, modes[OP_C]);
        break;
    case KIND_JUMP:
        frame = taken ? some_frame(b) : b->fp;
        put_jump_in(b, modes, taken, b->count + 1, frame);
        b->fp = frame;
        break;
    default:
        put_group_in(b, 1 + below(b->random, 2), modes);
    }
    return b->count > before;
}

/* Each possible form one to TIMES times, in any order. */
static uint32_t draw_forms(source *random, uint32_t drawn[TIMES * POSSIBLE])
{
    uint32_t count = 0;
    for (uint32_t i = 0; i < SECOND_COUNTERS; i++)
        for (uint32_t n = possible(i) ? 1 + below(random, TIMES) : 0; n > 0; n--)
            drawn[count++] = i;
    for (uint32_t i = count; i > 1; i--) {
        uint32_t at = below(random, i), form = drawn[at];
        drawn[at] = drawn[i - 1];
        drawn[i - 1] = form;
    }
    return count;
}

/* The run stays on a jump of some form. */
static uint32_t put_halt(builder *b)
{
    uint32_t modes[3], counter;
    do
        counter = 27 * KIND_JUMP + below(b->random, 27);
    while (!possible(counter));
    modes_of(counter, modes);
    put_jump_in(b, modes, true, b->count, b->fp);
    return counter;
}

/* A program of all forms, and the grid that its table makes of a fresh one. */
static void build_all(differ *d, world *w, grid *made)
{
    builder b = { .random = &d->random, .to = w, .cells = 1u << MEMORY_LOG };
    uint32_t drawn[TIMES * POSSIBLE], count = draw_forms(b.random, drawn);
    uint32_t rows = 256u << below(b.random, 2), steps = 0;
    w->len[MEMORY] = unit_of(MEMORY) << MEMORY_LOG;
    w->len[EXECUTION] = unit_of(EXECUTION) * rows;
    w->len[EXTENSIONS] = unit_of(EXTENSIONS) * 256;
    fill_memory(&b);
    b.fp = some_frame(&b);
    w->pc = 0;
    w->fp = b.fp;
    memset(made, 0, sizeof *made);
    for (uint32_t i = 0; i < count; i++)
        if (put_form_of(&b, drawn[i])) {
            made->at[drawn[i]]++;
            steps++;
        }
    made->at[put_halt(&b)] += rows - steps;
    w->len[PROGRAM] = unit_of(PROGRAM) * b.count;
}

bool forms_open(void)
{
    return world_open(&all);
}

void try_forms(differ *d)
{
    grid made, counted;
    note_back(d, 0);
    note(d, "a program of all forms");
    build_all(d, &all, &made);
    if (second_tables(&all).verdict != ACCEPTED)
        differs(d, "the second has no tables of such a program");
    memset(&counted, 0, sizeof counted);
    count_world(d, &all, SECOND_GRID_BYTES, ANSWER_BYTES, &counted);
    if (memcmp(&counted, &made, sizeof made) != 0)
        differs(d, "the grid is not what the program was made of");
    report_grid(d, &counted);
}
