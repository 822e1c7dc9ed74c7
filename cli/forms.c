/* The counters of a grid: the forms that they stand for, which of these an instruction can have, and their total. */
#include "cli.h"

enum { COUNTERS = UISNABAR_GRID_BYTES / 8 };

enum { ADD, MUL, DEREF, JUMP, EXTENSION, KINDS };
enum { IMM, CELL, FP, MODES };

static const char *const kinds[KINDS] = {"add", "mul", "deref", "jump", "ext"};
static const char *const modes[MODES] = {"imm", "cell", "fp"};

struct form {
    int kind, a, b, c;
};

/* kind is slowest, C fastest */
static struct form form_of(size_t place)
{
    int at = (int)place;
    return (struct form){at / 27, at / 9 % 3, at / 3 % 3, at % 3};
}

/* whether there is an instruction of it: docs/VERDICTS.md, "Form counts" */
static bool possible(struct form form)
{
    bool plain = form.a != FP && form.b != FP;
    switch (form.kind) {
    case DEREF: return form.a == CELL && form.b == IMM;
    case JUMP: return plain && form.c != IMM;
    case EXTENSION: return plain || (form.a == FP && form.b == FP);
    default: return plain;
    }
}

static uint64_t counter(const uint8_t *grid, size_t place)
{
    return (uint64_t)word_at(grid + 8 * place + 4) << 32 | word_at(grid + 8 * place);
}

/* at most TOTAL_MOST + 1, which stands for more too */
uint64_t total_of(const uint8_t grid[UISNABAR_GRID_BYTES])
{
    uint64_t total = 0;
    for (size_t place = 0; place < COUNTERS; place++) {
        uint64_t rows = counter(grid, place);
        total = rows > TOTAL_MOST || total + rows > TOTAL_MOST ? TOTAL_MOST + 1 : total + rows;
    }
    return total;
}

struct reach reach_of(const uint8_t grid[UISNABAR_GRID_BYTES])
{
    struct reach reach = {0};
    for (size_t place = 0; place < COUNTERS; place++) {
        bool can = possible(form_of(place)), is = counter(grid, place) != 0;
        reach.possible += can;
        reach.reached += can && is;
        reach.strange += !can && is;
    }
    return reach;
}

void print_missing(FILE *out, const uint8_t grid[UISNABAR_GRID_BYTES])
{
    for (size_t place = 0; place < COUNTERS; place++) {
        struct form form = form_of(place);
        if (possible(form) && counter(grid, place) == 0)
            fprintf(out, "not reached: %s.%s.%s.%s\n", kinds[form.kind], modes[form.a], modes[form.b], modes[form.c]);
    }
}
