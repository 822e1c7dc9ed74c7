#include "inputs.h"

#include <stdlib.h>
#include <string.h>

#include "../second/second.h"
#include "../second/word.h"

enum { DRAWN = 1024, LENGTH = 4, EVERY = 16, ROW = 120, LONGEST_LINE = 77 };

typedef struct {
    speed_input *in;
    uint64_t state;
    size_t free_cell;
} builder;

static uint32_t draw(builder *b)
{
    b->state = b->state * 6364136223846793005u + 1442695040888963407u;
    return (uint32_t)(b->state >> 32);
}

static uint32_t cell(const builder *b, size_t k)
{
    return load_word(b->in->memory + 4 * k);
}

/* the next free cell, with x in it */
static uint32_t store(builder *b, uint32_t x)
{
    if (b->free_cell >= b->in->cells)
        abort();
    store_word(b->in->memory + 4 * b->free_cell, x);
    return (uint32_t)b->free_cell++;
}

enum { A, B, C, FA, FB, FC, FPC, FPAB, MUL, JUMP, AUX, DATA };

static void put_instruction(builder *b, size_t i, const uint32_t words[12])
{
    for (size_t k = 0; k < 12; k++)
        store_word(b->in->program + 48 * i + 4 * k, words[k]);
}

static void arithmetic(builder *b, size_t i, int is_mul)
{
    uint32_t w[12] = {0};
    w[A] = draw(b) % DRAWN;
    w[C] = draw(b) % DRAWN;
    uint64_t x = cell(b, w[A]), y = cell(b, w[C]);
    w[B] = store(b, (uint32_t)((is_mul ? x * y : x + y) % P));
    w[is_mul ? MUL : AUX] = 1;
    put_instruction(b, i, w);
}

static void deref(builder *b, size_t i)
{
    uint32_t w[12] = {0};
    uint32_t target = draw(b) % DRAWN;
    w[A] = store(b, target);
    w[C] = cell(b, target);
    w[FB] = w[FC] = 1;
    w[AUX] = 2;
    put_instruction(b, i, w);
}

static void jump(builder *b, size_t i, uint32_t taken, uint32_t to)
{
    uint32_t w[12] = {0};
    w[A] = taken;
    w[B] = to;
    w[FA] = w[FB] = w[FPC] = w[JUMP] = 1;
    put_instruction(b, i, w);
}

static element read_element(const builder *b, size_t at, int is_word)
{
    element e = element_of_word(cell(b, at));
    if (!is_word)
        for (size_t k = 0; k < 5; k++)
            e.at[k] = cell(b, at + k);
    return e;
}

static element term(int op, element a, element b)
{
    return op == 0 ? element_add(a, b) : op == 1 ? element_mul(a, b) : element_peq(a, b);
}

static void extension(builder *b, size_t i)
{
    uint32_t w[12] = {0};
    int op = (int)(draw(b) % 3), be = (int)(draw(b) % 2);
    w[A] = draw(b) % (DRAWN - 5 * LENGTH);
    w[B] = draw(b) % (DRAWN - 5 * LENGTH);
    w[FA] = w[FB] = w[FC] = 1;
    w[DATA] = (uint32_t)(2 * be + (4 << op) + 32 * LENGTH);
    element result = element_of_word(op == 2);
    for (size_t k = 0; k < LENGTH; k++) {
        element x = term(op, read_element(b, w[A] + (be ? k : 5 * k), be), read_element(b, w[B] + 5 * k, 0));
        result = op == 2 ? element_mul(result, x) : element_add(result, x);
    }
    w[C] = store(b, result.at[0]);
    for (int k = 1; k < 5; k++)
        store(b, result.at[k]);
    put_instruction(b, i, w);
}

static void instruction(builder *b, size_t i)
{
    if (i % EVERY == 7) {
        extension(b, i);
        return;
    }
    uint32_t kind = draw(b) % 6;
    if (kind < 4)
        arithmetic(b, i, kind % 2 == 1);
    else if (kind == 4)
        deref(b, i);
    else
        jump(b, i, draw(b) % 2, (uint32_t)i + 1);
}

static uint8_t *zeros(size_t bytes)
{
    uint8_t *p = calloc(bytes, 1);
    if (!p)
        abort();
    return p;
}

static speed_input blank(unsigned height_log, unsigned ext_log, unsigned memory_log)
{
    speed_input in = {.height = (size_t)1 << height_log, .ext_height = (size_t)1 << ext_log, .cells = (size_t)1 << memory_log};
    in.program_len = 48 * in.height;
    in.memory_len = 4 * in.cells;
    in.exec_len = 32 * in.height;
    in.ext_len = ROW * in.ext_height;
    in.program = zeros(in.program_len);
    in.memory = zeros(in.memory_len);
    in.exec = zeros(in.exec_len);
    in.ext = zeros(in.ext_len);
    in.shuffled = zeros(in.ext_len);
    return in;
}

speed_input speed_build(unsigned height_log, unsigned ext_log, unsigned memory_log, uint64_t seed)
{
    speed_input in = blank(height_log, ext_log, memory_log);
    builder b = {.in = &in, .state = seed, .free_cell = DRAWN};
    for (size_t k = 0; k < DRAWN; k++)
        store_word(in.memory + 4 * k, draw(&b) % P);
    /* the last groups would leave no spare row, so the end has none */
    for (size_t i = 0; i + EVERY < in.height; i++)
        instruction(&b, i);
    for (size_t i = in.height - EVERY; i + 1 < in.height; i++)
        jump(&b, i, 1, (uint32_t)i + 1);
    jump(&b, in.height - 1, 1, (uint32_t)in.height - 1);
    return in;
}

void speed_shuffle(speed_input *in, uint64_t seed)
{
    builder b = {.in = in, .state = seed};
    size_t groups = in->height / EVERY - 1, size = ROW * LENGTH;
    memcpy(in->shuffled, in->ext, in->ext_len);
    uint8_t held[ROW * LENGTH];
    for (size_t g = groups - 1; g > 0; g--) {
        size_t other = draw(&b) % (g + 1);
        memcpy(held, in->shuffled + size * g, size);
        memcpy(in->shuffled + size * g, in->shuffled + size * other, size);
        memcpy(in->shuffled + size * other, held, size);
    }
}

void speed_unpull(speed_input *in)
{
    size_t size = ROW * LENGTH, last = size * (in->height / EVERY - 2);
    memcpy(in->shuffled, in->ext, in->ext_len);
    for (size_t k = 0; k < LENGTH; k++)
        memcpy(in->shuffled + last + ROW * k, in->ext + in->ext_len - ROW, ROW);
}

enum { START, EXT_ADD, LEN = 4, IDX_A, IDX_B, IDX_R };

/* A group of one row: a pull of a sum of cells that hold 0, or padding. */
static void put_single(uint8_t *row, uint32_t is_add, uint32_t a, uint32_t b, uint32_t c)
{
    store_word(row + 4 * START, 1);
    store_word(row + 4 * EXT_ADD, is_add);
    store_word(row + 4 * LEN, 1);
    store_word(row + 4 * IDX_A, a);
    store_word(row + 4 * IDX_B, b);
    store_word(row + 4 * IDX_R, c);
}

speed_input speed_dense(unsigned height_log, unsigned ext_log)
{
    speed_input in = blank(height_log, ext_log, 20);
    builder b = {.in = &in};
    for (size_t r = 0; r + 1 < in.height; r++) {
        uint32_t w[12] = {0};
        w[A] = (uint32_t)(r % DRAWN);
        w[B] = (uint32_t)(r / DRAWN);
        w[C] = (uint32_t)(r * 7919 % (in.cells - 8));
        w[FA] = w[FB] = w[FC] = 1;
        w[DATA] = 4 + 32;
        put_instruction(&b, r, w);
        store_word(in.exec + 32 * r, (uint32_t)r);
        if (r + 1 < in.ext_height)
            put_single(in.ext + ROW * (in.ext_height - 2 - r), 1, w[A], w[B], w[C]);
    }
    put_single(in.ext + ROW * (in.ext_height - 1), 0, 0, 0, 0);
    jump(&b, in.height - 1, 1, (uint32_t)in.height - 1);
    store_word(in.exec + 32 * (in.height - 1), (uint32_t)in.height - 1);
    return in;
}

speed_input speed_halted(unsigned height_log)
{
    speed_input in = blank(height_log, 8, 8);
    builder b = {.in = &in};
    in.program_len = 48;
    jump(&b, 0, 1, 0);
    return in;
}

enum { OLD_WORDS = 14, FLAG_A = 3, FLAG_B, FLAG_C, OPCODES, DEREF = 2, AUX_1 = 12 };

static void old_instruction(builder *b, size_t i)
{
    uint32_t w[OLD_WORDS] = {0}, kind = draw(b) % 4;
    for (size_t k = 0; k < OPCODES; k++)
        w[k] = k < FLAG_A ? draw(b) % P : draw(b) % 2;
    w[OPCODES + kind] = 1;
    if (kind == DEREF) {
        w[FLAG_A] = 0;
        w[FLAG_C] = 1;
        w[AUX_1] = w[FLAG_B] == 0 || draw(b) % 2 == 0;
    }
    for (size_t k = 0; k < OLD_WORDS; k++)
        store_word(b->in->old + 4 * (OLD_WORDS * i + k), w[k]);
}

speed_input speed_old(unsigned log)
{
    speed_input in = blank(log, 8, 8);
    builder b = {.in = &in, .state = 1};
    in.old_len = 4 * OLD_WORDS * in.height;
    in.old = zeros(in.old_len);
    for (size_t i = 0; i < in.height; i++)
        old_instruction(&b, i);
    return in;
}

static void any_instruction(builder *b, size_t i)
{
    uint32_t w[12] = {0}, kind = draw(b) % 5, c = draw(b) % 3;
    for (size_t k = A; k <= FB; k++)
        w[k] = k <= C ? draw(b) % P : draw(b) % 2;
    w[FC] = c == 0 && kind != 3;
    w[FPC] = c == 1;
    if (kind == 4) {
        w[FPAB] = w[FA] == 0 && w[FB] == 0 && draw(b) % 2 == 0;
        w[DATA] = 2 * (draw(b) % 2) + (4u << draw(b) % 3) + 32 * (1 + draw(b) % (1u << 20));
    } else if (kind == 2) {
        w[FA] = 0;
        w[FB] = 1;
        w[AUX] = 2;
    } else {
        w[kind == 0 ? AUX : kind == 1 ? MUL : JUMP] = 1;
    }
    put_instruction(b, i, w);
}

speed_input speed_listing(unsigned log)
{
    speed_input in = blank(log, 8, 8);
    builder b = {.in = &in, .state = 1};
    uint64_t written;
    for (size_t i = 0; i < in.height; i++)
        any_instruction(&b, i);
    in.text = zeros(LONGEST_LINE * in.height);
    if (second_list(in.program, in.program_len, in.text, LONGEST_LINE * in.height, &written).verdict != 0)
        abort();
    in.text_len = written;
    return in;
}

void speed_free(speed_input *in)
{
    free(in->old);
    free(in->text);
    free(in->program);
    free(in->memory);
    free(in->exec);
    free(in->ext);
    free(in->shuffled);
}
