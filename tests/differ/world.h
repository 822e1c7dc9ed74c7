/* The four parts of a judge's, count's or tabler's call, with the start. */
#ifndef DIFFER_WORLD_H
#define DIFFER_WORLD_H

#include "call.h"

/* The parts of document 01, counted from 0, and the words of each one's
 * instruction, cell or row. */
enum { PROGRAM, MEMORY, EXECUTION, EXTENSIONS, PARTS };
enum { FORM_WORDS = 12, EXEC_WORDS = 8, EXT_WORDS = 30 };

/* The words of an instruction, an execution row and an extension row. */
enum { OP_A, OP_B, OP_C, F_A, F_B, F_C, FP_C, FP_AB, W_MUL, W_JUMP, W_AUX,
       W_DATA };
enum { PC, FP, ADDR_A, ADDR_B, ADDR_C, VALUE_A, VALUE_B, VALUE_C };
enum { X_START, X_ADD, X_MUL, X_PEQ, X_LEN, X_IDX_A, X_IDX_B, X_IDX_R, X_BE,
       X_BASE, X_VA, X_VB = 15, X_COMP = 20, X_RES = 25 };

enum { MAX_FORMS = 320, MAX_CELLS = 4096, MAX_ROWS = 4096 };

typedef struct {
    uint8_t *bytes[PARTS];
    size_t len[PARTS];
    uint64_t pc, fp;
    bool shuffled; /* pulls no longer stand in the order of the pushes */
    second_recipe recipe; /* that made it; n is 0 if none did */
} world;

/* The bytes of one instruction, cell or row. */
static inline size_t unit_of(int part)
{
    static const size_t units[PARTS] = { 4 * FORM_WORDS, 4, 4 * EXEC_WORDS,
                                         4 * EXT_WORDS };
    return units[part];
}

static inline uint32_t count_of(const world *w, int part)
{
    return (uint32_t)(w->len[part] / unit_of(part));
}

/* Word `column` of instruction, cell or row `at`. */
static inline uint8_t *word_at(const world *w, int part, uint32_t at,
                               uint32_t column)
{
    return w->bytes[part] + unit_of(part) * at + 4 * (size_t)column;
}

static inline uint32_t get(const world *w, int part, uint32_t at,
                           uint32_t column)
{
    return load_word(word_at(w, part, at, column));
}

static inline void put(world *w, int part, uint32_t at, uint32_t column,
                       uint32_t word)
{
    store_word(word_at(w, part, at, column), word);
}

/* world.c: the bytes there is room for in a part; false if there is none.  A
 * copy is there to be changed, so no recipe made it. */
size_t room_of(int part);
bool world_open(world *w);
void world_copy(world *to, const world *from);

/* A world made by a recipe or built step by step, with lengths for both
 * tables but not the tables. */
void world_make(differ *d, world *w);

/* What a recipe makes, from pc 0 and fp 0; the tables' lengths stay. */
void world_by_recipe(differ *d, world *w, second_recipe r);

/* A call on a world, with an answer buffer of mostly the right length. */
attempt attempt_on(differ *d, enum function f, const world *w);

/* Calls of the tabler and of the judge on a world. */
void try_tabler(differ *d, const world *w);
void try_judge(differ *d, const world *w);

/* The second's tables of the world's run. */
second_answer second_tables(world *w);

/* build.c: a program with a memory in which its steps are legal. */
void build(differ *d, world *w);

/* spoil.c: another length, word, start or instruction. */
void spoil_length(differ *d, world *w);
void spoil_word(differ *d, world *w, int parts);
void spoil_start(differ *d, world *w);
void spoil_form(differ *d, world *w);
void spoil_step(differ *d, world *w);

/* damage_exec.c, damage_ext.c: something else in a table. */
void damage_exec(differ *d, world *w);
void damage_ext(differ *d, world *w);

/* Makes the values of all lookups what the memory holds, where it does. */
void follow_exec(world *w, uint32_t row);
void follow_ext(world *w, uint32_t row);

/* A word at or above p; the old word plus p is the same number modulo p. */
uint32_t too_large(source *random, uint32_t old);

/* Another word than the one that stands at a row's column. */
uint32_t other_word(differ *d, const world *w, int part, uint32_t at,
                    uint32_t column);

#endif
