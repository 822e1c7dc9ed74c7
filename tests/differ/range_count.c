/* The finds of an accepted table once more, need by need, so that what just
 * misses being one can be told and counted. */
#include "ranges.h"

enum { FORMS_ROOM = 2 * MAX_FORMS + 1 }; /* see room_of */

/* The table, and by program counter the row where a find last began. */
typedef struct {
    range_tally *to;
    const world *w;
    uint32_t rows, forms;
    bool run[FORMS_ROOM];
    uint32_t begun[FORMS_ROOM]; /* the row after, 0 is none */
} table;

static uint32_t word_in(const world *w, uint32_t pc, uint32_t column)
{
    return get(w, PROGRAM, pc, column);
}

static uint32_t pc_at(const table *t, uint32_t row)
{
    return get(t->w, EXECUTION, row, PC);
}

static uint32_t kind_at(const world *w, uint32_t pc)
{
    if (word_in(w, pc, W_DATA) != 0)
        return KIND_EXTENSION;
    if (word_in(w, pc, W_JUMP) != 0)
        return KIND_JUMP;
    if (word_in(w, pc, W_MUL) != 0)
        return KIND_MUL;
    return word_in(w, pc, W_AUX) == 1 ? KIND_ADD : KIND_DEREF;
}

/* A bit for each need that three instructions lack. */
static uint32_t lacking(const world *w, uint32_t f, uint32_t g, uint32_t h)
{
    const bool has[RANGE_NEEDS] = {
        [FIRST_IS_DEREF] = kind_at(w, f) == KIND_DEREF,
        [FIRST_BETA_0] = word_in(w, f, OP_B) == 0,
        [MIDDLE_IS_ADD] = kind_at(w, g) == KIND_ADD,
        [A_IS_CELL] = word_in(w, g, F_A) == 0 && word_in(w, g, FP_AB) == 0,
        [A_IS_X] = word_in(w, g, OP_A) == word_in(w, f, OP_A),
        [B_IS_IMMEDIATE] = word_in(w, g, F_B) == 1,
        [C_NOT_IMMEDIATE] = word_in(w, g, F_C) == 0,
        [C_NOT_FRAME] = word_in(w, g, FP_C) == 0,
        [LAST_IS_DEREF] = kind_at(w, h) == KIND_DEREF,
        [LAST_BETA_0] = word_in(w, h, OP_B) == 0,
        [LAST_IS_J] = word_in(w, h, OP_A) == word_in(w, g, OP_C),
    };
    uint32_t bits = 0;
    for (int i = 0; i < RANGE_NEEDS; i++)
        bits |= (uint32_t)!has[i] << i;
    return bits;
}

static uint32_t mode_of_c(const world *w, uint32_t pc)
{
    if (word_in(w, pc, F_C) == 1)
        return IMMEDIATE;
    return word_in(w, pc, FP_C) == 1 ? FRAME : CELL;
}

static bool is_taken(const table *t, uint32_t row)
{
    uint32_t pc = pc_at(t, row);
    return kind_at(t->w, pc) == KIND_JUMP
        && (word_in(t->w, pc, F_A) == 1 ? word_in(t->w, pc, OP_A)
                                        : get(t->w, EXECUTION, row, VALUE_A)) == 1;
}

static void count_bound(uint64_t *cases, uint64_t bound, uint64_t cells)
{
    cases[BOUND_1] += bound == 1;
    cases[BOUND_2] += bound == 2;
    cases[BOUND_BELOW_M] += bound > 2 && bound < cells;
    cases[BOUND_M] += bound == cells;
    cases[BOUND_ABOVE_M] += bound > cells;
    cases[BOUND_2M_1] += bound == 2 * cells - 1;
    cases[BOUND_2_16] += bound == 1 << 16;
    cases[BOUND_ABOVE_2_16] += bound > 1 << 16;
}

/* Where a find stands, and in what frame. */
static void count_place(table *t, uint32_t row)
{
    uint64_t *cases = t->to->cases;
    uint32_t pc = pc_at(t, row), fp = get(t->w, EXECUTION, row, FP);
    uint32_t x = word_in(t->w, pc, OP_A), j = word_in(t->w, pc + 2, OP_A);
    cases[AT_ROW_0] += row == 0;
    cases[TO_ROW_H_2] += row + 4 == t->rows;
    cases[SAME_CELL] += x == j;
    cases[OVERLAPPING] += row >= 2 && pc >= 2 && t->begun[pc - 2] == row - 1;
    cases[RIGHT_BEHIND] += row >= 3 && pc >= 3 && t->begun[pc - 3] == row - 2;
    cases[FOUND_AGAIN] += t->begun[pc] != 0;
    cases[FOUND_AGAIN_OTHER] += t->begun[pc] != 0
        && get(t->w, EXECUTION, row, VALUE_A) != get(t->w, EXECUTION, t->begun[pc] - 1, VALUE_A);
    cases[BEHIND_JUMP] += row > 0 && is_taken(t, row - 1)
        && get(t->w, EXECUTION, row - 1, FP) != fp;
    cases[FRAME_0] += fp == 0;
    cases[OTHER_FRAME] += fp != 0;
    cases[X_WRAPS] += (uint64_t)fp + x >= P;
    cases[J_WRAPS] += (uint64_t)fp + j >= P;
    t->begun[pc] = row + 1;
}

/* What is a find but for one need. */
static void count_miss(table *t, uint32_t f, uint32_t lacks)
{
    static const int of_kind[OF_THREE] = { FIRST_IS_DEREF, MIDDLE_IS_ADD, LAST_IS_DEREF };
    uint64_t *cases = t->to->cases;
    const world *w = t->w;
    uint32_t more_x = word_sub(word_in(w, f + 1, OP_A), word_in(w, f, OP_A));
    uint32_t more_j = word_sub(word_in(w, f + 2, OP_A), word_in(w, f + 1, OP_C));
    for (int i = 0; i < RANGE_NEEDS; i++)
        t->to->alone[i] += lacks == 1u << i;
    for (uint32_t i = 0; i < OF_THREE; i++)
        if (lacks == 1u << of_kind[i])
            t->to->kinds[i][kind_at(w, f + i)]++;
    cases[FIRST_BETA_1] += lacks == 1 << FIRST_BETA_0 && word_in(w, f, OP_B) == 1;
    cases[FIRST_BETA_P_1] += lacks == 1 << FIRST_BETA_0 && word_in(w, f, OP_B) == P - 1;
    cases[LAST_BETA_1] += lacks == 1 << LAST_BETA_0 && word_in(w, f + 2, OP_B) == 1;
    cases[LAST_BETA_P_1] += lacks == 1 << LAST_BETA_0 && word_in(w, f + 2, OP_B) == P - 1;
    cases[BOUND_P] += word_in(w, f + 1, OP_B) == P - 1
        && (lacks | 1 << FIRST_BETA_0 | 1 << LAST_BETA_0) == (1 << FIRST_BETA_0 | 1 << LAST_BETA_0);
    cases[X_ONE_MORE] += lacks == 1 << A_IS_X && more_x == 1;
    cases[X_ONE_LESS] += lacks == 1 << A_IS_X && more_x == P - 1;
    cases[J_ONE_MORE] += lacks == 1 << LAST_IS_J && more_j == 1;
    cases[J_ONE_LESS] += lacks == 1 << LAST_IS_J && more_j == P - 1;
    cases[COMMUTED] += lacks == (1 << A_IS_X | 1 << LAST_IS_J)
        && word_in(w, f, OP_A) == word_in(w, f + 1, OP_C)
        && word_in(w, f + 2, OP_A) == word_in(w, f + 1, OP_A);
}

/* A jump between, at the second or third of four rows. */
static void count_jumps(const table *t, uint32_t row)
{
    uint64_t *cases = t->to->cases;
    uint32_t pcs[4];
    if (row + 3 >= t->rows)
        return;
    for (uint32_t i = 0; i < 4; i++)
        pcs[i] = pc_at(t, row + i);
    if (kind_at(t->w, pcs[1]) == KIND_JUMP && lacking(t->w, pcs[0], pcs[2], pcs[3]) == 0)
        cases[is_taken(t, row + 1) ? TAKEN_BEFORE_ADD : UNTAKEN_BEFORE_ADD]++;
    if (kind_at(t->w, pcs[2]) == KIND_JUMP && lacking(t->w, pcs[0], pcs[1], pcs[3]) == 0)
        cases[is_taken(t, row + 2) ? TAKEN_BEHIND_ADD : UNTAKEN_BEHIND_ADD]++;
}

/* A find of the program whose first or first two a jump leaves out. */
static void count_entry(const table *t, uint32_t row)
{
    uint32_t pc = pc_at(t, row);
    if (row == 0 || !is_taken(t, row - 1) || pc_at(t, row - 1) == pc)
        return;
    t->to->cases[ENTERED_AT_ADD] += pc >= 1 && pc + 1 < t->forms
        && lacking(t->w, pc - 1, pc, pc + 1) == 0;
    t->to->cases[ENTERED_AT_LAST] += pc >= 2 && lacking(t->w, pc - 2, pc - 1, pc) == 0;
}

/* The last row is a jump, so what it cuts lacks the third or the second too. */
static void count_ends(const table *t)
{
    uint32_t of_two = (1 << LAST_IS_DEREF) - 1, last = t->rows - 1;
    uint32_t two = lacking(t->w, pc_at(t, last - 2), pc_at(t, last - 1), pc_at(t, last));
    uint32_t one = pc_at(t, last - 1);
    t->to->cases[TWO_ROWS_LEFT] += (two & of_two) == 0;
    t->to->cases[ONE_ROW_LEFT] += kind_at(t->w, one) == KIND_DEREF && word_in(t->w, one, OP_B) == 0;
    for (uint32_t pc = 0; pc + 2 < t->forms; pc++)
        t->to->cases[NOT_RUN] += !t->run[pc] && lacking(t->w, pc, pc + 1, pc + 2) == 0;
}

static void add_find(table *t, uint32_t row, uint8_t *to)
{
    uint32_t pc = pc_at(t, row), bound = word_in(t->w, pc + 1, OP_B) + 1;
    count_bound(t->to->cases, bound, count_of(t->w, MEMORY));
    t->to->modes[mode_of_c(t->w, pc)][mode_of_c(t->w, pc + 2)]++;
    count_place(t, row);
    store_word(to, row);
    store_word(to + 4, bound);
}

/* A kind that does not jump is followed by the next instruction, so three rows
 * without a jump are f, f + 1, f + 2; of others too little is right to count. */
uint32_t count_ranges(range_tally *to, const world *w, uint8_t out[FIND_BYTES * MOST_RANGES])
{
    static table t;
    uint32_t found = 0;
    t = (table){ .to = to, .w = w, .rows = count_of(w, EXECUTION), .forms = count_of(w, PROGRAM) };
    for (uint32_t row = 0; row + 2 < t.rows; row++) {
        uint32_t f = pc_at(&t, row), h = pc_at(&t, row + 2);
        t.run[f] = true;
        count_jumps(&t, row);
        count_entry(&t, row);
        if (pc_at(&t, row + 1) != f + 1 || h != f + 2)
            continue;
        uint32_t lacks = lacking(w, f, f + 1, h);
        if (lacks == 0)
            add_find(&t, row, out + FIND_BYTES * found++);
        else
            count_miss(&t, f, lacks);
    }
    count_ends(&t);
    to->cases[MOST_FINDS] += found == t.rows / 2 - 1;
    to->tables++;
    to->rows += t.rows;
    to->finds += found;
    return found;
}
