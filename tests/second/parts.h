/* Inside only: the four parts of document 01 and their layouts. */
#ifndef SECOND_PARTS_H
#define SECOND_PARTS_H

#include "second.h"
#include "word.h"

enum { ACCEPTED, SIZE, WORD, INSTRUCTION, START, EXEC, EXTENSION, BUS, LABEL,
       STUCK, ROOM, OPEN, GRID = 14, EDITION, LISTING, SHORT, HOST, LIST };

enum { FORM_BYTES = 48, EXEC_BYTES = 32, EXT_BYTES = 120 };

/* The lent parts with their lengths in instructions, cells and rows.  Cells from
 * the seam on are in rest; in one buffer there are none. */
typedef struct {
    const uint8_t *program, *memory, *exec, *ext;
    uint64_t instructions, cells, exec_rows, ext_rows;
    const uint8_t *rest;
    uint64_t seam;
} parts;

/* An instruction. */
typedef struct {
    uint32_t a, b, c, fa, fb, fc, fpc, fpab, mul, jump, aux, data;
} form;

typedef struct {
    uint32_t pc, fp, addr_a, addr_b, addr_c, value_a, value_b, value_c;
} exec_row;

typedef struct {
    uint32_t start, add, mul, peq, len, idx_a, idx_b, idx_r, be, base;
    element va, vb, comp, res;
} ext_row;

/* The selected values of 3.3.3. */
typedef struct {
    uint32_t a, b, c;
} values;

static inline second_answer answer(uint32_t verdict, uint32_t part,
                                   uint64_t place, uint32_t rule)
{
    second_answer out = { verdict, part, (uint32_t)place, rule, 0, 0 };
    return out;
}

/* Of a memory in one buffer. */
static inline uint32_t cell(const parts *in, uint64_t index)
{
    return load_word(in->memory + 4 * index);
}

/* From whichever buffer holds it. */
static inline uint32_t cell_of_either(const parts *in, uint64_t index)
{
    if (index < in->seam)
        return load_word(in->memory + 4 * index);
    return load_word(in->rest + 4 * (index - in->seam));
}

static inline element load_element(const uint8_t *from)
{
    element e;
    for (int i = 0; i < 5; i++)
        e.at[i] = load_word(from + 4 * i);
    return e;
}

/* The five cells from index, of a memory in one buffer; they must exist. */
static inline element five_cells(const parts *in, uint64_t index)
{
    return load_element(in->memory + 4 * index);
}

static inline form load_form(const uint8_t *from)
{
    form f = { load_word(from), load_word(from + 4), load_word(from + 8),
               load_word(from + 12), load_word(from + 16),
               load_word(from + 20), load_word(from + 24),
               load_word(from + 28), load_word(from + 32),
               load_word(from + 36), load_word(from + 40),
               load_word(from + 44) };
    return f;
}

static inline void store_form(uint8_t *to, const form *f)
{
    const uint32_t words[12] = { f->a, f->b, f->c, f->fa, f->fb, f->fc, f->fpc,
                                 f->fpab, f->mul, f->jump, f->aux, f->data };
    for (uint32_t k = 0; k < 12; k++)
        store_word(to + 4 * k, words[k]);
}

/* The instruction at pc, which must be in the program. */
static inline form form_at(const parts *in, uint32_t pc)
{
    return load_form(in->program + (uint64_t)FORM_BYTES * pc);
}

static inline bool reads_a(const form *f) { return (f->fa | f->fpab) == 0; }
static inline bool reads_b(const form *f) { return (f->fb | f->fpab) == 0; }
static inline bool reads_c(const form *f) { return (f->fc | f->fpc) == 0; }

static inline bool is_extension(const form *f)
{
    return (f->mul | f->jump | f->aux) == 0;
}

static inline exec_row load_exec(const uint8_t *from)
{
    exec_row row = { load_word(from), load_word(from + 4), load_word(from + 8),
                     load_word(from + 12), load_word(from + 16),
                     load_word(from + 20), load_word(from + 24),
                     load_word(from + 28) };
    return row;
}

static inline ext_row load_ext(const uint8_t *from)
{
    ext_row row = { load_word(from), load_word(from + 4), load_word(from + 8),
                    load_word(from + 12), load_word(from + 16),
                    load_word(from + 20), load_word(from + 24),
                    load_word(from + 28), load_word(from + 32),
                    load_word(from + 36), load_element(from + 40),
                    load_element(from + 60), load_element(from + 80),
                    load_element(from + 100) };
    return row;
}

/* One operand: immediate, fp + operand itself, or the cell's value. */
static inline uint32_t select_value(uint32_t immediate, uint32_t frame,
                                    uint32_t fp, uint32_t operand,
                                    uint32_t value)
{
    if (immediate == 1)
        return operand;
    return frame == 1 ? word_add(fp, operand) : value;
}

static inline values select_values(const form *f, const exec_row *row)
{
    values v = {
        select_value(f->fa, f->fpab, row->fp, f->a, row->value_a),
        select_value(f->fb, f->fpab, row->fp, f->b, row->value_b),
        select_value(f->fc, f->fpc, row->fp, f->c, row->value_c),
    };
    return v;
}

static inline bool instructions_fit(uint64_t count)
{
    return count >= 1 && count <= (uint64_t)1 << 20;
}

static inline bool recipe_fits(second_recipe r)
{
    return (r.version == 1 || r.version == 2) && r.m >= 10 && r.m <= 29
        && r.n >= 1 && r.n <= 124;
}

/* form.c: SIZE for parts 1 to 4; WORD for one part; INSTRUCTION. */
second_answer second_sizes(size_t program_len, size_t memory_len,
                           size_t exec_len, size_t ext_len);
second_answer second_words(uint32_t part, const uint8_t *bytes, size_t len);
second_answer second_forms(const parts *in);

/* lookup.c: EXEC and EXTENSION of row r by a rule that it breaks. */
second_answer second_exec_answer(const parts *in, uint64_t r, uint32_t rule);
second_answer second_ext_answer(const parts *in, uint64_t r, uint32_t rule);

/* bus.c: BUS, by counting or by sorting where one order does not do. */
second_answer second_bus(const parts *in, bool sorted);

/* sort.c: the bus by sorting; false if the heap has no room. */
bool second_bus_sorted(const parts *in, second_answer *out);

#endif
