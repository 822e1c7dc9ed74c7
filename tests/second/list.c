/* Listings written: a line of text for each instruction. */
#include <string.h>

#include "list.h"

/* The name of each op, and of each mode, with what stands before it. */
enum { LONGEST_PIECE = 8, LONGEST_LINE = 77 };

typedef struct {
    char text[LONGEST_PIECE];
    uint8_t len;
} piece;

static const piece ops[] = {
    [OP_ADD] = { "op=add", 6 }, [OP_MUL] = { "op=mul", 6 },
    [OP_DEREF] = { "op=deref", 8 }, [OP_JUMP] = { "op=jump", 7 },
    [OP_XADD] = { "op=xadd", 7 }, [OP_XMUL] = { "op=xmul", 7 },
    [OP_XPEQ] = { "op=xpeq", 7 },
};

static const piece operands[3][ANY] = {
    { [IMM] = { " a=imm:", 7 }, [CELL] = { " a=cell:", 8 }, [FRAME] = { " a=fp:", 6 } },
    { [IMM] = { " b=imm:", 7 }, [CELL] = { " b=cell:", 8 }, [FRAME] = { " b=fp:", 6 } },
    { [IMM] = { " c=imm:", 7 }, [CELL] = { " c=cell:", 8 }, [FRAME] = { " c=fp:", 6 } },
};

static const piece lengths[] = { { " be=0 n=", 8 }, { " be=1 n=", 8 } };

static uint32_t digits_of(uint32_t number)
{
    static const uint32_t powers[] = { 10, 100, 1000, 10000, 100000, 1000000,
                                       10000000, 100000000, 1000000000 };
    uint32_t digits = 1;
    for (uint32_t k = 0; k < 9; k++) /* no branch for each */
        digits += number >= powers[k];
    return digits;
}

static uint32_t op_of(const form *f)
{
    if (f->mul == 1)
        return OP_MUL;
    if (f->jump == 1)
        return OP_JUMP;
    if (f->aux != 0)
        return f->aux == 1 ? OP_ADD : OP_DEREF;
    return (f->data & 4) != 0 ? OP_XADD : (f->data & 8) != 0 ? OP_XMUL : OP_XPEQ;
}

static uint32_t mode_of(uint32_t immediate, uint32_t frame)
{
    return immediate == 1 ? IMM : frame == 1 ? FRAME : CELL;
}

/* A line as pieces, each but the first with a number behind it. */
typedef struct {
    const piece *op, *before[4];
    uint32_t numbers[4], count;
} line;

static line line_of(const form *f)
{
    line l = { &ops[op_of(f)],
               { &operands[0][mode_of(f->fa, f->fpab)],
                 &operands[1][mode_of(f->fb, f->fpab)],
                 &operands[2][mode_of(f->fc, f->fpc)],
                 &lengths[f->data / 2 % 2] },
               { f->a, f->b, f->c, f->data / 32 },
               is_extension(f) ? 4 : 3 };
    return l;
}

static size_t length_of(const line *l)
{
    size_t length = l->op->len + (size_t)1; /* and the LF */
    for (uint32_t k = 0; k < l->count; k++)
        length += l->before[k]->len + digits_of(l->numbers[k]);
    return length;
}

/* There is room for a piece of any length. */
static uint8_t *put_piece(uint8_t *to, const piece *p)
{
    memcpy(to, p->text, LONGEST_PIECE);
    return to + p->len;
}

static uint8_t *put_number(uint8_t *to, uint32_t number)
{
    uint8_t *end = to + digits_of(number), *at = end;
    do {
        *--at = (uint8_t)('0' + number % 10);
        number /= 10;
    } while (at != to);
    return end;
}

/* By a buffer with room to spare, as bytes after the listing must stay. */
static uint8_t *put_line(uint8_t *to, const line *l)
{
    uint8_t whole[LONGEST_LINE + LONGEST_PIECE];
    uint8_t *end = put_piece(whole, l->op);
    for (uint32_t k = 0; k < l->count; k++) {
        end = put_piece(end, l->before[k]);
        end = put_number(end, l->numbers[k]);
    }
    *end++ = '\n';
    memcpy(to, whole, (size_t)(end - whole));
    return to + (end - whole);
}

static line line_at(const uint8_t *program, uint64_t i)
{
    form f = load_form(program + FORM_BYTES * i);
    return line_of(&f);
}

/* Where it fits, all of it is written; else nothing is. */
static second_answer put_lines(const uint8_t *program, uint64_t count,
                               uint8_t *text, size_t text_len,
                               uint64_t *written)
{
    size_t need = 0;
    for (uint64_t i = 0; i < count; i++) {
        line l = line_at(program, i);
        need += length_of(&l);
    }
    if (text_len < need)
        return answer(SHORT, 0, need, 0);
    for (uint64_t i = 0; i < count; i++) {
        line l = line_at(program, i);
        text = put_line(text, &l);
    }
    *written = need;
    return answer(ACCEPTED, 0, 0, 0);
}

second_answer second_list(const uint8_t *program, size_t program_len,
                          uint8_t *text, size_t text_len, uint64_t *written)
{
    parts in = { .program = program, .instructions = program_len / FORM_BYTES };
    *written = 0;
    if (program_len % FORM_BYTES != 0 || !instructions_fit(in.instructions))
        return answer(SIZE, 1, 0, 0);
    second_answer out = second_words(1, program, program_len);
    if (out.verdict == ACCEPTED)
        out = second_forms(&in);
    if (out.verdict == ACCEPTED)
        out = put_lines(program, in.instructions, text, text_len, written);
    return out;
}
