/* Listings read.  Every byte is taken only if a valid listing may have it after
 * those before it, so that where reading stops is LISTING's place. */
#include "list.h"

enum { MOST_LINES = 1 << 20, MOST_N = 1 << 20 };

typedef struct {
    const uint8_t *at, *end;
} cursor;

static bool take(cursor *c, const char *text)
{
    for (; *text != 0; text++, c->at++)
        if (c->at == c->end || *c->at != (uint8_t)*text)
            return false;
    return true;
}

/* The next byte; 0, which no listing has, at the end. */
static uint8_t next(const cursor *c)
{
    return c->at == c->end ? 0 : *c->at;
}

/* A digit that would bring the number above most is not taken, nor is any
 * after a first 0.  The number is below 2^31 throughout. */
static bool take_number(cursor *c, uint32_t most, uint32_t *number)
{
    uint64_t n = (uint64_t)next(c) - '0';
    if (n > 9)
        return false;
    c->at++;
    while (n != 0 && c->at != c->end) {
        uint32_t digit = (uint32_t)*c->at - '0';
        if (digit > 9 || 10 * n + digit > most)
            break;
        n = 10 * n + digit;
        c->at++;
    }
    *number = (uint32_t)n;
    return true;
}

static bool take_extension(cursor *c, uint32_t *op)
{
    switch (next(c)) {
    case 'a':
        *op = OP_XADD;
        return take(c, "add");
    case 'm':
        *op = OP_XMUL;
        return take(c, "mul");
    default:
        *op = OP_XPEQ;
        return take(c, "peq");
    }
}

static bool take_op(cursor *c, uint32_t *op)
{
    if (!take(c, "op="))
        return false;
    switch (next(c)) {
    case 'a':
        *op = OP_ADD;
        return take(c, "add");
    case 'm':
        *op = OP_MUL;
        return take(c, "mul");
    case 'd':
        *op = OP_DEREF;
        return take(c, "deref");
    case 'j':
        *op = OP_JUMP;
        return take(c, "jump");
    default:
        return take(c, "x") && take_extension(c, op);
    }
}

/* One of the modes that are allowed. */
static bool take_mode(cursor *c, uint32_t allowed, uint32_t *mode)
{
    switch (next(c)) {
    case 'i':
        *mode = IMM;
        return (allowed & IMM) != 0 && take(c, "imm:");
    case 'c':
        *mode = CELL;
        return (allowed & CELL) != 0 && take(c, "cell:");
    case 'f':
        *mode = FRAME;
        return (allowed & FRAME) != 0 && take(c, "fp:");
    default:
        return false;
    }
}

static bool take_operand(cursor *c, const char *key, uint32_t allowed,
                         uint32_t *mode, uint32_t *word)
{
    return take(c, key) && take_mode(c, allowed, mode)
        && take_number(c, P - 1, word);
}

static uint32_t allowed_a(uint32_t op)
{
    return op == OP_DEREF ? CELL : op < OP_XADD ? VALUES : ANY;
}

/* One flag makes both A and B relative to fp. */
static uint32_t allowed_b(uint32_t op, uint32_t mode_a)
{
    return op == OP_DEREF ? IMM : mode_a == FRAME ? FRAME : VALUES;
}

static uint32_t allowed_c(uint32_t op)
{
    return op == OP_JUMP ? CELL | FRAME : ANY;
}

/* The two fields of an extension, into DATA. */
static bool take_lengths(cursor *c, uint32_t op, uint32_t *data)
{
    uint32_t n;
    if (!take(c, " be="))
        return false;
    uint32_t be = (uint32_t)next(c) - '0';
    if (be > 1)
        return false;
    c->at++;
    if (!take(c, " n=") || next(c) == '0' || !take_number(c, MOST_N, &n))
        return false;
    *data = 2 * be + (4u << (op - OP_XADD)) + 32 * n;
    return true;
}

static bool take_line(cursor *c, form *f)
{
    uint32_t op, a, b, frame, data = 0;
    uint32_t word_a, word_b, word_c;
    if (!take_op(c, &op)
        || !take_operand(c, " a=", allowed_a(op), &a, &word_a)
        || !take_operand(c, " b=", allowed_b(op, a), &b, &word_b)
        || !take_operand(c, " c=", allowed_c(op), &frame, &word_c)
        || (op >= OP_XADD && !take_lengths(c, op, &data)) || !take(c, "\n"))
        return false;
    *f = (form){ .a = word_a, .b = word_b, .c = word_c, .fa = a == IMM,
                 .fb = b == IMM, .fc = frame == IMM, .fpc = frame == FRAME,
                 .fpab = a == FRAME, .mul = op == OP_MUL, .jump = op == OP_JUMP,
                 .aux = op == OP_ADD ? 1 : op == OP_DEREF ? 2 : 0, .data = data };
    return true;
}

/* All is read before the first byte is written, and then again. */
second_answer second_read_listing(const uint8_t *text, size_t text_len,
                                  uint8_t *program, size_t program_len,
                                  uint64_t *written)
{
    cursor c = { text, text + text_len };
    uint64_t lines = 0;
    form f;
    *written = 0;
    for (; c.at != c.end && lines < MOST_LINES; lines++)
        if (!take_line(&c, &f))
            return answer(LISTING, 0, (uint64_t)(c.at - text), 0);
    if (c.at != c.end || lines == 0)
        return answer(LISTING, 0, (uint64_t)(c.at - text), 0);
    if (program_len < FORM_BYTES * lines)
        return answer(SHORT, 0, FORM_BYTES * lines, 0);
    c.at = text;
    for (uint64_t i = 0; i < lines; i++) {
        take_line(&c, &f);
        store_form(program + FORM_BYTES * i, &f);
    }
    *written = FORM_BYTES * lines;
    return answer(ACCEPTED, 0, 0, 0);
}
