#include "listings.h"

#include <inttypes.h>
#include <stdio.h>
#include <string.h>

const char *const list_op_names[LIST_OPS] = { "add", "mul", "deref", "jump",
                                              "xadd", "xmul", "xpeq" };
const char *const list_mode_names[LIST_MODES] = { "imm", "cell", "fp" };

uint32_t shape_of(const listed *l)
{
    return 54 * l->op + 18 * l->modes[OP_A] + 6 * l->modes[OP_B]
         + 2 * l->modes[OP_C] + l->be;
}

void set_shape(listed *l, uint32_t shape)
{
    l->op = shape / 54;
    l->modes[OP_A] = shape / 18 % 3;
    l->modes[OP_B] = shape / 6 % 3;
    l->modes[OP_C] = shape / 2 % 3;
    l->be = shape % 2;
}

static bool mode_fits(const listed *l, uint32_t operand)
{
    uint32_t mode = l->modes[operand];
    if (operand == OP_C)
        return l->op != L_JUMP || mode != L_IMM;
    if (l->op == L_DEREF)
        return mode == (operand == OP_A ? L_CELL : L_IMM);
    if (l->op < L_XADD)
        return mode != L_FP;
    return operand == OP_A || (mode == L_FP) == (l->modes[OP_A] == L_FP);
}

uint32_t wrong_operand(const listed *l)
{
    uint32_t operand = OP_A;
    while (operand <= OP_C && mode_fits(l, operand))
        operand++;
    return operand;
}

bool possible_shape(uint32_t shape)
{
    listed l;
    set_shape(&l, shape);
    return wrong_operand(&l) > OP_C && (l.be == 0 || l.op >= L_XADD);
}

size_t print_line(const listed *l, uint8_t to[LONGEST_LINE + 1], size_t modes[3])
{
    char line[LONGEST_LINE + 1];
    int len = snprintf(line, sizeof line, "op=%s", list_op_names[l->op]);
    for (uint32_t k = OP_A; k <= OP_C; k++) {
        if (modes != NULL)
            modes[k] = (size_t)len + 3;
        len += snprintf(line + len, sizeof line - (size_t)len, " %c=%s:%" PRIu32, "abc"[k],
                        list_mode_names[l->modes[k]], l->words[k]);
    }
    if (l->op >= L_XADD)
        len += snprintf(line + len, sizeof line - (size_t)len, " be=%" PRIu32 " n=%" PRIu32,
                        l->be, l->n);
    line[len] = '\n';
    memcpy(to, line, (size_t)len + 1);
    return (size_t)len + 1;
}

void print_lines(const listed *l, uint32_t count, list_text *to)
{
    to->len = 0;
    for (uint32_t i = 0; i < count; i++)
        to->len += print_line(&l[i], to->bytes + to->len, NULL);
}

void store_listed(const listed *l, uint8_t *to)
{
    uint32_t words[FORM_WORDS] = { l->words[OP_A], l->words[OP_B], l->words[OP_C] };
    bool extension = l->op >= L_XADD;
    for (uint32_t k = OP_A; k <= OP_C; k++)
        words[F_A + k] = l->modes[k] == L_IMM;
    words[FP_C] = l->modes[OP_C] == L_FP;
    words[FP_AB] = l->modes[OP_A] == L_FP || l->modes[OP_B] == L_FP;
    words[W_MUL] = l->op == L_MUL;
    words[W_JUMP] = l->op == L_JUMP;
    words[W_AUX] = l->op == L_ADD ? 1 : l->op == L_DEREF ? 2 : 0;
    words[W_DATA] = extension ? 2 * l->be + (4u << (l->op - L_XADD)) + 32 * l->n : 0;
    for (uint32_t k = 0; k < FORM_WORDS; k++)
        store_word(to + 4 * k, words[k]);
}

static uint32_t op_of(const uint32_t words[FORM_WORDS])
{
    if (words[W_AUX] != 0)
        return words[W_AUX] == 1 ? L_ADD : L_DEREF;
    if (words[W_MUL] == 1 || words[W_JUMP] == 1)
        return words[W_MUL] == 1 ? L_MUL : L_JUMP;
    return L_XADD + words[W_DATA] % 32 / 8; /* 4, 8 or 16, and be */
}

listed load_listed(const uint8_t *from)
{
    uint32_t words[FORM_WORDS];
    listed l;
    for (uint32_t k = 0; k < FORM_WORDS; k++)
        words[k] = load_word(from + 4 * k);
    l.op = op_of(words);
    for (uint32_t k = OP_A; k <= OP_C; k++) {
        uint32_t frame = words[k == OP_C ? FP_C : FP_AB];
        l.modes[k] = words[F_A + k] == 1 ? L_IMM : frame == 1 ? L_FP : L_CELL;
        l.words[k] = words[k];
    }
    l.be = words[W_DATA] / 2 % 2;
    l.n = words[W_DATA] / 32;
    return l;
}

/* As many digits as there may be, one less, and those where the last digit
 * decides, are drawn often. */
void some_numbers(source *random, listed *l)
{
    static const uint32_t near[] = { 100, 99999999, 213070642, 213070643, 213070644,
                                     999999999, 1000000000, 2130706430, 2130706431 };
    static const uint32_t near_n[] = { 2, 100, 99999, 104857, 104858, 999999, 1000000 };
    for (uint32_t k = OP_A; k <= OP_C; k++)
        l->words[k] = once_in(random, 3) ? below(random, P)
                    : once_in(random, 3) ? near[below(random, sizeof near / sizeof *near)]
                    : edge_words[below(random, EDGE_WORDS)];
    l->n = once_in(random, 3) ? 1 + below(random, MOST_N)
         : once_in(random, 3) ? near_n[below(random, sizeof near_n / sizeof *near_n)]
         : edge_lengths[below(random, EDGE_LENGTHS)];
}

uint32_t some_lines(source *random, listed *l, uint32_t most)
{
    uint32_t count = 1 + below(random, most);
    for (uint32_t i = 0; i < count; i++) {
        uint32_t shape;
        do
            shape = below(random, SHAPES);
        while (!possible_shape(shape));
        set_shape(&l[i], shape);
        some_numbers(random, &l[i]);
    }
    return count;
}
